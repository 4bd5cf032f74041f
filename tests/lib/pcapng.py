#!/usr/bin/env python3
"""Writes one pcapng capture (draft-ietf-opsawg-pcapng) of several classic ones, each an interface of its own.

    tests/lib/pcapng.py OUT NAME=CAPTURE ..

The captures are little-endian and in microseconds. What is written is big-endian: a section, the interfaces by their
names in ticks of a nanosecond, and the packets by moment.

    tests/lib/pcapng.py --directions FOLDER CAPTURE

writes a file of one interface into the folder for each row of the table below, in both byte orders, in which each packet
stands in a block of the row's type with its options, and prints for each its name, a tab, whether its packets are taken
or left out, a tab, and what the row is.
"""
import struct
import sys


def block(kind, body):
    """A block: its type, its length, its body, and its length again."""
    length = struct.pack(">I", 12 + len(body))
    return struct.pack(">I", kind) + length + body + length


def padded(octets):
    """Octets up to a multiple of four."""
    return octets + bytes(-len(octets) % 4)


def option(code, value, order=">"):
    return struct.pack(order + "HH", code, len(value)) + padded(value)


def directions(order):
    """Packets by what their options tell of their direction (4.3.1, and A.1 of the obsolete packet block): what the row is,
    the type of the block, its options, and whether the packet is taken. Code 2 is the flags, 32 bits, and the lowest two
    tell the direction: 0 isn't known, 1 is inbound, 2 is outbound, 3 is reserved. Code 0 ends the options."""
    def flags(value):
        return option(2, struct.pack(order + "I", value), order)
    end = option(0, b"", order)
    comment = option(1, b"hello", order)
    runs_out = struct.pack(order + "HH", 1, 64)
    return [
        ("no option", 6, b"", True),
        ("the end of options alone", 6, end, True),
        ("no direction", 6, flags(0) + end, True),
        ("inbound", 6, flags(1) + end, True),
        ("outbound", 6, flags(2) + end, False),
        ("the reserved direction", 6, flags(3) + end, True),
        ("inbound, all other bits set", 6, flags(0xFFFFFFFD) + end, True),
        ("outbound, all other bits set", 6, flags(0xFFFFFFFE) + end, False),
        ("outbound without an end of options", 6, flags(2), False),
        ("outbound behind a comment", 6, comment + flags(2) + end, False),
        ("a comment", 6, comment + end, True),
        ("outbound behind the end of options", 6, end + flags(2), True),
        ("inbound, and outbound behind that", 6, flags(1) + flags(2) + end, True),
        ("outbound, and inbound behind that", 6, flags(2) + flags(1) + end, False),
        ("flags of 2 octets", 6, option(2, struct.pack(order + "H", 2), order) + end, True),
        ("flags of 8 octets", 6, option(2, struct.pack(order + "II", 2, 2), order) + end, True),
        ("flags that run out of the block", 6, struct.pack(order + "HHI", 2, 8, 2), True),
        ("outbound in front of an option that runs out of the block", 6, flags(2) + runs_out, False),
        ("outbound behind an option that runs out of the block", 6, runs_out + flags(2), True),
        ("an obsolete packet block without options", 2, b"", True),
        ("inbound in an obsolete packet block", 2, flags(1) + end, True),
        ("outbound in an obsolete packet block", 2, flags(2) + end, False),
    ]


def write_directions(folder, capture):
    """Writes the files of the rows, and prints the rows."""
    for name, order in (("big", ">"), ("little", "<")):
        def ordered(kind, body):
            length = struct.pack(order + "I", 12 + len(body))
            return struct.pack(order + "I", kind) + length + body + length
        head = ordered(0x0A0D0D0A, struct.pack(order + "IHHq", 0x1A2B3C4D, 1, 0, -1))
        head += ordered(1, struct.pack(order + "HHI", 1, 0, 0) + option(9, b"\x09", order) + option(0, b"", order))
        for number, (what, kind, options, is_taken) in enumerate(directions(order)):
            text = head
            for moment, _, original, octets in packets(capture, 0):
                numbers = moment >> 32, moment & 0xFFFFFFFF, len(octets), original
                text += ordered(kind, struct.pack(order + "IIIII", 0, *numbers) + padded(octets) + options)
            with open(f"{folder}/{name}{number}.pcapng", "wb") as out:
                out.write(text)
            print(f"{name}{number}.pcapng", "taken" if is_taken else "left", f"{what}, {name}-endian", sep="\t")


def packets(name, number):
    """The records of a capture, as moment, interface, octets that the frame had, and octets."""
    with open(name, "rb") as capture:
        text = capture.read()
    assert text[:4] == b"\xd4\xc3\xb2\xa1", name
    at = 24
    while at < len(text):
        second, fraction, captured, original = struct.unpack_from("<IIII", text, at)
        at += 16
        yield second * 10**9 + fraction * 1000, number, original, text[at:at + captured]
        at += captured


def main():
    out, *captures = sys.argv[1:]
    if out == "--directions":
        write_directions(*captures)
        return
    text = block(0x0A0D0D0A, struct.pack(">IHHq", 0x1A2B3C4D, 1, 0, -1))
    found = []
    for number, capture in enumerate(captures):
        name, file = capture.split("=", 1)
        options = option(2, name.encode()) + option(9, b"\x09") + option(0, b"")
        text += block(1, struct.pack(">HHI", 1, 0, 0) + options)
        found.extend(packets(file, number))
    for moment, number, original, octets in sorted(found, key=lambda packet: packet[0]):
        head = struct.pack(">IIIII", number, moment >> 32, moment & 0xFFFFFFFF, len(octets), original)
        text += block(6, head + padded(octets))
    with open(out, "wb") as capture:
        capture.write(text)


main()
