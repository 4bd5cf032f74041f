#!/usr/bin/env python3
"""Reads the view of a run (docs/formats/view.md) block by block, whole and cut at every octet, beside what the run wrote.

    view.py VIEW OUT UNDERLAY PORT..    OUT is the folder that the run wrote into, the others are the captures that it read
"""
import struct
import sys

PACKET, JOURNAL, INTERFACE, SECTION = 6, 9, 1, 0x0A0D0D0A


def blocks(text):
    """The types and the bodies of the whole blocks."""
    at = 0
    while at + 12 <= len(text):
        kind, size = struct.unpack_from("<II", text, at)
        if at + size > len(text):
            return
        assert size % 4 == 0 and size >= 12, "a block's length"
        assert struct.unpack_from("<I", text, at + size - 4)[0] == size, "a block's second length"
        yield kind, text[at + 8 : at + size - 4]
        at += size


def options(text):
    """The codes and the values of options, which end with the text."""
    found, at = [], 0
    while True:
        code, size = struct.unpack_from("<HH", text, at)
        end = at + 4 + size + -size % 4
        assert not any(text[at + 4 + size : end]), "padding of an option"
        if code == 0:
            assert size == 0 and end == len(text), "the end of options"
            return found
        found.append((code, text[at + 4 : at + 4 + size]))
        at = end


def records(path):
    """The moments, octets and original lengths of a classic capture's whole records."""
    data = open(path, "rb").read()
    order = "<" if data[0] in (0xD4, 0x4D) else ">"
    scale = 1000 if struct.unpack(order + "I", data[:4])[0] == 0xA1B2C3D4 else 1
    at, found = 24, []
    while at + 16 <= len(data):
        seconds, fraction, size, original = struct.unpack_from(order + "IIII", data, at)
        if at + 16 + size > len(data):
            break
        found.append((seconds * 10**9 + fraction * scale, data[at + 16 : at + 16 + size], original))
        at += 16 + size
    return found


def raised(found):
    """The same, each at the greatest moment so far."""
    last, risen = 0, []
    for moment, octets, original in found:
        last = max(last, moment)
        risen.append((last, octets, original))
    return risen


class View:
    """What a view has: the names of its interfaces, what came and what left at each, and lines."""

    def __init__(self, text):
        self.names, self.came, self.left, self.lines = [], {}, {}, []
        event, moment = None, 0
        for index, (kind, body) in enumerate(blocks(text)):
            assert (kind == SECTION) == (index == 0), "the section"
            if kind == SECTION:
                assert body[:16] == struct.pack("<IHHq", 0x1A2B3C4D, 1, 0, -1), "the section's numbers"
                assert options(body[16:]) == [(1, b"inbound: captured; outbound: worked out by tep"), (4, b"tep")]
            elif kind == INTERFACE:
                assert body[:8] == struct.pack("<HHI", 1, 0, 262144), "an interface's numbers"
                (two, name), clock = options(body[8:])
                assert two == 2 and clock == (9, b"\x09"), "an interface's options"
                self.names.append(name.decode())
                self.came[self.names[-1]], self.left[self.names[-1]] = [], []
            elif kind == PACKET:
                event, moment = self.packet(body, event, moment)
            else:
                assert kind == JOURNAL, "a block's type"
                moment = self.journal(body, moment)

    def packet(self, body, event, moment):
        number, high, low, size, original = struct.unpack_from("<IIIII", body)
        at, end = 20 + size, 20 + size + -size % 4
        assert not any(body[at:end]), "padding of a packet"
        (one, comment), (two, flags), (five, identity) = options(body[end:])
        assert (one, two, five) == (1, 2, 5), "a packet's options"
        direction, own = struct.unpack("<I", flags)[0], struct.unpack("<Q", identity)[0]
        assert (high << 32 | low) >= moment, "moments fall"
        moment = high << 32 | low
        record, name = (moment, body[20:at], original), self.names[number]
        if direction == 1:
            self.came[name].append(record)
            self.lines.append(comment.decode())
            assert comment.split()[0] == b"%d" % own and comment.split()[1] == b"%d" % moment, "the event of a comment"
            assert comment.split()[2].decode() == name, "the interface of a comment"
            return own, moment
        assert direction == 2 and own == event and original == size, "a packet that left"
        place, length = comment.rsplit(b"=", 1)
        assert place.startswith(b"of %d " % event) and int(length) == size, "the comment of what left"
        assert place.split()[2].decode() in self.lines[-1], "the outcome of what left"
        assert name == "u" or place.split()[2].decode() == name, "the interface of what left"
        self.left[name].append(record)
        return event, moment

    def journal(self, body, moment):
        text = body.rstrip(b"\0")
        assert len(body) - len(text) < 4, "padding of an entry"
        clock, who, message = text.decode().rstrip("\n").split("\n")
        assert who == "SYSLOG_IDENTIFIER=tep" and message.startswith("MESSAGE="), "an entry's fields"
        self.lines.append(message[len("MESSAGE=") :])
        words = self.lines[-1].split()
        at = moment if words[0] == "cut" else int(words[1])
        assert clock == "__REALTIME_TIMESTAMP=%d" % (at // 1000), "an entry's moment"
        return at


def main(view, out, underlay, *ports):
    text = open(view, "rb").read()
    places = ["p%d" % (k + 1) for k in range(len(ports))] + ["u"]
    whole = View(text)
    assert sum(12 + len(body) for _, body in blocks(text)) == len(text), "it ends within a block"
    assert whole.names == places, "interfaces"
    assert whole.lines == open(out + "/decisions.txt").read().splitlines(), "lines"
    files = ["port%d.pcap" % (k + 1) for k in range(len(ports))] + ["underlay.pcap"]
    for place, path, file in zip(places, list(ports) + [underlay], files):
        assert whole.came[place] == raised(records(path)), "what came at " + place
        assert whole.left[place] == records(out + "/" + file), "what left at " + place
    for end in range(len(text) if len(text) < 6000 else 0):
        front = View(text[:end])
        assert front.lines == whole.lines[: len(front.lines)], "lines of a front"


if __name__ == "__main__":
    main(*sys.argv[1:])
