#!/usr/bin/env python3
"""What ./tep compare tells of a port where nothing was captured: a line for each record of what a run wrote there, the counts, and
the table by length. Usage: compare_lonely.py PLACE CAPTURE DECISIONS."""
import collections
import struct
import sys


def main():
    place, path, decisions = sys.argv[1:]
    with open(decisions, encoding="ascii") as lines:
        rows = [line.split() for line in lines if not line.startswith("cut")]
    events = [row[0] for row in rows for word in row[5:] if word.startswith(f"{place}=")]
    with open(path, "rb") as capture:
        data = capture.read()
    order = "<" if data[0] in (0xD4, 0x4D) else ">"
    unit = 1 if struct.unpack(order + "I", data[:4])[0] == 0xA1B23C4D else 1000
    at, number, lengths = 24, 0, collections.Counter()
    while at < len(data):
        seconds, fraction, length = struct.unpack_from(order + "III", data, at)
        at, number = at + 16 + length, number + 1
        lengths[length] += 1
        frame = data[at - length : at]
        segment = f"vlan {int.from_bytes(frame[14:16], 'big') & 4095}" if frame[12:14] == b"\x81\0" else "untagged"
        moment, event = seconds * 10**9 + fraction * unit, events[number - 1]
        print(f"{moment} {place} sent alone length {length} record {number} {segment} event {event}")
    print(f"{place}: sent {number}, received 0, both 0, sent alone {number}, received alone 0")
    for length in sorted(lengths):
        print(f"{place}: length {length}: both 0, sent alone {lengths[length]}, received alone 0")


main()
