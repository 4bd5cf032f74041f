#!/usr/bin/env python3
"""Works out what `tep compare --worked` prints of the captures of a folder of examples/compare, with nothing of tep: what came in
goes through a bridge of one segment that learns (IEEE 802.1Q, 7 and 8), whose remote is one in VXLAN 5000 (RFC 7348), and what
should have left is looked for in what left. Usage: compare_lab.py FOLDER; prints the report."""
import collections
import pathlib
import struct
import sys

PLACES = ["port1", "port2", "port3", "underlay"]
WORDS = ["p1", "p2", "p3", "u"]
WITHIN = 1_000_000_000
OWN, PEER, VNI = bytes([192, 0, 2, 1]), bytes([192, 0, 2, 2]), 5000


def read(path):
    """The moment and the octets of each record of a classic capture of nanoseconds."""
    text, at = path.read_bytes(), 24
    while at < len(text):
        seconds, fraction, length, _ = struct.unpack_from("<IIII", text, at)
        yield seconds * 1_000_000_000 + fraction, text[at + 16 : at + 16 + length]
        at += 16 + length


def carried(octets):
    """Who sends to whom in which VXLAN network which frame; None where it is no packet of VXLAN over IPv4."""
    if octets[12:15] != b"\x08\x00\x45" or octets[23] != 17 or octets[36:38] != struct.pack(">H", 4789):
        return None
    end = 34 + struct.unpack(">H", octets[38:40])[0]
    return octets[26:30], octets[30:34], int.from_bytes(octets[46:49], "big"), octets[50:end]


def worked_out(folder):
    """What should leave at each place: moments, and frames or what packets carry."""
    leaves = {place: [] for place in PLACES}
    homes = {}
    coming = [(moment, place, octets) for place in PLACES for moment, octets in read(folder / f"{place}.pcap")]
    for moment, source, octets in sorted(coming):
        frame = octets
        if source == "underlay":
            packet = carried(octets)
            if packet is None or packet[:3] != (PEER, OWN, VNI):
                continue
            frame = packet[3]
        to, sender = frame[:6], frame[6:12]
        if to[:5] == bytes.fromhex("0180c20000") and to[5] < 16:
            continue
        homes[sender] = source
        known = None if to[0] & 1 else homes.get(to)
        for place in PLACES:
            if place != source and known in (None, place):
                leaves[place].append((moment, (OWN, PEER, VNI, frame) if place == "underlay" else frame))
    return leaves


def both(worked, seen):
    """When those that are both should have left, as they were seen: each is the first that should have left, is the same and isn't
    taken."""
    awaited = collections.defaultdict(collections.deque)
    for moment, key in worked:
        awaited[key].append(moment)
    left = []
    for moment, key in seen:
        queue = awaited[key]
        while queue and queue[0] + WITHIN < moment:
            queue.popleft()
        if queue and queue[0] <= moment:
            left.append(queue.popleft())
    return left


def line(word, worked, seen, met):
    alone = f"sent alone {worked - met}, received alone {seen - met}"
    return f"{word}: sent {worked}, received {seen}, both {met}, {alone}"


def main():
    folder = pathlib.Path(sys.argv[1])
    leaves = worked_out(folder)
    sums = [0, 0, 0]
    for place, word in zip(PLACES, WORDS):
        seen = [*read(folder / f"sent_{place}.pcap")]
        if place == "underlay":
            seen = [(moment, carried(octets) or octets) for moment, octets in seen]
        left = both(leaves[place], seen)
        counts = [len(leaves[place]), len(seen), len(left)]
        sums = [one + other for one, other in zip(sums, counts)]
        print(line(word, *counts))
        behind = sum(moment < max(left[:at], default=0) for at, moment in enumerate(left))
        if behind:
            print(f"{word}: behind another {behind}")
    print(line("all", *sums))


main()
