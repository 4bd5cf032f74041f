#!/usr/bin/env python3
"""Settings and captures of a host of many tenants, written into a folder: many_tenants.py FOLDER [SEGMENTS [ADDRESSES [ROUNDS]]]

Each segment has as many addresses, half of them behind port 1 and half behind port 2, which are both trunks of all
segments. In each round every address sends one frame to another address of its segment: the first round fills the
tables, and from the second on each frame finds its source and its destination there. No entry grows old. The number
of frames is printed."""
import struct
import sys
from pathlib import Path

HEADER = struct.pack("<IHHiIII", 0xA1B2C3D4, 2, 4, 0, 0, 262144, 1)
MICROSECONDS = 1_000_000


def settings(segments, limit):
    vids = range(1, segments + 1)
    text = 'version = 1\n[underlay]\nmac = "02:00:00:00:aa:01"\nnext_hop = "02:00:00:00:aa:fe"\nip4 = "192.0.2.1"\n'
    text += "[[port]]\npvid = 1\n" * 2
    for vid in vids:
        text += f'[[segment]]\nvid = {vid}\nvni = {5000 + vid}\ntunnel = "vxlan"\nlimit = {limit}\n'
        text += 'untagged = []\ntagged = [1, 2]\nflood = ["192.0.2.2"]\n'
    return text


def mac(number):
    return b"\x02\x00" + struct.pack(">I", number)


def frame(vid, source, destination):
    return mac(destination) + mac(source) + struct.pack(">HHH", 0x8100, vid, 0x0800) + bytes(46)


def record(moment, octets):
    head = struct.pack("<IIII", moment // MICROSECONDS, moment % MICROSECONDS, len(octets), len(octets))
    return head + octets


def main(folder, segments=64, addresses=1000, rounds=3):
    folder = Path(folder)
    captures = [[HEADER], [HEADER]]
    moment = 0
    for turn in range(rounds):
        for number in range(addresses):
            for vid in range(1, segments + 1):
                # an odd step back, so that it stands behind the other port, and has spoken before
                destination = (number - 262 * turn - 1) % addresses
                captures[number % 2].append(record(moment, frame(vid, number, destination)))
                moment += 1
    (folder / "settings.toml").write_text(settings(segments, addresses))
    for port in (1, 2):
        (folder / f"port{port}.pcap").write_bytes(b"".join(captures[port - 1]))
    (folder / "underlay.pcap").write_bytes(HEADER)
    print(moment)


main(sys.argv[1], *map(int, sys.argv[2:]))
