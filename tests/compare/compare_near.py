#!/usr/bin/env python3
"""`tep compare --worked .. --list`: a folder as a run leaves it, and captures of what went out, made here octet by octet, and what
each line tells besides: segment, event, and what of a near one differs, as worked out by hand, and the line that counts it. Usage:
compare_near.py TEP FOLDER; prints what differs, and exits 1 where something does."""
import os
import re
import struct
import subprocess
import sys

BODY = b"\x08\0" + bytes(range(50))
MACS = b"\2\0\0\0\0\1\2\0\0\0\0\2"


def at_port(tag=b"", body=BODY):
    """A frame, and in front of its type a tag (IEEE 802.1Q, 9.6)."""
    return MACS + tag + body


def tag(vid, pcp=0):
    return struct.pack(">HH", 0x8100, pcp << 13 | vid)


def packet(port, head, inner, destination=2):
    """A packet over IPv4 (RFC 791, 3.1) and UDP without a checksum (RFC 768)."""
    payload = struct.pack(">HHHH", 50000, port, 8 + len(head + inner), 0) + head + inner
    fields = struct.pack(">BBHHHBBH", 0x45, 0, 20 + len(payload), 0, 0, 64, 17, 0) + bytes([192, 0, 2, 1, 192, 0, 2, destination])
    total = sum(struct.unpack(">10H", fields))
    total = (total & 0xFFFF) + (total >> 16)
    return MACS + b"\x08\0" + fields[:10] + struct.pack(">H", total ^ 0xFFFF) + fields[12:] + payload


def vxlan(vni, inner=BODY, destination=2):
    """RFC 7348, 5."""
    return packet(4789, struct.pack(">II", 8 << 24, vni << 8), inner, destination)


def geneve(vni, inner=BODY, destination=2):
    """RFC 8926, 3.4."""
    return packet(6081, struct.pack(">HHI", 0, 0x6558, vni << 8), inner, destination)


def write(path, records):
    """A classic capture of nanoseconds."""
    with open(path, "wb") as out:
        out.write(struct.pack("<IHHIIII", 0xA1B23C4D, 2, 4, 0, 0, 262144, 1))
        for moment, octets, *original in records:
            out.write(struct.pack("<IIII", moment // 10**9, moment % 10**9, len(octets), *(original or [len(octets)])) + octets)


# What a run worked out, the decision line's places, what was captured, and what the lines of the place tell, by hand. Moments are
# in nanoseconds, and a record may be captured 100 later. A record that is cut has its original length behind its octets.
PORT = [
    ("a tag more", [(10, at_port())], [(12, at_port(tag(20)))],
     ["10 p1 sent alone length 64 record 1 untagged event 1 tag 20 for none", "12 p1 received alone length 68 record 1 vlan 20"]),
    ("a tag less", [(10, at_port(tag(20)))], [(12, at_port())],
     ["10 p1 sent alone length 68 record 1 vlan 20 event 1 tag none for 20", "12 p1 received alone length 64 record 1 untagged"]),
    ("another VID", [(10, at_port(tag(20)))], [(12, at_port(tag(21)))],
     ["10 p1 sent alone length 68 record 1 vlan 20 event 1 tag 21 for 20", "12 p1 received alone length 68 record 1 vlan 21"]),
    ("another VID and another body", [(10, at_port(tag(20)))], [(12, at_port(tag(21), BODY[:-1] + b"x"))],
     ["10 p1 sent alone length 68 record 1 vlan 20 event 1", "12 p1 received alone length 68 record 1 vlan 21"]),
    ("another priority alone", [(10, at_port(tag(20)))], [(12, at_port(tag(20, 5)))],
     ["10 p1 sent alone length 68 record 1 vlan 20 event 1", "12 p1 received alone length 68 record 1 vlan 20"]),
    ("padding", [(10, at_port())], [(12, at_port() + bytes(6))],
     ["10 p1 sent alone length 64 record 1 untagged event 1 length 70 for 64", "12 p1 received alone length 70 record 1 untagged"]),
    ("a front", [(10, at_port())], [(12, at_port()[:60])],
     ["10 p1 sent alone length 64 record 1 untagged event 1 length 60 for 64", "12 p1 received alone length 60 record 1 untagged"]),
    ("a tag more and a front", [(10, at_port())], [(12, at_port(tag(20))[:60])],
     ["10 p1 sent alone length 64 record 1 untagged event 1", "12 p1 received alone length 60 record 1 vlan 20"]),
    ("one near, named once", [(10, at_port()), (11, at_port())], [(12, at_port()[:60])],
     ["10 p1 sent alone length 64 record 1 untagged event 1 length 60 for 64", "11 p1 sent alone length 64 record 2 untagged event 2",
      "12 p1 received alone length 60 record 1 untagged"]),
    ("the first of two", [(10, at_port())], [(12, at_port()[:60]), (13, at_port(tag(20)))],
     ["10 p1 sent alone length 64 record 1 untagged event 1 length 60 for 64", "12 p1 received alone length 60 record 1 untagged",
      "13 p1 received alone length 68 record 2 vlan 20"]),
    ("too early", [(10, at_port())], [(9, at_port()[:60])],
     ["9 p1 received alone length 60 record 1 untagged", "10 p1 sent alone length 64 record 1 untagged event 1"]),
    ("at the last moment", [(10, at_port())], [(110, at_port()[:60])],
     ["10 p1 sent alone length 64 record 1 untagged event 1 length 60 for 64", "110 p1 received alone length 60 record 1 untagged"]),
    ("too late", [(10, at_port())], [(111, at_port()[:60])],
     ["10 p1 sent alone length 64 record 1 untagged event 1", "111 p1 received alone length 60 record 1 untagged"]),
    ("a runt", [(10, MACS)], [], ["10 p1 sent alone length 12 record 1 untagged event 1"]),
    ("another VID, cut alike", [(10, at_port(tag(20)), 72)], [(12, at_port(tag(21)), 72)],
     ["10 p1 sent alone length 68 record 1 vlan 20 event 1 tag 21 for 20", "12 p1 received alone length 68 record 1 vlan 21"]),
    ("another VID, cut otherwise", [(10, at_port(tag(20)), 72)], [(12, at_port(tag(21)), 73)],
     ["10 p1 sent alone length 68 record 1 vlan 20 event 1", "12 p1 received alone length 68 record 1 vlan 21"]),
    ("another VID, one cut", [(10, at_port(tag(20)))], [(12, at_port(tag(21)), 69)],
     ["10 p1 sent alone length 68 record 1 vlan 20 event 1", "12 p1 received alone length 68 record 1 vlan 21"]),
    ("a front, one cut", [(10, at_port())], [(12, at_port()[:60], 64)],
     ["10 p1 sent alone length 64 record 1 untagged event 1", "12 p1 received alone length 60 record 1 untagged"]),
    ("a front, cut alike", [(10, at_port(), 68)], [(12, at_port()[:60], 64)],
     ["10 p1 sent alone length 64 record 1 untagged event 1", "12 p1 received alone length 60 record 1 untagged"]),
    ("cut to the same octets", [(10, at_port(), 68)], [(12, at_port(), 69)],
     ["10 p1 sent alone length 64 record 1 untagged event 1", "12 p1 received alone length 64 record 1 untagged"]),
]
# The key of a packet over IPv4 is 15 octets more than its inner frame, and of another packet one more than its own.
UNDERLAY = [
    ("another VNI", [(10, vxlan(5000))], [(12, vxlan(5001))],
     ["10 u sent alone length 67 record 1 vxlan 5000 event 1 vni 5001 for 5000", "12 u received alone length 67 record 1 vxlan 5001"]),
    ("another kind", [(10, vxlan(5000))], [(12, geneve(5000))],
     ["10 u sent alone length 67 record 1 vxlan 5000 event 1 kind geneve for vxlan", "12 u received alone length 67 record 1 geneve 5000"]),
    ("another remote", [(10, geneve(5000))], [(12, geneve(5000, destination=3))],
     ["10 u sent alone length 67 record 1 geneve 5000 event 1 remote 192.0.2.3 for 192.0.2.2",
      "12 u received alone length 67 record 1 geneve 5000"]),
    ("another VNI and remote", [(10, vxlan(5000))], [(12, vxlan(5001, destination=3))],
     ["10 u sent alone length 67 record 1 vxlan 5000 event 1", "12 u received alone length 67 record 1 vxlan 5001"]),
    ("another VNI and inner frame", [(10, vxlan(5000))], [(12, vxlan(5001, BODY[:-1] + b"x"))],
     ["10 u sent alone length 67 record 1 vxlan 5000 event 1", "12 u received alone length 67 record 1 vxlan 5001"]),
    ("another VNI, cut", [(10, vxlan(5000), 106)], [(12, vxlan(5001), 106)],
     ["10 u sent alone length 103 record 1 no tunnel event 1", "12 u received alone length 103 record 1 no tunnel"]),
    ("no tunnel", [(10, vxlan(5000))], [(12, at_port())],
     ["10 u sent alone length 67 record 1 vxlan 5000 event 1", "12 u received alone length 65 record 1 no tunnel"]),
]
# Decision lines, and the events of three records of port 1, or the fault.
LINES = [
    ("an event a record", "1 5 p2 1 10 p1=64\n2 6 p2 2 10 p1=64 p3=64\n3 7 p2 3 10 p1=64\n", [1, 2, 3], ""),
    ("events that go elsewhere", "1 5 p2 1 10 p3=64\n2 6 p2 2 10 p1=64\n3 6 c 1 - ok\n4 7 p2 3 10 drop 30 Own\n5 8 p2 4 10 p1=64 p1=64\n",
     [2, 5, 5], ""),
    ("too few", "1 5 p2 1 10 p1=64\n2 6 p2 2 10 p3=64 192.0.2.2=114\n", [1], "decisions.txt for p1: too few lines"),
    ("too few in front of a cut capture", "1 5 p2 1 10 p1=64\ncut p2 1\n", [1], "decisions.txt for p1: too few lines"),
    ("a cut line", "1 5 p2 1 10 p1=64\n2 6 p2 2 10 p1=6", [1], "decisions.txt for p1: line NoEnd"),
    ("no number", "1 5 p2 1 10 p1=64\nx 6 p2 2 10 p1=64\n", [1], "decisions.txt for p1: line Number"),
    ("an event twice", "1 5 p2 1 10 p1=64\n1 6 p2 2 10 p1=64\n", [1], "decisions.txt for p1: event 1 behind a later one"),
    ("a long line", "1 5 p2 1 10 p1=64\n2 6 p2 2 10 " + "x" * 131_072 + "\n", [1], "decisions.txt for p1: long line"),
]


def counted(lines):
    """What differs, counted: in each of these rows of one pair, whose second is the first record that was received."""
    ways = [re.match(r"\d+ (\S+) sent .* record (\d+) (.*) event \d+ (.*)", line) for line in lines]
    return [f"{way[1]}: {way[3]}: {way[4]}: 1, first record 1 for {way[2]}" for way in ways if way]


def main():
    tep, folder = sys.argv[1:]
    worked, seen = os.path.join(folder, "near"), os.path.join(folder, "near.pcap")
    os.mkdir(worked)
    failed = False

    def decide(text):
        with open(f"{worked}/decisions.txt", "w", encoding="ascii") as out:
            out.write(text)

    def is_told(what, lines, fault, *words):
        nonlocal failed
        done = subprocess.run([tep, "compare", "--list", "--within", "100ns", "--worked", worked, *words], capture_output=True, text=True)
        told = done.stdout.splitlines()
        printed = sorted((line for line in told if " alone length " in line), key=lambda line: int(line.split()[0]))
        printed += [line for line in told if ", first record " in line]
        complaint = done.stderr.split("\n")[0]
        wanted = f"{worked}: {fault}" if fault else "what was received isn't what was sent"
        if (done.returncode, printed, complaint) != (1, lines + counted(lines), wanted):
            print(f"compare_near.py: {what}: status {done.returncode}\n{done.stdout}{done.stderr}")
            failed = True

    write(f"{worked}/underlay.pcap", [])
    for what, sent, received, lines in PORT:
        decide("".join(f"{k + 1} 5 p2 {k + 1} 10 p1=64\n" for k in range(len(sent))))
        write(f"{worked}/port1.pcap", sent)
        write(seen, received)
        is_told(what, lines, "", "-u", "-", seen)
    write(f"{worked}/port1.pcap", [])
    for what, sent, received, lines in UNDERLAY:
        decide("".join(f"{k + 1} 5 p1 {k + 1} 10 192.0.2.2=116\n" for k in range(len(sent))))
        write(f"{worked}/underlay.pcap", sent)
        write(seen, received)
        is_told(what, lines, "", "-u", seen, "-")
    write(f"{worked}/port1.pcap", [(10 * k, at_port()) for k in range(1, 4)])
    write(seen, [])
    for what, text, events, fault in LINES:
        decide(text)
        told = [f"{10 * (k + 1)} p1 sent alone length 64 record {k + 1} untagged event {event}" for k, event in enumerate(events)]
        is_told(what, told, fault, "-u", "-", seen)
    return failed


if __name__ == "__main__":
    sys.exit(main())
