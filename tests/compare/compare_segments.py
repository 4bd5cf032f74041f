#!/usr/bin/env python3
"""`tep compare --worked .. --settings`: the counts by segment, of a folder as a run leaves it and captures of what went out, made
here octet by octet, as worked out by hand. Usage: compare_segments.py TEP FOLDER; prints what differs, and exits 1 where something
does."""
import os
import subprocess
import sys

from compare_worked import OPTION, cut, frame, geneve, ip4, ip6, line, udp, vxlan, write

SETTINGS = """version = 3
[underlay]
mac = "02:00:00:00:00:01"
next_hop = "02:00:00:00:00:02"
ip4 = "192.0.2.1"
[[port]]
pvid = 10
[[port]]
pvid = 30
[[segment]]
vid = 10
untagged = [1]
tagged = [2]
[[segment.tunnel]]
kind = "vxlan"
vni = 5000
[[segment]]
vid = 20
untagged = [1, 2]
[[segment.tunnel]]
kind = "vxlan"
vni = 6000
[[segment.tunnel]]
kind = "geneve"
vni = 5000
[[segment]]
vid = 4094
tagged = [1, 2]
[[segment.tunnel]]
kind = "geneve"
vni = 16777215
"""
PLACES = ["p1", "p2", "u"]
DIFFERS = "what was received isn't what was sent\n"


def tagged(tci, kind=b"\x81\x00", body=bytes(46)):
    """A frame with this tag (IEEE 802.1Q, 9.6)."""
    return frame(kind + tci.to_bytes(2, "big") + b"\x08\x00" + body)


UNTAGGED = frame(b"\x08\x06" + bytes(46))
VX10 = frame(ip4(udp(4789, vxlan(5000, UNTAGGED))))
VX20 = frame(ip6(udp(4789, vxlan(6000, UNTAGGED))))
GN20 = frame(ip4(udp(6081, geneve(5000, OPTION, UNTAGGED))))
GN4094 = frame(ip4(udp(6081, geneve(0xFFFFFF, b"", UNTAGGED))))
RESERVED = bytes.fromhex("0180c2000000") + UNTAGGED[6:]

# What each place sent and what was captured there, in the order of PLACES; None is no capture. Behind it the counts of each segment
# that has any, and of none: sent, received, both.
ROWS = [
    ("a tag of a segment", [[tagged(20)], [], []], [[tagged(20)], [], []], [("segment 20", 1, 1, 1)]),
    ("a tag with a priority", [[tagged(0xE014)], [], []], [[tagged(0xE014)], [], []], [("segment 20", 1, 1, 1)]),
    ("no tag at a port with a PVID", [[UNTAGGED], [], []], [[UNTAGGED], [], []], [("segment 10", 1, 1, 1)]),
    ("a priority tag", [[tagged(0x6000)], [], []], [[], [], []], [("segment 10", 1, 0, 0)]),
    ("no tag where the PVID has no segment", [[], [UNTAGGED], []], [[], [UNTAGGED], []], [("no segment", 1, 1, 1)]),
    ("a tag of no segment", [[tagged(30)], [], []], [[], [], []], [("no segment", 1, 0, 0)]),
    ("the reserved VID", [[tagged(4095)], [], []], [[], [], []], [("no segment", 1, 0, 0)]),
    ("the last VID", [[], [tagged(4094)], []], [[], [], []], [("segment 4094", 1, 0, 0)]),
    ("another type's tag", [[tagged(20, b"\x88\xa8")], [], []], [[], [], []], [("segment 10", 1, 0, 0)]),
    ("no frame", [[bytes(13)], [], []], [[], [], []], [("segment 10", 1, 0, 0)]),
    ("VXLAN of a segment", [[], [], [VX10]], [[], [], [VX10]], [("segment 10", 1, 1, 1)]),
    ("VXLAN of another, over IPv6", [[], [], [VX20]], [[], [], []], [("segment 20", 1, 0, 0)]),
    ("Geneve with the VNI of a VXLAN", [[], [], [GN20]], [[], [], []], [("segment 20", 1, 0, 0)]),
    ("the last VNI", [[], [], []], [[], [], [GN4094]], [("segment 4094", 0, 1, 0)]),
    ("an unknown VNI", [[], [], [frame(ip4(udp(4789, vxlan(1, UNTAGGED))))]], [[], [], []], [("no segment", 1, 0, 0)]),
    ("a packet of no tunnel", [[], [], [UNTAGGED]], [[], [], [UNTAGGED]], [("no segment", 1, 1, 1)]),
    ("a tag around a packet", [[], [], []], [[], [], [frame(VX10[12:], tag=b"\x81\0\0\x14")]], [("segment 10", 0, 1, 0)]),
    ("one VNI for another", [[], [], [VX10]], [[], [], [VX20]], [("segment 10", 1, 0, 0), ("segment 20", 0, 1, 0)]),
    ("no capture of a place", [[tagged(20)], [], [VX10]], [None, [], [VX10]], [("segment 10", 1, 1, 1)]),
    (
        "several places",
        [[tagged(20), UNTAGGED], [tagged(20), UNTAGGED], [VX10, VX20, GN20]],
        [[UNTAGGED], [tagged(20)], [GN20, VX20]],
        [("segment 10", 2, 1, 1), ("segment 20", 4, 3, 3), ("no segment", 1, 0, 0)],
    ),
    ("a frame that is cut", [[cut(tagged(20), 4)], [], []], [[cut(tagged(20), 4)], [], []], [("segment 20", 1, 1, 1)]),
    ("a packet that is cut", [[], [], [cut(VX10, 4)]], [[], [], [VX10]], [("segment 10", 0, 1, 0), ("no segment", 1, 0, 0)]),
    ("nothing", [[], [], []], [[], [], []], []),
]


def counts_of(sent, seen):
    """How many were sent, were received and are both, of records that are the same only octet for octet."""
    return len(sent), len(seen), len([octets for octets in sent if octets in seen])


def wanted(sent, seen, segments):
    """What is printed, and the status."""
    text, sums = "", (0, 0, 0)
    for word, worked, captured in zip(PLACES, sent, seen):
        if captured is None:
            text += f"{word}: no capture\n"
        else:
            counts = counts_of(worked, captured)
            text += line(word, *counts)
            are_cut = [len([content for content in side if isinstance(content, tuple)]) for side in (worked, captured)]
            text += f"{word}: cut: sent {are_cut[0]}, received {are_cut[1]}\n" if any(are_cut) else ""
            sums = tuple(one + other for one, other in zip(sums, counts))
    text += "".join(line(*row) for row in segments) + line("all", *sums)
    return (text, 0) if sums[0] == sums[1] == sums[2] else (text + DIFFERS, 1)


def main():
    tep, folder = sys.argv[1:]
    worked = os.path.join(folder, "segments")
    os.makedirs(worked)
    open(f"{worked}/decisions.txt", "w").close()
    settings = os.path.join(folder, "segments.toml")
    with open(settings, "w") as out:
        out.write(SETTINGS)
    files = ["port1.pcap", "port2.pcap", "underlay.pcap"]
    failed = False

    def told(sent, seen, *words):
        for name, records in zip(files, sent):
            write(f"{worked}/{name}", records)
        names = []
        for name, records in zip(files, seen):
            names.append("-" if records is None else write(f"{worked}/seen_{name}", records))
        words = [*words, "--settings", settings, "--worked", worked, "-u", names[2], *names[:2]]
        done = subprocess.run([tep, "compare", *words], capture_output=True, text=True, check=False)
        return done.stdout + done.stderr, done.returncode

    def wants(what, text, printed):
        nonlocal failed
        if printed != text:
            print(f"compare_segments.py: {what}: {printed}\nin place of {text}")
            failed = True

    for what, sent, seen, segments in ROWS:
        wants(what, wanted(sent, seen, segments), told(sent, seen))
    # Strictly the packets of the underlay are of the same segments.
    for what, sent, seen, segments in ROWS:
        wants(f"{what}, strictly", wanted(sent, seen, segments), told(sent, seen, "--strict"))
    # What is left aside is of no segment either.
    text = line("p1", 1, 1, 1) + "p1: sent left aside 1, received left aside 0\n"
    text += "".join(line(word, 0, 0, 0) + f"{word}: sent left aside 0, received left aside 0\n" for word in PLACES[1:])
    text += line("segment 20", 1, 1, 1) + line("all", 1, 1, 1)
    aside = told([[RESERVED, tagged(20)], [], []], [[tagged(20)], [], []], "--ignore", "reserved")
    wants("what is left aside", (text, 0), aside)
    return failed


sys.exit(main())
