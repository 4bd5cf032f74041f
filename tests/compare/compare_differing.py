#!/usr/bin/env python3
"""`tep compare --worked`: what of near records differs, counted, where it is the same of all that is sent at a high rate: folders as
a run leaves them and captures of what went out, made here, and the lines as worked out by hand. Usage: compare_differing.py TEP
FOLDER; prints what differs, and exits 1 where something does."""
import os
import subprocess
import sys

from compare_near import BODY, MACS, at_port, tag, vxlan, write

COUNT, STEP, LATENCY, SECOND = 10_000, 100_000, 1_000_000, 10**9


def body(k, length=60):
    """The type and the payload of the frame of a number: each is another one."""
    return (b"\x08\0" + k.to_bytes(4, "big") + BODY[2:] + bytes(length))[:length]


def at(k):
    """The moment of a frame: 10,000 of them come in a second."""
    return 5 * SECOND + k * STEP


def made(content, numbers=range(COUNT), delay=0):
    return [(at(k) + delay, content(k)) for k in numbers]


def without(numbers, step):
    return [k for k in numbers if k % step]


def to_remote(k):
    return vxlan(5000, MACS + body(k), destination=3)


ALL, ONCE_LOST = range(COUNT), without(range(COUNT), 100)
# What was sent at port 1 or at the underlay, what was captured there, and the lines. At an MTU of 1,000 octets a frame of 1,014 is
# cut, and at another one, too. Of 1,030 VIDs that are wrong 1,024 have a line.
ROWS = [
    ("a wrong VNI", "u", made(lambda k: vxlan(5000, MACS + body(k))), made(lambda k: vxlan(5001, MACS + body(k)), delay=LATENCY),
     ["u: vxlan 5000: vni 5001 for 5000: 10000, first record 1 for 1"]),
    ("a wrong remote", "u", made(lambda k: vxlan(5000, MACS + body(k))), made(to_remote, delay=LATENCY),
     ["u: vxlan 5000: remote 192.0.2.3 for 192.0.2.2: 10000, first record 1 for 1"]),
    ("a wrong tag, with loss", "p1", made(lambda k: at_port(tag(20), body(k))),
     made(lambda k: at_port(tag(21), body(k)), ONCE_LOST, LATENCY), ["p1: vlan 20: tag 21 for 20: 9900, first record 1 for 2"]),
    ("a tag in every other frame, where none should be", "p1", made(lambda k: at_port(b"", body(k))),
     made(lambda k: at_port(tag(20) if k % 2 else b"", body(k)), delay=LATENCY),
     ["p1: untagged: tag 20 for none: 5000, first record 2 for 2"]),
    ("an MTU", "p1", made(lambda k: at_port(tag(20), body(k, 1200 if k % 2 else 900))),
     made(lambda k: at_port(tag(20), body(k, 1200 if k % 2 else 900))[:1014], delay=LATENCY),
     ["p1: vlan 20: length 1014 for 1216: 5000, first record 2 for 2"]),
    ("two wrong tags, and frames of others", "p1", made(lambda k: at_port(tag(20 + k % 2 * 10), body(k))),
     [record for k in ALL for record in made(lambda k: at_port(tag(21 + k % 2 * 10), body(k)), [k], LATENCY)
      + made(lambda k: at_port(tag(99), body(k)[::-1]), [k], LATENCY)],
     ["p1: vlan 20: tag 21 for 20: 5000, first record 1 for 1", "p1: vlan 30: tag 31 for 30: 5000, first record 3 for 2"]),
    ("many wrong tags", "p1", made(lambda k: at_port(tag(k + 1), body(k)), range(1030)),
     made(lambda k: at_port(tag(k + 2001), body(k)), range(1030), LATENCY),
     [f"p1: vlan {k}: tag {k + 2000} for {k}: 1, first record {k} for {k}" for k in range(1, 1025)] + ["p1: other differences: 6"]),
    ("a wrong tag behind 256 other frames", "p1", [(5, at_port(tag(20), body(0)))],
     [(6, at_port(tag(21), body(k))) for k in range(1, 257)] + [(7, at_port(tag(21), body(0)))], []),
    ("a wrong tag behind 255 other frames", "p1", [(5, at_port(tag(20), body(0)))],
     [(6, at_port(tag(21), body(k))) for k in range(1, 256)] + [(7, at_port(tag(21), body(0)))],
     ["p1: vlan 20: tag 21 for 20: 1, first record 256 for 1"]),
    ("a wrong tag behind 300 frames that came before it", "p1", [(5, at_port(tag(20), body(0)))],
     [(4, at_port(tag(21), body(k))) for k in range(1, 301)] + [(7, at_port(tag(21), body(0)))],
     ["p1: vlan 20: tag 21 for 20: 1, first record 301 for 1"]),
]


def main():
    tep, folder = sys.argv[1:]
    worked, seen = os.path.join(folder, "differing"), os.path.join(folder, "differing.pcap")
    os.mkdir(worked)
    open(f"{worked}/decisions.txt", "w").close()
    failed = False
    for what, place, sent, received, lines in ROWS:
        write(f"{worked}/port1.pcap", sent if place == "p1" else [])
        write(f"{worked}/underlay.pcap", sent if place == "u" else [])
        write(seen, received)
        names = [seen, "-"] if place == "u" else ["-", seen]
        done = subprocess.run([tep, "compare", "--worked", worked, "-u", *names], capture_output=True, text=True, check=False)
        told = done.stdout.splitlines()
        found = [line for line in told if ", first record " in line or " other differences: " in line]
        if (done.returncode, found) != (1, lines):
            print(f"compare_differing.py: {what}: status {done.returncode}\n{done.stdout}{done.stderr}in place of {lines}")
            failed = True
    return failed


if __name__ == "__main__":
    sys.exit(main())
