#!/usr/bin/env python3
"""What `tep fabric check` prints of made fabrics: beside a model of docs/formats/fabric.md alone, and beside what `tep run` does with
a broadcast from each member, hop by hop, and with its answer.

    fabric.py TEP
"""
import ipaddress
import pathlib
import random
import struct
import subprocess
import sys
import tempfile
from collections import Counter

import fabric_model as model

TEP = sys.argv[1]
STATION, OTHER = bytes.fromhex("02aa00000001"), bytes.fromhex("02bb00000001")
wrong = 0


def complain(*words):
    global wrong
    wrong += 1
    print(*words)


# ---- settings

def tunnel(kind, vni, flood, group=0):
    listed = ", ".join(f'"{a}"' for a in flood)
    return f'[[segment.tunnel]]\nkind = "{kind}"\nvni = {vni}\ngroup = {group}\nflood = [{listed}]\n'


def segment(vid, *tunnels, more=""):
    return f"[[segment]]\nvid = {vid}\ntagged = [1, 2]\n{more}" + "".join(tunnels)


def leaf(n, *segments, under="", own=None):
    own = own or f'ip4 = "192.0.2.{n}"\nip6 = "2001:db8::{n}"\n'
    return f'version = 2\n[underlay]\nmac = "02:00:00:00:00:{n:02x}"\nnext_hop = "02:00:00:00:00:fe"\nmtu = 1570\n{own}{under}' \
        '[[port]]\npvid = 1\n[[port]]\npvid = 1\n' + "".join(segments)


def four(n):
    return [f"192.0.2.{k}" for k in range(1, 5) if k != n]


def good(**changed):
    """Four leaves that fit, in two networks; some of them otherwise."""
    made = {f"leaf{n}": leaf(n, segment(10, tunnel("vxlan", 5000, four(n))), segment(20, tunnel("geneve", 6000, four(n)))) for n in range(1, 5)}
    return made | changed


def one(n, flood, under="", more="", kind="vxlan", vni=5000, own=None, vid=10):
    return leaf(n, segment(vid, tunnel(kind, vni, flood), more=more), segment(20, tunnel("geneve", 6000, four(n))), under=under, own=own)


HEAD = "4 leaves, 2 networks\n"
ALL = "vxlan 5000, geneve 6000: 4 leaves: all reach all\n"
REST = "geneve 6000: 4 leaves: all reach all\n"
# Fabrics with what is told of them, by hand.
BY_HAND = {
    "all": (good(), ALL + HEAD),
    "one lacks one": (good(leaf2=one(2, ["192.0.2.1", "192.0.2.4"])),
                      "vxlan 5000: 4 leaves: 11 of 12 ways\n  leaf2 -> leaf3: not on the list\n" + REST + HEAD),
    "nobody lists one": (good(leaf1=one(1, ["192.0.2.2", "192.0.2.3"]), leaf2=one(2, ["192.0.2.1", "192.0.2.3"]), leaf3=one(3, ["192.0.2.1", "192.0.2.2"])),
                         "vxlan 5000: 4 leaves: 9 of 12 ways\n  all -> leaf4: not on the list\n" + REST + HEAD),
    "another port": (good(leaf2=one(2, four(2), under="vxlan_port = 8472\n")),
                     "vxlan 5000: 4 leaves: 6 of 12 ways\n  2 parts, leaf1 leaf3 leaf4 | leaf2: 20 NotTunnel\n" + REST + HEAD),
    "no checksum": (good(leaf1=one(1, ["2001:db8::2", "2001:db8::3", "192.0.2.4"], under="sum6 = false\n"),
                         leaf3=one(3, ["2001:db8::1", "192.0.2.2", "192.0.2.4"], under="zero6 = false\n")),
                    "vxlan 5000: 4 leaves: 11 of 12 ways\n  leaf1 -> leaf3: 21 ZeroSum\n"
                    "  leaf3 -> leaf1: heard, and the answer is lost: 21 ZeroSum\n" + REST + HEAD),
    "another VNI": (good(leaf3=one(3, four(3), vni=5001)),
                    "vxlan 5000: 3 leaves: all reach all\nvxlan 5001: 1 leaf\ngeneve 6000: 4 leaves: all reach all\n4 leaves, 3 networks\n"),
    "another VID": (good(leaf3=one(3, four(3), vid=11)),
                    "vxlan 5000: 4 leaves, leaf1 vid 10, leaf2 vid 10, leaf3 vid 11, leaf4 vid 10: all reach all\n" + REST + HEAD),
    "a group alone": (good(leaf1=one(1, ["239.0.0.10"])),
                      "vxlan 5000: 4 leaves: 9 of 12 ways\n  leaf1 -> all: 31 WrongGroup\n" + REST + HEAD),
    "listed peers": (good(leaf3=one(3, ["192.0.2.2", "192.0.2.4"], more='peers = "listed"\n')),
                     "vxlan 5000: 4 leaves: 10 of 12 ways\n  leaf1 -> leaf3: 32 UnknownPeer\n  leaf3 -> leaf1: not on the list\n" + REST + HEAD),
    "one address": (good(leaf3=leaf(3, segment(10, tunnel("vxlan", 5000, ["192.0.2.1", "192.0.2.4"])), segment(20, tunnel("geneve", 6000, ["192.0.2.1", "192.0.2.4"])),
                                    own='ip4 = "192.0.2.2"\n')),
                    "vxlan 5000, geneve 6000: 4 leaves: 10 of 12 ways\n  leaf2 <-> leaf3: one address\n" + HEAD),
    "a gateway": (good(leaf1=leaf(1, segment(10, tunnel("vxlan", 5000, ["192.0.2.2", "192.0.2.3"], 1), tunnel("geneve", 9000, ["192.0.2.4"], 2)), segment(20, tunnel("geneve", 6000, four(1)))),
                       leaf2=one(2, ["192.0.2.1", "192.0.2.3"]), leaf3=one(3, ["192.0.2.1", "192.0.2.2"]), leaf4=one(4, ["192.0.2.1"], kind="geneve", vni=9000)),
                  "vxlan 5000 = geneve 9000, geneve 6000: 4 leaves: all reach all\n" + HEAD),
}


def random_fabric(rng):
    """Some leaves that nearly fit."""
    size = rng.randint(2, 6)
    made = {}
    for n in range(1, size + 1):
        mine = n if rng.random() < 0.95 else 1

        def address(k):
            return rng.choice([f"192.0.2.{k}", f"192.0.2.{k}", f"2001:db8::{k}"])

        def flood():
            listed = [address(k) for k in range(1, size + 1) if k not in (n, mine) and rng.random() < 0.85]
            if rng.random() < 0.2:
                listed.append(rng.choice(["239.0.0.1", "ff0e::1"]))
            rng.shuffle(listed)
            return listed

        segments, used = [], set()
        for vid in (10, 20, 30):
            rows = []
            for kind in rng.choice([["vxlan"], ["vxlan"], ["geneve"], ["vxlan", "geneve"]]):
                vni = rng.choice([5000, 5000, 5001, 6000])
                if (kind, vni) not in used:
                    used.add((kind, vni))
                    rows.append(tunnel(kind, vni, flood(), rng.choice([0, 0, 1, 2])))
            if rows:
                more = rng.choice(["", "", "", 'peers = "listed"\n', "learn = false\n"])
                segments.append(segment(vid, *rows, more=more))
        under = rng.choice(["", "", "", "vxlan_port = 8472\n", "sum6 = false\n", "zero6 = false\n", "sum6 = false\nzero6 = false\n"])
        own = f'ip4 = "192.0.2.{mine}"\nip6 = "2001:db8::{n}"\n'
        made[f"l{n}"] = leaf(n, *segments, under=under, own=own)
    return made


# ---- runs

def pcap(records):
    head = struct.pack("<IHHIIII", 0xA1B23C4D, 2, 4, 0, 0, 262144, 1)
    return head + b"".join(struct.pack("<IIII", moment, 0, len(octets), len(octets)) + octets for moment, octets in records)


def records(path):
    data, at, found = path.read_bytes(), 24, []
    while at < len(data):
        size = struct.unpack_from("<I", data, at + 8)[0]
        found.append(data[at + 16:at + 16 + size])
        at += 16 + size
    return found


def run(one, ports, underlay):
    """How many records leave at each port, and the packets that leave at the underlay."""
    with tempfile.TemporaryDirectory() as folder:
        folder = pathlib.Path(folder)
        (folder / "out").mkdir()
        for port in (1, 2):
            (folder / f"p{port}").write_bytes(pcap(ports.get(port, [])))
        (folder / "u").write_bytes(pcap(underlay))
        words = [TEP, "run", "-s", one.path, "-u", str(folder / "u"), "-o", str(folder / "out"), str(folder / "p1"), str(folder / "p2")]
        done = subprocess.run(words, capture_output=True, text=True)
        if done.returncode:
            complain(one.path, done.stderr)
        return {port: records(folder / "out" / f"port{port}.pcap") for port in (1, 2)}, records(folder / "out" / "underlay.pcap")


def heard_by(leaves, sender, packet):
    ip4 = packet[12:14] == b"\x08\x00"
    to = ipaddress.ip_address(packet[30:34] if ip4 else packet[38:54])
    return [b for b in leaves if b is not sender and (to.is_multicast or to in b.own.values())]


def frame(destination, source, vid):
    return destination + source + struct.pack(">HHH", 0x8100, vid, 0x0806) + bytes(46)


def try_run(name, fabric):
    """Puts a broadcast from each member of a fabric to `tep run`, and follows it; then its answers."""
    for members in fabric.networks():
        if fabric.is_cyclic(members):
            continue
        for a, s in members:
            first = frame(b"\xff" * 6, STATION, s.vid)
            seen, straight = Counter(), {}
            _, flying = run(a, {1: [(1, first)]}, [])
            todo = [(a, packet, 0) for packet in flying]
            while todo:
                sender, packet, hops = todo.pop()
                for b in heard_by(fabric.leaves, sender, packet):
                    out, more = run(b, {}, [(1, packet)])
                    for h in b.segments:
                        came = sum(octets[12:16] == struct.pack(">HH", 0x8100, h.vid) for octets in out[1])
                        seen[b.name, h.vid] += came
                        if came and hops == 0:
                            straight[b.name, h.vid] = packet
                    if hops < 8:
                        todo += [(b, x, hops + 1) for x in more]
            led = {(b.name, h.vid) for b, h, _ in fabric.led(a, s, None)}
            if {place for place, count in seen.items() if count} != led:
                complain(name, a.name, s.vid, "comes to", +seen, "told", led)
            for b, h in members:
                packet = straight.get((b.name, h.vid))
                if b is a or packet is None:
                    continue
                sent = [e for e in s.flood if model.hop(a, s, e, b) is h]
                if len(sent) != 1:
                    continue
                answer = frame(STATION, OTHER, h.vid)
                _, back = run(b, {1: [(2, answer)]}, [(1, packet)])
                came = 0
                for packet in back:
                    if any(x is a for x in heard_by(fabric.leaves, b, packet)):
                        out, _ = run(a, {1: [(1, first)]}, [(2, packet)])
                        came += sum(octets[12:16] == struct.pack(">HH", 0x8100, s.vid) for octets in out[1])
                if bool(came) != (fabric.lost_answer(a, s, b, h) is None):
                    complain(name, a.name, s.vid, "->", b.name, "answers", came)


def check(paths):
    done = subprocess.run([TEP, "fabric", "check", *map(str, paths)], capture_output=True, text=True)
    return done.stdout, done.stderr, done.returncode


def write(folder, made):
    paths = []
    for name, text in made.items():
        path = pathlib.Path(folder) / f"{name}.toml"
        path.write_text(text)
        paths.append(path)
    return paths


def compare(name, made, want=None, runs=False):
    with tempfile.TemporaryDirectory() as folder:
        paths = write(folder, made)
        expected, status = model.check(paths)
        if want is not None and want != expected:
            complain(name, "the model tells", expected, "and by hand it is", want)
        told, fault, answered = check(paths)
        if (told, answered) != (expected, status):
            complain(name, "tells", told, fault, answered, "and the model", expected, status)
        if (fault == "") != (status == 0):
            complain(name, "says", fault)
        if runs:
            try_run(name, model.Fabric([model.Leaf(p) for p in paths]))


def refuse(name, words, want, status):
    done = subprocess.run([TEP, "fabric", *map(str, words)], capture_output=True, text=True)
    if (done.stdout, done.stderr.splitlines()[0], done.returncode) != ("", want, status):
        complain(name, "is refused as", done.stdout, done.stderr, done.returncode)


def main():
    for name, (made, want) in BY_HAND.items():
        compare(name, made, want, runs=True)
    rng = random.Random(90)
    for number in range(400):
        compare(f"random {number}", random_fabric(rng), runs=number < 6)
    with tempfile.TemporaryDirectory() as folder:
        one_leaf, bad = write(folder, {"a": good()["leaf1"], "b": good()["leaf2"].replace("vid = 10", "vid = 0", 1)})
        other = pathlib.Path(folder) / "x"
        other.mkdir()
        twice = write(other, {"a": good()["leaf3"]})[0]
        if check([one_leaf]) != ("vxlan 5000, geneve 6000: 1 leaf\n1 leaf, 2 networks\n", "", 0):
            complain("one leaf", check([one_leaf]))
        refuse("a refused text", ["check", one_leaf, bad], f"{bad}: settings: BadValue segment.1.vid", 1)
        refuse("a name twice", ["check", one_leaf, twice], f"{twice}: another leaf has its name", 1)
        refuse("no file", ["check", one_leaf, other / "none.toml"], f"read {other}/none.toml", 3)
        refuse("no leaves", ["check"], "error: fabric takes the word 'check' and a settings text for each endpoint", 2)
        refuse("no check", [one_leaf, twice], "error: fabric takes the word 'check' and a settings text for each endpoint", 2)
        many = write(other, {f"m{k}": good()["leaf1"] for k in range(1025)})
        refuse("too many", ["check", *many], f"{many[1024]}: a fabric has 1,024 leaves at most", 1)
    print(f"{wrong} wrong" if wrong else "ok")
    sys.exit(1 if wrong else 0)


main()
