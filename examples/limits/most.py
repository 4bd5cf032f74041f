#!/usr/bin/env python3
"""Writes settings of version 3 and captures with as many ports, segments, next hops and addresses as there may be, and what a
run on them decides.

    most.py FOLDER    settings.toml, port1.pcap to port255.pcap, underlay.pcap, decisions.txt, and check.txt, what a look prints
    most.py read FOLDER OUT    looks at the captures in OUT, which a run on FOLDER wrote

255 ports; 4,094 segments, five of them with all ports, the others with two; 256 remotes in each eighth segment and in those of all
ports, which is as many as so many segments may have, and 16 in the others; 4,096 exceptions from the next hop; a pool of 1,048,576
addresses that fills up, 131,072 of them in one segment. Nothing but Python's own library is needed.
"""
import itertools
import pathlib
import re
import struct
import sys

PORTS, SEGMENTS, HOPS, FLOOD, ENTRIES, ADDRESSES = 255, 4_094, 4_096, 256, 131_072, 1_048_576
# The last segment has as many addresses as one may have, and the first what the others leave over.
EACH = (ADDRESSES - ENTRIES) // (SEGMENTS - 1)
LIMITS = [ADDRESSES - ENTRIES - EACH * (SEGMENTS - 2), *[EACH] * (SEGMENTS - 2), ENTRIES]
WIDE = {1, 2, 64, 4_093, 4_094}
ALL_PORTS = range(1, PORTS + 1)
# A port above this one is tagged in the segments with all ports.
LAST_UNTAGGED = 128
EVERYBODY = b"\xff" * 6


def vni(k):
    """Of the k-th segment, whose VID is k: the last is 16,777,215."""
    return k + 16_777_215 - SEGMENTS


def hop(n):
    """The address and the MAC address of the n-th exception from the next hop, from 0."""
    return f"198.18.{n >> 8}.{n & 255}", f"02:00:00:01:{n >> 8:02x}:{n & 255:02x}"


def remotes(k):
    """The flood list of the k-th segment: each exception is on some."""
    return [hop((k * 16 + n) % HOPS)[0] for n in range(FLOOD if k % 8 == 0 or k in WIDE else 16)]


def members(k):
    """The ports of the k-th segment, rising, each with whether frames leave it tagged. With two ports the second is tagged."""
    if k in WIDE:
        return [(port, port > LAST_UNTAGGED) for port in ALL_PORTS]
    first = k % (PORTS - 1) + 1
    return [(first, False), (PORTS if k % 3 == 0 and first < PORTS - 1 else first + 1, True)]


def port_of(k, n):
    """Where the n-th station of the k-th segment is: all ports in turn."""
    ports = members(k)
    return ports[n % len(ports)][0]


def settings():
    """The text of the settings."""
    yield f"version = 3\n[limits]\nports = {PORTS}\nsegments = {SEGMENTS}\nflood = {FLOOD}\nhops = {HOPS}\n"
    yield f"entries = {ENTRIES}\naddresses = {ADDRESSES}\n"
    yield '[underlay]\nmac = "02:00:00:00:aa:01"\nnext_hop = "02:00:00:00:aa:fe"\nip4 = "192.0.2.1"\n'
    for n in range(HOPS):
        address, mac = hop(n)
        yield f'[[underlay.hop]]\naddr = "{address}"\nmac = "{mac}"\n'
    for _ in ALL_PORTS:
        yield "[[port]]\npvid = 1\n"
    for k, limit in enumerate(LIMITS, 1):
        flood = ", ".join(f'"{remote}"' for remote in remotes(k))
        untagged = [port for port, is_tagged in members(k) if not is_tagged]
        tagged = [port for port, is_tagged in members(k) if is_tagged]
        yield f"[[segment]]\nvid = {k}\nlimit = {limit}\nuntagged = {untagged}\ntagged = {tagged}\n"
        yield f'[[segment.tunnel]]\nkind = "{kind(k)}"\nvni = {vni(k)}\nflood = [{flood}]\n'


def station(k, n):
    """The address of the n-th station of the k-th segment."""
    return struct.pack(">BBHH", 2 + (n >> 16 << 2), 0, k, n & 0xFFFF)


def frame(k, dst, src):
    """A frame of 60 octets, and a tag in it."""
    return dst + src + struct.pack(">HH", 0x8100, k) + b"\x08\x06" + bytes(46)


def kind(k):
    """Of the tunnel of the k-th segment."""
    return "vxlan" if k % 2 else "geneve"


def packet(tunnel, network, remote, src):
    """A frame for everybody from a remote, in a tunnel: Ethernet, IPv4 (RFC 791), UDP and the header of VXLAN or Geneve."""
    if tunnel == "vxlan":
        port, header = 4789, struct.pack(">II", 0x08000000, network << 8)
    else:
        port, header = 6081, struct.pack(">BBHI", 0, 0, 0x6558, network << 8)
    text = header + EVERYBODY + src + b"\x08\x06" + bytes(46)
    source = bytes(map(int, remote.split(".")))
    head = struct.pack(">BBHIBBH", 0x45, 0, 28 + len(text), 0x4000, 64, 17, 0) + source + b"\xc0\0\2\1"
    total = sum(struct.unpack(">10H", head))
    while total >> 16:
        total = (total & 0xFFFF) + (total >> 16)
    head = head[:10] + struct.pack(">H", 0xFFFF - total) + head[12:]
    udp = struct.pack(">HHHH", 51719, port, 8 + len(text), 0)
    return bytes.fromhex("02000000aa0102000000aafe0800") + head + udp + text


def at_ports(k, but):
    """How a frame for everybody leaves at the ports of a segment, but for one of them."""
    return " ".join(f"p{port}={64 if is_tagged else 60}" for port, is_tagged in members(k) if port != but)


def everywhere(k, but):
    """How a frame for everybody leaves at a segment's other ports and to its remotes."""
    return at_ports(k, but) + " " + " ".join(f"{remote}=110" for remote in remotes(k))


def passing():
    """What comes in, in order: the port, or 0 for the underlay; the octets; the segment, and what is decided."""
    every = range(1, SEGMENTS + 1)
    for k in every:
        yield port_of(k, 0), frame(k, EVERYBODY, station(k, 0)), k, everywhere(k, port_of(k, 0))
    # Each other station says something to itself, and the pool is full.
    for k in every:
        ports = itertools.cycle(port for port, _ in members(k))
        next(ports)
        for n in range(1, LIMITS[k - 1]):
            own = station(k, n)
            yield next(ports), frame(k, own, own), k, "drop 35 SamePlace"
    for k in every:
        last = LIMITS[k - 1] - 1
        tagged = dict(members(k))
        there = port_of(k, last)
        yield port_of(k, last + 1), frame(k, station(k, last), station(k, last + 1)), k, f"p{there}={64 if tagged[there] else 60}"
    # For what came last there was no room: a frame to it goes everywhere.
    for k in every:
        last = LIMITS[k - 1] - 1
        here = port_of(k, last)
        yield here, frame(k, station(k, last + 1), station(k, last)), k, everywhere(k, here)
    for k in every:
        yield 0, packet(kind(k), vni(k), remotes(k)[-1], station(k, LIMITS[k - 1] + 1)), k, at_ports(k, None)


def write(folder, texts, segments, events):
    """Writes all files: the settings, and what comes in. A change is told in place of a port and of octets."""
    folder.joinpath("settings.toml").write_text("".join(texts))
    records, captures, decisions = [0] * (PORTS + 1), [[] for _ in range(PORTS + 1)], []
    changes, refused = [], []
    for n, (port, octets, segment, result) in enumerate(events, 1):
        if port is None:
            changes.append(f"[[change]]\nat = {n}\n{octets}\n")
            decisions.append(f"{n} {n} c {len(changes)} {segment} {result}\n")
            if result != "done":
                refused.append(f"change {len(changes)} at {n}: {result}\n")
            continue
        records[port] += 1
        captures[port].append(struct.pack("<IIII", 0, n, len(octets), len(octets)) + octets)
        decisions.append(f"{n} {n} {f'p{port}' if port else 'u'} {records[port]} {segment} {result}\n")
    folder.joinpath("decisions.txt").write_text("".join(decisions))
    if changes:
        folder.joinpath("changes.toml").write_text("version = 2\n" + "".join(changes))
    folder.joinpath("check.txt").write_text(f"ok: {PORTS} ports, {segments} segments, {len(changes)} changes\n" + "".join(refused))
    header = struct.pack("<IHHiIII", 0xA1B23C4D, 2, 4, 0, 0, 65_535, 1)
    for port, texts in enumerate(captures):
        name = f"port{port}.pcap" if port else "underlay.pcap"
        folder.joinpath(name).write_bytes(header + b"".join(texts))


def records_of(path):
    """The records of a capture that a run wrote, each of which is whole."""
    text, at = path.read_bytes(), 24
    while at < len(text):
        captured, original = struct.unpack_from("<II", text, at + 8)
        assert captured == original and at + 16 + captured <= len(text), f"{path}: at {at}"
        yield text[at + 16 : at + 16 + captured]
        at += 16 + captured


def read(folder, out):
    """Each capture has as many records as the decisions tell, and each packet goes to the next hop of its remote."""
    decisions = folder.joinpath("decisions.txt").read_text()
    told = dict.fromkeys(ALL_PORTS, 0)
    for port in re.findall(r" p(\d+)=", decisions):
        told[int(port)] += 1
    for port in ALL_PORTS:
        found = sum(1 for _ in records_of(out / f"port{port}.pcap"))
        assert found == told[port], f"port {port} has {found} records in place of {told[port]}"
    macs = {bytes(map(int, address.split("."))): bytes.fromhex(mac.replace(":", "")) for address, mac in map(hop, range(HOPS))}
    packets = 0
    for octets in records_of(out / "underlay.pcap"):
        packets += 1
        assert octets[:6] == macs.pop(octets[30:34], octets[:6]), f"packet {packets} goes to another next hop"
    assert not macs, f"nothing goes to {len(macs)} next hops"
    assert packets == decisions.count("=110"), "the underlay has another number of packets"


def main():
    if len(sys.argv) == 2 and not sys.argv[1].startswith("-"):
        write(pathlib.Path(sys.argv[1]), settings(), SEGMENTS, passing())
    elif len(sys.argv) == 4 and sys.argv[1] == "read":
        read(pathlib.Path(sys.argv[2]), pathlib.Path(sys.argv[3]))
    else:
        sys.exit(__doc__)


if __name__ == "__main__":
    main()
