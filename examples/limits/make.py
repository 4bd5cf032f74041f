#!/usr/bin/env python3
"""Writes settings, changes and captures with as much of everything as there may be, and what a run on them decides.

    make.py FOLDER    settings.toml, changes.toml, port1.pcap to port16.pcap, underlay.pcap, decisions.txt, and check.txt, what a
                      look prints
    make.py read FOLDER OUT    counts the records of the captures in OUT, which a run on FOLDER wrote

16 ports; 256 segments, each with all ports, 16 remotes and 256 addresses; 16 known options; 64 exceptions from the next
hop; 10,000 changes; 100,000 records at port 1; a record of 262,144 octets. Nothing but Python's own library is needed.
"""
import pathlib
import re
import struct
import sys

SEGMENTS, ADDRESSES, PORTS, CHANGES, RECORDS, LONGEST = 256, 256, 16, 10_000, 100_000, 262_144
UNTAGGED, TAGGED = range(1, 9), range(9, 17)
REMOTES = [f"198.51.100.{n}" for n in range(1, 17)]
EVERYBODY = b"\xff" * 6


def vid(k):
    """Of the k-th segment: the last is 4094."""
    return k * 16 - 2


def vni(k):
    """Of the k-th segment: the last is 16,777,215."""
    return k * 65_536 - 1


def settings():
    """The text of the settings."""
    known = ", ".join(f"[258, {128 + n}]" for n in range(16))
    yield "version = 1\n[underlay]\n"
    yield 'mac = "02:00:00:00:aa:01"\nnext_hop = "02:00:00:00:aa:fe"\nip4 = "192.0.2.1"\n'
    yield f"known = [{known}]\n"
    for n in range(1, 65):
        yield f'[[underlay.hop]]\naddr = "203.0.113.{n}"\nmac = "02:00:00:00:bb:01"\n'
    for _ in range(PORTS):
        yield "[[port]]\npvid = 14\n"
    flood = ", ".join(f'"{remote}"' for remote in REMOTES)
    for k in range(1, SEGMENTS + 1):
        kind = "vxlan" if k % 2 else "geneve"
        yield f'[[segment]]\nvid = {vid(k)}\nvni = {vni(k)}\ntunnel = "{kind}"\nlimit = {ADDRESSES}\n'
        yield f"untagged = {list(UNTAGGED)}\ntagged = {list(TAGGED)}\nflood = [{flood}]\n"


def station(k, n):
    """The address of a segment's n-th station, which is at port_of(n)."""
    return struct.pack(">HHH", 0x0200, k, n)


def port_of(n):
    return n % PORTS + 1


def frame(k, dst, src):
    """A frame of 60 octets, and a tag in it."""
    return dst + src + struct.pack(">HH", 0x8100, vid(k)) + b"\x08\x06" + bytes(46)


def at_port(port):
    """How it leaves there."""
    return f"p{port}={60 if port in UNTAGGED else 64}"


def packet(kind, k, options=b""):
    """A frame for everybody from the first remote, in a tunnel: Ethernet, IPv4 (RFC 791), UDP and the tunnel's header."""
    if kind == "vxlan":
        port, header = 4789, struct.pack(">II", 0x08000000, vni(k) << 8)
    else:
        port, header = 6081, struct.pack(">BBHI", len(options) // 4, 0x40, 0x6558, vni(k) << 8) + options
    text = header + EVERYBODY + station(k, 0x1000) + b"\x08\x06" + bytes(46)
    head = struct.pack(">BBHIBBHII", 0x45, 0, 28 + len(text), 0x4000, 64, 17, 0, 0xC6336401, 0xC0000201)
    total = sum(struct.unpack(">10H", head))
    total = (total & 0xFFFF) + (total >> 16)
    head = head[:10] + struct.pack(">H", 0xFFFF - total) + head[12:]
    udp = struct.pack(">HHHH", 51719, port, 8 + len(text), 0)
    return bytes.fromhex("02000000aa0102000000aafe0800") + head + udp + text


def passing():
    """What comes in, in order: the port, or 0 for the underlay; the octets; the segment and what is decided."""
    everywhere = [f"p{port}={60 if port in UNTAGGED else 64}" for port in range(1, PORTS + 1)]
    remotes = [f"{remote}=110" for remote in REMOTES]
    records = 0
    for k in range(1, SEGMENTS + 1):
        records += 1
        yield 1, frame(k, EVERYBODY, station(k, 0)), vid(k), " ".join(everywhere[1:] + remotes)
    for k in range(1, SEGMENTS + 1):
        for n in range(ADDRESSES):
            records += port_of(n) == 1
            yield port_of(n), frame(k, station(k, n), station(k, n)), vid(k), "drop 35 SamePlace"
    for more in range(RECORDS - records):
        k, n = more // ADDRESSES % SEGMENTS + 1, more % ADDRESSES
        result = "drop 35 SamePlace" if port_of(n) == 1 else at_port(port_of(n))
        yield 1, frame(k, station(k, n), station(k, 0)), vid(k), result
    options = b"".join(struct.pack(">HBB", 258, 128 + n, 0) for n in range(16))
    yield 0, packet("vxlan", 255), vid(255), " ".join(everywhere)
    yield 0, packet("geneve", 256, options), vid(256), " ".join(everywhere)
    yield 0, bytes(LONGEST), "-", "drop 1 TooLong"


def write(folder):
    """Writes all files."""
    folder.joinpath("settings.toml").write_text("".join(settings()))
    changes, decisions, captures = [], [], [[] for _ in range(PORTS + 1)]
    header = struct.pack("<IHHiIII", 0xA1B23C4D, 2, 4, 0, 0, LONGEST, 1)
    for n in range(1, CHANGES + 1):
        segment = vid(n % SEGMENTS + 1)
        changes.append(f'[[change]]\nkind = "set_ageing"\nat = {n}\nvid = {segment}\nseconds = {1000 + n}\n')
        decisions.append(f"{n} {n} c {n} {segment} done\n")
    for n, (port, octets, segment, result) in enumerate(passing(), CHANGES + 1):
        captures[port].append(struct.pack("<IIII", n // 10**9, n % 10**9, len(octets), len(octets)) + octets)
        source = f"p{port}" if port else "u"
        decisions.append(f"{n} {n} {source} {len(captures[port])} {segment} {result}\n")
    folder.joinpath("changes.toml").write_text("".join(changes))
    folder.joinpath("decisions.txt").write_text("".join(decisions))
    folder.joinpath("check.txt").write_text(f"ok: {PORTS} ports, {SEGMENTS} segments, {CHANGES} changes\n")
    for port, records in enumerate(captures):
        name = f"port{port}.pcap" if port else "underlay.pcap"
        folder.joinpath(name).write_bytes(header + b"".join(records))


def count(path):
    """The records of a capture that a run wrote, each of which is whole."""
    text, at, records = path.read_bytes(), 24, 0
    while at < len(text):
        captured, original = struct.unpack_from("<II", text, at + 8)
        assert captured == original and at + 16 + captured <= len(text), f"{path}: record {records + 1}"
        at, records = at + 16 + captured, records + 1
    return records


def read(folder, out):
    """Each capture has as many records as the decisions tell."""
    decisions = folder.joinpath("decisions.txt").read_text()
    for port in range(1, PORTS + 1):
        told = len(re.findall(rf" p{port}=", decisions))
        assert count(out / f"port{port}.pcap") == told, f"port {port} has other than {told} records"
    told = len(re.findall(r" 198\.51\.100\.\d+=", decisions))
    assert count(out / "underlay.pcap") == told, f"the underlay has other than {told} records"


if len(sys.argv) == 2 and not sys.argv[1].startswith("-"):
    write(pathlib.Path(sys.argv[1]))
elif len(sys.argv) == 4 and sys.argv[1] == "read":
    read(pathlib.Path(sys.argv[2]), pathlib.Path(sys.argv[3]))
else:
    sys.exit(__doc__)
