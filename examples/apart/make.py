#!/usr/bin/env python3
"""Writes the inputs of two runs that differ in one tenant's traffic only, and compares what comes of them.

    make.py FOLDER            settings.toml, and in quiet/ and in storm/ changes.toml and the captures
    make.py compare FOLDER    compares what runs on these wrote to FOLDER/quiet/out and FOLDER/storm/out

Three tenants share three trunks and one peer: the segments 10 (VXLAN 5000), 20 (Geneve 6000) and 30 (VXLAN 7000). In
each, stations A at port 1 and B at port 2 talk with one another and with C behind the peer. In the storm segment 30 has
100,000 addresses more, among them those of the others' stations, its table of 256 is full, what it has learned is
forgotten again and again, and packets and frames come that mean nothing. Nothing but Python's own library is needed.
"""
import pathlib
import random
import struct
import sys

TENANTS = {10: ("vxlan", 5000), 20: ("geneve", 6000), 30: ("vxlan", 7000)}
NOISY, ROUNDS, ADDRESSES, BAD, PEERS = 30, 200, 100_000, 4_000, 2_000
SECOND, EVERYBODY, PEER = 10**9, b"\xff" * 6, 0xC0000202
OUTPUTS = ["port1.pcap", "port2.pcap", "port3.pcap", "underlay.pcap"]


def settings():
    """The text of the settings: every port is a tagged member of every segment."""
    yield "version = 1\n[underlay]\n"
    yield 'mac = "02:00:00:00:aa:01"\nnext_hop = "02:00:00:00:aa:fe"\nip4 = "192.0.2.1"\n'
    for _ in range(3):
        yield "[[port]]\npvid = 1\n"
    for vid, (kind, vni) in TENANTS.items():
        yield f'[[segment]]\nvid = {vid}\nvni = {vni}\ntunnel = "{kind}"\ntagged = [1, 2, 3]\nflood = ["192.0.2.2"]\n'


def station(vid, number):
    """The address of a station of a segment."""
    return struct.pack(">HI", 0x0200, vid << 24 | number)


def frame(dst, src, vid=None):
    """A frame of 60 octets, and a tag in it where a VID is given."""
    tag = b"" if vid is None else struct.pack(">HH", 0x8100, vid)
    return dst + src + tag + b"\x08\x06" + bytes(46)


def packet(vid, inner, source=PEER):
    """A frame in its segment's tunnel: Ethernet, IPv4 (RFC 791), UDP, VXLAN (RFC 7348, 5) or Geneve (RFC 8926, 3.4)."""
    kind, vni = TENANTS[vid]
    if kind == "vxlan":
        port, header = 4789, struct.pack(">II", 0x08000000, vni << 8)
    else:
        port, header = 6081, struct.pack(">BBHI", 0, 0, 0x6558, vni << 8)
    text = header + inner
    head = struct.pack(">BBHIBBHII", 0x45, 0, 28 + len(text), 0x4000, 64, 17, 0, source, 0xC0000201)
    total = sum(struct.unpack(">10H", head))
    total = (total & 0xFFFF) + (total >> 16)
    head = head[:10] + struct.pack(">H", 0xFFFF - total) + head[12:]
    udp = struct.pack(">HHHH", 51719, port, 8 + len(text), 0)
    return bytes.fromhex("02000000aa0102000000aafe0800") + head + udp + text


def talk(vid):
    """What the stations of a segment say: moment, source, octets, and the result where nobody else is in the segment.

    A learning bridge (IEEE 802.1Q, 8.8): what is for everybody leaves everywhere, what is for a known station there
    alone. A frame of 60 octets leaves a trunk with 4 more for its tag, and for the peer with 50: 14 + 20 + 8 + 8."""
    a, b, c, nobody = (station(vid, number) for number in range(4))
    for n in range(ROUNDS):
        at = SECOND + n * 10_000_000 + vid
        yield at, 1, frame(EVERYBODY, a, vid), "p2=64 p3=64 192.0.2.2=110"
        yield at + 1_000_000, 2, frame(a, b, vid), "p1=64"
        yield at + 2_000_000, 0, packet(vid, frame(EVERYBODY, c)), "p1=64 p2=64 p3=64"
        yield at + 3_000_000, 1, frame(c, a, vid), "192.0.2.2=110"
        yield at + 4_000_000, 0, packet(vid, frame(b, c)), "p2=64"
        yield at + 5_000_000, 2, frame(nobody, b, vid), "p1=64 p3=64 192.0.2.2=110"
        # In every fiftieth round the table was emptied just before.
        yield at + 8_000_000, 1, frame(b, a, vid), "p2=64 p3=64 192.0.2.2=110" if n % 50 == 9 else "p2=64"


def changes_of(vid):
    """What is asked for a segment: its table is emptied now and then."""
    for n in range(ROUNDS):
        if n % 50 == 9:
            yield SECOND + n * 10_000_000 + 7_000_000 + vid, f'kind = "flush"\nvid = {vid}\n'


def storm():
    """What else comes in the storm, moment by moment: source and octets."""
    chance = random.Random(7)
    step = ROUNDS * 10_000_000 // ADDRESSES
    for n in range(ADDRESSES):
        # From half a second before the others begin, and then at moments of theirs, too.
        at = SECOND // 2 + n * (step + 5_000)
        src = station(NOISY, 1000 + n)
        if n % 10 == 0:
            src = station(chance.choice([10, 20]), n // 10 % 3)
        yield at, n % 3 + 1, frame(EVERYBODY if n % 2 else station(NOISY, 1000 + n // 2), src, NOISY)
        if n < PEERS:
            inner = frame(EVERYBODY, station(NOISY, 500_000 + n))
            yield at, 0, packet(NOISY, inner, 0xC6336400 + n)
        if n % (ADDRESSES // BAD) == 0:
            yield at, chance.choice([0, 1, 2, 3]), bad(chance)


def bad(chance):
    """Octets that mean nothing, or that come to no segment."""
    good = packet(10, frame(EVERYBODY, station(10, 0)))
    place = chance.randrange(6)
    if place == 0:
        return chance.randbytes(chance.randrange(200))
    if place == 1:
        return good[: chance.randrange(50)]
    if place == 2:
        # another version of IP
        return good[:14] + b"\x95" + good[15:]
    if place == 3:
        # a VNI without a segment
        return good[:46] + b"\x7f\xff\xff" + good[49:]
    if place == 4:
        # a VID without a segment
        return frame(EVERYBODY, station(10, 0), 99)
    # a group's address as the source
    return frame(EVERYBODY, EVERYBODY, NOISY)


def changes_of_storm():
    """Changes of the noisy segment alone: none by which segments come, go, or get another limit, and none of a port."""
    for n in range(1_000):
        at = SECOND // 2 + n * 2_500_000
        if n % 4 == 0:
            mac = ":".join(f"{octet:02x}" for octet in station(NOISY, 900_000 + n))
            yield at, f'kind = "fix"\nvid = {NOISY}\nmac = "{mac}"\nport = {n % 3 + 1}\n'
        elif n % 4 == 1:
            yield at, f'kind = "set_ageing"\nvid = {NOISY}\nseconds = {10 + n}\n'
        elif n % 4 == 2:
            yield at, f'kind = "add_flood"\nvid = {NOISY}\naddr = "198.51.100.{n % 20 + 1}"\n'
        elif n % 100 == 3:
            yield at, f'kind = "flush"\nvid = {NOISY}\n'
        else:
            egress = "untagged" if n % 8 == 3 else "tagged"
            yield at, f'kind = "set_member"\nvid = {NOISY}\nport = 3\negress = "{egress}"\n'


def write(folder):
    """Writes all files."""
    folder.joinpath("settings.toml").write_text("".join(settings()))
    header = struct.pack("<IHHiIII", 0xA1B23C4D, 2, 4, 0, 0, 262_144, 1)
    said = [(at, source, octets) for vid in TENANTS for at, source, octets, _ in talk(vid)]
    asked = [change for vid in TENANTS for change in changes_of(vid)]
    for name, records, changes in [
        ("quiet", said, asked),
        ("storm", said + list(storm()), asked + list(changes_of_storm())),
    ]:
        folder.joinpath(name, "out").mkdir(parents=True, exist_ok=True)
        # In order of moment, as no capture's moments may fall.
        records = sorted(records, key=lambda record: record[0])
        for source in range(4):
            with open(folder / name / OUTPUTS[source - 1], "wb") as capture:
                capture.write(header)
                for at, place, octets in records:
                    if place == source:
                        length = len(octets)
                        capture.write(struct.pack("<IIII", at // SECOND, at % SECOND, length, length) + octets)
        text = "".join(f"[[change]]\nat = {at}\n{words}" for at, words in sorted(changes, key=lambda change: change[0]))
        folder.joinpath(name, "changes.toml").write_text(text)


def records(path):
    """The records of a capture that a run wrote: moment and octets."""
    text = path.read_bytes()
    place = 24
    while place < len(text):
        seconds, fraction, length, _ = struct.unpack_from("<IIII", text, place)
        yield seconds * SECOND + fraction, text[place + 16 : place + 16 + length]
        place += 16 + length


def segment_at(output, octets):
    """The VID of the segment in which a record left: by its tag at a port, by its tunnel's VNI for the underlay."""
    if output != "underlay.pcap":
        tag, vid = struct.unpack_from(">HH", octets, 12)
        return vid & 0xFFF if tag == 0x8100 else NOISY
    port, vni = struct.unpack_from(">H", octets, 36)[0], struct.unpack_from(">I", octets, 46)[0] >> 8
    return {value: vid for vid, value in TENANTS.items()}[{4789: "vxlan", 6081: "geneve"}[port], vni]


def told(folder):
    """What a run says of each segment: its decision lines without their numbers."""
    lines = {}
    for line in folder.joinpath("decisions.txt").read_text().splitlines():
        number, moment, source, own, segment, result = line.split(" ", 5)
        lines.setdefault(segment, []).append((int(moment), source, result))
    return lines


def wanted(vid):
    """What is to be said of a segment in which nobody else is."""
    lines = [(at, "c", "done") for at, _ in changes_of(vid)]
    lines += [(at, f"p{source}" if source else "u", result) for at, source, _, result in talk(vid)]
    return sorted(lines)


def compare(folder):
    """Answers the first thing that isn't as it has to be."""
    quiet, loud = told(folder / "quiet/out"), told(folder / "storm/out")
    for vid in TENANTS:
        if quiet[str(vid)] != wanted(vid):
            return f"without the storm other lines are told of segment {vid}"
    for vid in set(TENANTS) - {NOISY}:
        if loud[str(vid)] != quiet[str(vid)]:
            return f"in the storm other lines are told of segment {vid}"
    if len(loud[str(NOISY)]) < ADDRESSES or set(quiet[str(NOISY)]) <= set(loud[str(NOISY)]):
        return "the storm did nothing to its own segment"
    if len(loud.get("-", [])) < BAD // 2:
        return "no packet came to no segment"
    count = 0
    for output in OUTPUTS:
        left = []
        for name in ["quiet", "storm"]:
            found = {}
            for at, octets in records(folder / name / "out" / output):
                found.setdefault(segment_at(output, octets), []).append((at, octets))
            left.append(found)
        for vid in set(TENANTS) - {NOISY}:
            count += len(left[0][vid])
            if left[0][vid] != left[1][vid]:
                return f"in the storm other octets leave in segment {vid} in {output}"
        if len(left[1][NOISY]) < ADDRESSES // 4:
            return f"the storm doesn't leave in {output}"
    print(f"ok: {count} records of two segments beside {len(loud[str(NOISY)])} events of a third")
    return None


if sys.argv[1] == "compare":
    sys.exit(compare(pathlib.Path(sys.argv[2])))
write(pathlib.Path(sys.argv[1]))
