#!/usr/bin/env python3
"""Settings and captures whose runs are measured: loads.py FOLDER LOAD EVENTS

    local        frames of 60 octets among 64 stations at three ports of one segment
    into_tunnel  frames of 1,400 octets into VXLAN with UDP checksums: every second one to a station behind a remote, the
                 others flooded to two remotes
    out_of_tunnel  packets of 1,450 octets out of VXLAN, every second one with a UDP checksum: nine in ten to a local
                 station, one flooded
    tenants      tagged frames in 64 segments of 1,000 stations; entries age in 10 seconds, and a station sends in 40
    one_bucket   tagged frames in 256 segments of 32 stations, whose addresses all fall into one bucket of the tables

The same words give the same octets. Addresses and destinations go through their ranges by odd steps."""
import struct
import sys
from itertools import islice
from pathlib import Path

HEADER = struct.pack("<IHHiIII", 0xA1B23C4D, 2, 4, 0, 0, 262144, 1)
SECOND = 10**9
OWN_MAC, HOP_MAC = bytes.fromhex("02000000aa01"), bytes.fromhex("02000000aafe")
EVERYBODY = b"\xff" * 6
OWN, REMOTE = bytes([192, 0, 2, 1]), bytes([192, 0, 2, 2])


def checksum(octets):
    """The Internet checksum of octets, one of zero behind an odd number."""
    octets += bytes(len(octets) % 2)
    total = sum(struct.unpack(f">{len(octets) // 2}H", octets))
    while total > 0xFFFF:
        total = (total & 0xFFFF) + (total >> 16)
    return 0xFFFF - total


def ipv4(source, destination, payload):
    head = struct.pack(">BBHHHBBH4s4s", 0x45, 0, 20 + len(payload), 0, 0x4000, 64, 17, 0, source, destination)
    return head[:10] + struct.pack(">H", checksum(head)) + head[12:] + payload


def udp(source, destination, port, payload, is_summed):
    """A datagram to VXLAN's port."""
    head = struct.pack(">HHH", port, 4789, 8 + len(payload))
    pseudo = source + destination + struct.pack(">HH", 17, 8 + len(payload))
    total = checksum(pseudo + head + b"\0\0" + payload) or 0xFFFF if is_summed else 0
    return head + struct.pack(">H", total) + payload


def station(number, group=0):
    return struct.pack(">BBI", 2, group, number)


def flow(number, size):
    """The type and the body of a frame with a datagram of its own, of so many octets in all."""
    addresses = bytes([10, 0, 0, number % 64]), bytes([10, 1, 0, number % 64])
    datagram = struct.pack(">HHHH", 1024 + number, 53, size - 22, 0) + bytes((i * number) % 251 for i in range(size - 30))
    return b"\x08\x00" + ipv4(*addresses, datagram)


def tag(vid):
    return struct.pack(">HHH", 0x8100, vid, 0x0800)


def packet(number, frame):
    """A frame in VXLAN from the remote."""
    tunneled = bytes.fromhex("0800000000138800") + frame
    return OWN_MAC + HOP_MAC + b"\x08\x00" + ipv4(REMOTE, OWN, udp(REMOTE, OWN, 49152 + number % 16384, tunneled, number % 2))


def settings(segments, underlay="", pvid=10):
    text = f'version = 1\n[underlay]\nmac = "02:00:00:00:aa:01"\nnext_hop = "02:00:00:00:aa:fe"\nip4 = "192.0.2.1"\n{underlay}'
    return text + f"[[port]]\npvid = {pvid}\n" * 3 + "".join("[[segment]]\n" + segment for segment in segments)


def segment(vid, more):
    return f'vid = {vid}\nvni = {4990 + vid}\ntunnel = "vxlan"\n{more}\n'


# Each load: its settings, and what comes: the index of a capture (3: the underlay's), a moment, and octets.


def local():
    bodies = [flow(n, 48) for n in range(64)]

    def coming():
        n = 0
        while True:
            source, destination = n % 64, (n * 37 + 11) % 64
            yield source % 3, n * 1000, station(destination) + station(source) + bodies[source]
            n += 1

    return settings([segment(10, "untagged = [1, 2, 3]")]), coming()


def into_tunnel():
    bodies = [flow(n, 1388) for n in range(64)]

    def coming():
        for n in range(32):
            yield 3, 0, packet(0, station(1) + station(n, 1) + bodies[0])
        n = 0
        while True:
            destination = station(n * 5 % 32, 1 + n % 2)
            yield 0, SECOND + n * 1000, destination + station(n % 64) + bodies[n * 7 % 64]
            n += 1

    segments = [segment(10, 'untagged = [1]\nflood = ["192.0.2.2", "192.0.2.3"]')]
    return settings(segments, "sum4 = true\n"), coming()


def out_of_tunnel():
    bodies = [flow(n, 1388) for n in range(64)]
    packets = []
    for n in range(2000):
        destination = EVERYBODY if n % 10 == 9 else station(n * 7 % 48)
        packets.append(packet(n, destination + station(n * 5 % 256, 1) + bodies[n % 64]))

    def coming():
        for n in range(48):
            yield n % 3, 0, EVERYBODY + station(n) + b"\x08\x06" + bytes(46)
        n = 0
        while True:
            yield 3, SECOND + n * 1000, packets[n * 3 % 2000]
            n += 1

    return settings([segment(10, 'untagged = [1, 2, 3]\nflood = ["192.0.2.2"]')]), coming()


def tagged(vid, source, destination):
    return destination + source + tag(vid) + bytes(42)


def tenants():
    segments = [segment(100 + n, "limit = 1000\nageing = 10\ntagged = [1, 2, 3]") for n in range(64)]

    def coming():
        n = 0
        while True:
            own, source, destination = n * 5 % 64, n * 7919 % 1000, n * 6007 % 1000
            yield source % 3, n * 200000, tagged(100 + own, station(source, own), station(destination, own))
            n += 1

    return settings(segments, pvid=1), coming()


def one_bucket():
    segments = [segment(vid, "limit = 32\ntagged = [1, 2, 3]") for vid in range(1, 257)]

    def address(vid, n):
        # the sum of an address's three words and the VID has the same remainder by 4,096
        middle = (n * 2897 + vid * 13) % 65536
        return struct.pack(">HHH", 0x0200 + n, middle, (7 - vid - 0x0200 - n - middle) % 4096 + 4096 * (n % 15))

    addresses = {vid: [address(vid, n) for n in range(32)] for vid in range(1, 257)}

    def coming():
        n = 0
        while True:
            vid, source, destination = n % 256 + 1, n // 256 % 32, n * 5 % 32
            yield source % 3, n * 1000, tagged(vid, addresses[vid][source], addresses[vid][destination])
            n += 1

    return settings(segments, pvid=1), coming()


LOADS = {make.__name__: make for make in (local, into_tunnel, out_of_tunnel, tenants, one_bucket)}


def write(folder, name, events):
    """Writes a load's settings and captures into a folder."""
    folder = Path(folder)
    folder.mkdir(parents=True, exist_ok=True)
    text, coming = LOADS[name]()
    (folder / "settings.toml").write_text(text)
    captures = [open(folder / f"{tap}.pcap", "wb") for tap in ("port1", "port2", "port3", "underlay")]
    for capture in captures:
        capture.write(HEADER)
    for index, moment, octets in islice(coming, events):
        captures[index].write(struct.pack("<IIII", *divmod(moment, SECOND), len(octets), len(octets)) + octets)
    for capture in captures:
        capture.close()


if __name__ == "__main__":
    write(sys.argv[1], sys.argv[2], int(sys.argv[3]))
