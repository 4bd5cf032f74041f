#!/usr/bin/env python3
"""Writes captures to run `tep` on: classic pcap, little-endian, in microseconds, with nothing but Python's own library.

    captures.py small FOLDER    port1.pcap, port2.pcap, port3.pcap and underlay.pcap, eight records in all
    captures.py large FOLDER    the same names; 3,000 frames at port 1, 3,000 packets from the underlay
    captures.py read FOLDER     reads FOLDER/out/underlay.pcap, which has to hold the frames of FOLDER/in/port1.pcap in VXLAN
"""
import pathlib
import struct
import sys

EVERYBODY = b"\xff" * 6
ARP, IP4 = b"\x08\x06", b"\x08\x00"
PEER, ENDPOINT = bytes([192, 0, 2, 2]), bytes([192, 0, 2, 1])
SECOND = 10**6


def mac(number):
    """A locally administered address."""
    return b"\x02\x00" + struct.pack(">I", number)


def ip4(number):
    """An address of 10.0.0.0/8."""
    return struct.pack(">I", 0x0A000000 + number)


def checksum(octets):
    """The Internet checksum (RFC 1071)."""
    total = sum(struct.unpack(f">{(len(octets) + 1) // 2}H", octets + bytes(len(octets) % 2)))
    while total > 0xFFFF:
        total = (total & 0xFFFF) + (total >> 16)
    return 0xFFFF - total


def packet(src, dst, ports, text, checked=True):
    """A UDP datagram over IPv4 (RFC 768, RFC 791)."""
    udp = struct.pack(">HHHH", *ports, 8 + len(text), 0) + text
    if checked:
        pseudo = src + dst + struct.pack(">HH", 17, len(udp))
        udp = udp[:6] + struct.pack(">H", checksum(pseudo + udp) or 0xFFFF) + udp[8:]
    head = struct.pack(">BBHHHBBH", 0x45, 0, 20 + len(udp), 0, 0x4000, 64, 17, 0) + src + dst
    return head[:10] + struct.pack(">H", checksum(head)) + head[12:] + udp


def frame(dst, src, kind, body, vid=None):
    """An Ethernet frame, filled up to 60 octets before a tag is put in."""
    tag = b"" if vid is None else struct.pack(">HH", 0x8100, vid)
    return dst + src + tag + kind + body.ljust(46, b"\0")


def asks(near, far, vid=None):
    """A station asks everybody for another (ARP, RFC 826)."""
    body = struct.pack(">HHBBH", 1, 0x0800, 6, 4, 1) + mac(near) + ip4(near) + bytes(6) + ip4(far)
    return frame(EVERYBODY, mac(near), ARP, body, vid)


def sends(near, far, vid=None, size=18):
    """A station sends so many octets to another, to the discard service."""
    return frame(mac(far), mac(near), IP4, packet(ip4(near), ip4(far), (40000 + near, 9), bytes(size)), vid)


def tunnelled(inner):
    """A frame in VXLAN (RFC 7348) from the peer to the endpoint of a.toml."""
    vxlan = struct.pack(">II", 0x08000000, 5000 << 8) + inner
    return frame(mac(0xAA01), mac(0xAA02), IP4, packet(PEER, ENDPOINT, (50000, 4789), vxlan, checked=False))


def small():
    """Two stations here and one behind the peer, in one segment; two more in another."""
    return {
        "port1": [(1 * SECOND, asks(1, 2)), (6 * SECOND, sends(1, 5)), (8 * SECOND, asks(1, 6))],
        "port2": [(3 * SECOND, sends(2, 1)), (4 * SECOND, sends(2, 1, vid=20))],
        "port3": [(2 * SECOND, asks(1, 2, vid=20))],
        "underlay": [(5 * SECOND, tunnelled(asks(5, 1))), (9 * SECOND, asks(0xAA02, 0xAA01))],
    }


def large():
    """Fifty stations at port 1 and fifty behind the peer send to one another, and now and then ask for one."""
    port1, underlay = [], []
    for n in range(3000):
        near, far, size = 100 + n % 50, 200 + n * 7 % 50, 18 + n * 37 % 1400
        port1.append((n * 2000, asks(near, far) if n % 100 == 0 else sends(near, far, size=size)))
        underlay.append((n * 2000 + 1000, tunnelled(asks(far, near) if n % 100 == 50 else sends(far, near, size=size))))
    return {"port1": port1, "port2": [], "port3": [], "underlay": underlay}


def write(path, records):
    """A capture of records: a moment, in microseconds, the octets, and the original length where it is another."""
    with path.open("wb") as out:
        out.write(struct.pack("<IHHiIII", 0xA1B2C3D4, 2, 4, 0, 0, 262144, 1))
        for moment, octets, *original in records:
            lengths = len(octets), *(original or [len(octets)])
            out.write(struct.pack("<IIII", *divmod(moment, SECOND), *lengths) + octets)


def read(path):
    """The octets of each record of a little-endian capture."""
    text, at = path.read_bytes(), 24
    magic, major, minor, *_, link = struct.unpack_from("<IHHiIII", text)
    assert magic in (0xA1B2C3D4, 0xA1B23C4D) and (major, minor, link) == (2, 4, 1), "the capture's header"
    while at < len(text):
        length, original = struct.unpack_from("<II", text, at + 8)
        assert length == original and at + 16 + length <= len(text), f"the record at {at}"
        yield text[at + 16 : at + 16 + length]
        at += 16 + length


def carried(octets):
    """The frame in a packet that the endpoint of a.toml sends to the peer in VXLAN, with checksums over IPv4."""
    head, udp, vxlan = octets[14:34], octets[34:42], octets[42:50]
    assert octets[:14] == mac(0xAAFE) + mac(0xAA01) + IP4, "the addresses of the underlay"
    assert head[:2] == b"\x45\0" and head[9] == 17 and head[12:] == ENDPOINT + PEER, "the IPv4 header"
    assert int.from_bytes(head[2:4], "big") == len(octets) - 14 and checksum(head) == 0, "the IPv4 length and checksum"
    pseudo = ENDPOINT + PEER + struct.pack(">HH", 17, len(octets) - 34)
    assert udp[2:4] == struct.pack(">H", 4789) and udp[4:6] == struct.pack(">H", len(octets) - 34), "the UDP header"
    assert udp[6:] != b"\0\0" and checksum(pseudo + octets[34:]) == 0, "the UDP checksum"
    assert vxlan == struct.pack(">II", 0x08000000, 5000 << 8), "the VXLAN header"
    return octets[50:]


def compare(folder):
    """Reads what a run sent, and holds it against what came in."""
    sent = [carried(octets) for octets in read(folder / "out" / "underlay.pcap")]
    assert sent == list(read(folder / "in" / "port1.pcap")), "the frames of port 1"
    print(f"{len(sent)} packets, whose frames are those of port 1")


def main():
    if len(sys.argv) != 3 or sys.argv[1] not in ("small", "large", "read"):
        sys.exit(__doc__)
    folder = pathlib.Path(sys.argv[2])
    if sys.argv[1] == "read":
        return compare(folder)
    captures = small() if sys.argv[1] == "small" else large()
    for name, records in captures.items():
        write(folder / f"{name}.pcap", records)


if __name__ == "__main__":
    main()
