#!/usr/bin/env python3
"""Writes captures for the endpoint of every_key.toml with every_change.toml, in which each of the forty reasons comes once:

    reasons.py FOLDER    port1.pcap to port4.pcap, underlay.pcap, and expected.txt: a line for each record, with its source,
                         its number there, and the reason that it is dropped for, or that one of its outlets has
"""
import pathlib
import struct
import sys

sys.dont_write_bytecode = True
from captures import ARP, EVERYBODY, IP4, SECOND, asks, checksum, frame, mac, sends, write

ENDPOINT, PEER, SECOND_PEER = bytes([192, 0, 2, 1]), bytes([192, 0, 2, 2]), bytes([192, 0, 2, 3])
IP6 = b"\x86\xdd"
ENDPOINT6 = bytes.fromhex("20010db8" + "00" * 11 + "01")
PEER6 = bytes.fromhex("20010db8" + "00" * 11 + "02")
VXLAN, GENEVE = 4789, 6081
TAG = b"\x81\x00"


def vxlan(inner, vni=5000, flags=0x08):
    """A VXLAN header (RFC 7348, 5), and what follows it."""
    return struct.pack(">II", flags << 24, vni << 8) + inner


def geneve(inner, vni=6000, version=0, control=0, kind=0x6558, options=b"", words=None):
    """A Geneve header (RFC 8926, 3.4), and what follows it. The length of options is in words of 4 octets."""
    words = len(options) // 4 if words is None else words
    return struct.pack(">BBHI", version << 6 | words, control << 7, kind, vni << 8) + options + inner


def option(kind, body=b""):
    """A Geneve option of class 258 (RFC 8926, 3.5); 128 and above must be understood."""
    return struct.pack(">HBB", 258, kind, len(body) // 4) + body


def datagram(text, port=VXLAN, length=None, add=0):
    """A UDP datagram without a checksum, or with a wrong one."""
    return struct.pack(">HHHH", 50000, port, 8 + len(text) if length is None else length, add) + text


def outer(text, src=PEER, dst=ENDPOINT, first=0x45, protocol=17, fragment=0, damage=0):
    """An Ethernet frame with an IPv4 packet (RFC 791)."""
    head = struct.pack(">BBHHHBBH", first, 0, 20 + len(text), 0, fragment, 64, protocol, 0) + src + dst
    head = head[:10] + struct.pack(">H", checksum(head) ^ damage) + head[12:]
    return frame(mac(0xAA01), mac(0xAA02), IP4, head + text)


def outer6(text):
    """An Ethernet frame with an IPv6 packet (RFC 8200)."""
    head = struct.pack(">IHBB", 0x60000000, len(text), 17, 64) + PEER6 + ENDPOINT6
    return frame(mac(0xAA01), mac(0xAA02), IP6, head + text)


def tunnelled(inner=b"", **how):
    """A frame in VXLAN from a peer."""
    return outer(datagram(vxlan(inner or asks(7, 1))), **how)


def local():
    """What comes in at ports: port, second, octets, reason, and the original length where it is another."""
    hello = asks(1, 2, vid=10)
    tagged = EVERYBODY + mac(1) + TAG
    return [
        (1, 1, bytes(65536), "TooLong"),
        (1, 2, hello, "Sliced", 1000),
        (1, 3, hello[:13], "Runt"),
        (4, 3, asks(4, 1), "PortDown"),
        (1, 4, EVERYBODY + b"\x03" + hello[7:], "BadSource"),
        (1, 5, b"\x01\x80\xc2\0\0\0" + hello[6:], "Reserved"),
        (1, 6, tagged + b"\0\x0a", "CutTag"),
        (1, 7, tagged + b"\x0f\xff" + ARP + bytes(46), "BadVid"),
        (2, 8, asks(2, 1, vid=10), "FrameType"),
        (1, 8, asks(1, 2, vid=99), "NoSegment"),
        (1, 9, asks(1, 2, vid=30), "NotMember"),
        (1, 10, hello, "-"),
        (1, 11, sends(2, 1, vid=10), "SamePlace"),
        (1, 12, sends(1, 0x50, vid=10), "Unreachable"),
        (4, 23, asks(4, 1), "NoOutlet"),
        (1, 24, sends(1, 9, vid=10, size=1400), "TooBig"),
        (1, 25, tagged + b"\0\x0a" + TAG + b"\0\x63" + ARP + bytes(46), "InnerTagOut"),
    ]


def from_underlay():
    """What comes in from the underlay, in order: octets and reason."""
    inner = asks(7, 1)
    unknown = option(0x80)
    return [
        (frame(mac(0xAA01), mac(0xAA02), ARP, b""), "NotIp"),
        (outer(b"", first=0x55), "BadIp"),
        (tunnelled(damage=1), "BadIpSum"),
        (tunnelled(src=ENDPOINT), "BadOuterSource"),
        (tunnelled(dst=bytes([192, 0, 2, 99])), "NotForUs"),
        (tunnelled(fragment=0x2000), "Fragment"),
        (outer(bytes(20), protocol=6), "NotUdp"),
        (outer(datagram(b"", length=7)), "BadUdp"),
        (outer(datagram(b"", port=53)), "NotTunnel"),
        (outer6(datagram(geneve(inner), port=GENEVE)), "ZeroSum"),
        (outer(datagram(vxlan(inner), add=1)), "BadUdpSum"),
        (outer(datagram(bytes(4))), "ShortTunnel"),
        (outer(datagram(vxlan(inner, flags=0))), "NoVniFlag"),
        (outer(datagram(geneve(inner, version=1), port=GENEVE)), "BadVersion"),
        (outer(datagram(geneve(inner, control=1), port=GENEVE)), "Control"),
        (outer(datagram(geneve(inner, kind=0x0800), port=GENEVE)), "NotEthernet"),
        (outer(datagram(geneve(inner, options=option(1, bytes(8)), words=2), port=GENEVE)), "BadOptions"),
        (outer(datagram(geneve(inner, options=unknown), port=GENEVE)), "CriticalOption"),
        (outer(datagram(geneve(inner, options=option(129)), port=GENEVE)), "-"),
        (outer(datagram(vxlan(inner, vni=9999))), "UnknownVni"),
        (tunnelled(dst=bytes([239, 0, 0, 99])), "WrongGroup"),
        (tunnelled(src=bytes([192, 0, 2, 77])), "UnknownPeer"),
        (outer(datagram(vxlan(inner[:10])).ljust(40, b"\0")), "InnerRunt"),
        (tunnelled(asks(7, 1, vid=20)), "InnerTag"),
        (tunnelled(dst=bytes([239, 0, 0, 10])), "-"),
        (tunnelled(sends(8, 7), src=SECOND_PEER), "Horizon"),
    ]


def main(folder):
    captures = {f"p{port}": [] for port in (1, 2, 3, 4)}
    captures["u"] = []
    expected = []
    for port, second, octets, reason, *original in local():
        captures[f"p{port}"].append((second * SECOND, octets, *original))
        expected.append((f"p{port}", len(captures[f"p{port}"]), reason))
    for number, (octets, reason) in enumerate(from_underlay(), 1):
        captures["u"].append((30 * SECOND + number, octets))
        expected.append(("u", number, reason))
    for source, records in captures.items():
        write(folder / f"{source.replace('p', 'port') if source != 'u' else 'underlay'}.pcap", records)
    text = "".join(f"{source} {number} {reason}\n" for source, number, reason in expected)
    (folder / "expected.txt").write_text(text)


if __name__ == "__main__":
    if len(sys.argv) != 2:
        sys.exit(__doc__)
    main(pathlib.Path(sys.argv[1]))
