"""Packets of VXLAN (RFC 7348) and Geneve (RFC 8926) over IPv4 and IPv6: made, and read in the order of docs/REASONS.md."""
import struct

VXLAN, GENEVE = "vxlan", "geneve"
TAG, SERVICE_TAG = b"\x81\x00", b"\x88\xa8"
NOBODY = {b"\0" * 4, b"\xff" * 4, b"\0" * 16}


def number(octets):
    return int.from_bytes(octets, "big")


def words_sum(octets):
    """The one's complement sum of the words (RFC 1071)."""
    octets += bytes(len(octets) % 2)
    total = sum(struct.unpack(f">{len(octets) // 2}H", octets))
    while total >> 16:
        total = (total & 0xFFFF) + (total >> 16)
    return total


def is_group(address):
    return address[0] >> 4 == 14 if len(address) == 4 else address[0] == 255


def pseudo(source, target, length):
    """The pseudo header of a datagram (RFC 768; RFC 8200, 8.1)."""
    return source + target + struct.pack(">IHH", length, 0, 17)


# Made.


def tunnel_header(kind, vni, options=b""):
    if kind == VXLAN:
        return struct.pack(">II", 8 << 24, vni << 8)
    return struct.pack(">BBHI", len(options) // 4, 0, 0x6558, vni << 8) + options


def datagram(source, target, port, data, has_sum):
    """A datagram from port 50000."""
    head = struct.pack(">HHH", 50000, port, 8 + len(data))
    total = words_sum(pseudo(source, target, 8 + len(data)) + head + b"\0\0" + data) if has_sum else 0xFFFF
    return head + struct.pack(">H", (total ^ 0xFFFF or 0xFFFF) if has_sum else 0) + data


def ip_packet(source, target, udp, ttl=64):
    """An IP packet of the addresses' family with its Ethernet type in front."""
    if len(source) == 16:
        return b"\x86\xdd" + struct.pack(">IHBB", 6 << 28, len(udp), 17, ttl) + source + target + udp
    head = struct.pack(">BBHHHBBH", 0x45, 0, 20 + len(udp), 0, 0x4000, ttl, 17, 0) + source + target
    return b"\x08\x00" + head[:10] + struct.pack(">H", words_sum(head) ^ 0xFFFF) + head[12:] + udp


# Read.


def behind_tags(octets):
    """The type behind at most two tags, and what stands behind it."""
    at = 12
    for _ in range(2):
        if octets[at : at + 2] in (TAG, SERVICE_TAG):
            at += 4
    return octets[at : at + 2], octets[at + 2 :]


def outer_source(octets):
    """The outer source address, of as few octets as have it; None where it can't be read (captures.md, "Both directions")."""
    kind, packet = behind_tags(octets)
    if kind == b"\x08\x00" and len(packet) >= 16 and packet[0] >> 4 == 4:
        return packet[12:16]
    if kind == b"\x86\xdd" and len(packet) >= 24 and packet[0] >> 4 == 6:
        return packet[8:24]
    return None


def ip4_parts(packet):
    """Addresses and payload of an IPv4 packet of UDP; None where reasons 13, 14, 17 or 18 hold."""
    if len(packet) < 20 or packet[0] >> 4 != 4:
        return None
    head, whole = (packet[0] & 15) * 4, number(packet[2:4])
    if head < 20 or head > len(packet) or not head <= whole <= len(packet) or words_sum(packet[:head]) != 0xFFFF:
        return None
    if number(packet[6:8]) & 0x3FFF or packet[9] != 17:
        return None
    return packet[12:16], packet[16:20], packet[head:whole]


def ip6_parts(packet):
    """The same of an IPv6 packet."""
    if len(packet) < 40 or packet[0] >> 4 != 6 or 40 + number(packet[4:6]) > len(packet) or packet[6] != 17:
        return None
    return packet[8:24], packet[24:40], packet[40 : 40 + number(packet[4:6])]


def sum_is_taken(underlay, source, target, udp):
    """Reasons 21 and 22 don't hold."""
    told = number(udp[6:8])
    if told == 0:
        return len(source) == 4 or underlay.zero6
    front = pseudo(source, target, len(udp))
    return words_sum(front + udp) == 0xFFFF or (underlay.partial and told == words_sum(front))


def vxlan_data(data):
    return (number(data[4:7]), data[8:]) if len(data) >= 8 and data[0] & 8 else None


def geneve_data(data):
    """The VNI and the frame, of a header without a critical option."""
    if len(data) < 8 or data[0] >> 6 or data[1] & 0x80 or data[2:4] != b"\x65\x58":
        return None
    at, end = 8, 8 + (data[0] & 63) * 4
    if len(data) < end:
        return None
    while at < end:
        if data[at + 2] & 0x80:
            return None
        at += 4 + (data[at + 3] & 31) * 4
    return (number(data[4:7]), data[end:]) if at == end else None


def unwrapped(underlay, octets):
    """Source, target, kind of tunnel, VNI and frame of a packet to the endpoint; None where one of the reasons 12 to 29 holds."""
    kind, packet = behind_tags(octets)
    parts = {b"\x08\x00": ip4_parts, b"\x86\xdd": ip6_parts}.get(kind, lambda _: None)(packet)
    if parts is None:
        return None
    source, target, payload = parts
    if source in NOBODY or is_group(source) or source in underlay.own or not (is_group(target) or target in underlay.own):
        return None
    if len(payload) < 8 or not 8 <= number(payload[4:6]) <= len(payload):
        return None
    udp = payload[: number(payload[4:6])]
    tunnel = {underlay.vxlan_port: VXLAN, underlay.geneve_port: GENEVE}.get(number(udp[2:4]))
    if tunnel is None or not sum_is_taken(underlay, source, target, udp):
        return None
    told = vxlan_data(udp[8:]) if tunnel == VXLAN else geneve_data(udp[8:])
    return None if told is None else (source, target, tunnel, *told)
