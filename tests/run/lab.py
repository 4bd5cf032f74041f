"""Holds the captures of examples/lab against what RFC 768 and RFC 7348 say of them, and against what a run sent.

    lab.py CAPTURES OUT    the folder of the captures, and what a run on CAPTURES/come_in wrote
"""
import pathlib
import sys

from captures import checksum, read

ENDPOINT, PEER = bytes([192, 0, 2, 1]), bytes([192, 0, 2, 2])
NAMES = ("port1", "port2", "underlay")


def pseudo(datagram):
    """The pseudo header of a datagram in an IPv4 packet without options (RFC 768)."""
    return datagram[12:20] + b"\0\x11" + datagram[24:26]


def is_right(packet):
    """The checksum of a datagram over IPv4 is right."""
    return packet[26:28] != b"\0\0" and checksum(pseudo(packet) + packet[20:]) == 0


def is_left(packet):
    """The checksum is left to the card: the sum of the pseudo header alone stands there, not its complement."""
    return int.from_bytes(packet[26:28], "big") == 0xFFFF - checksum(pseudo(packet))


def filled(packet):
    """The packet, as the card would send it that fills in the checksum."""
    total = checksum(pseudo(packet) + packet[20:26] + b"\0\0" + packet[28:]) or 0xFFFF
    return packet[:26] + total.to_bytes(2, "big") + packet[28:]


def carries_udp(frame):
    return frame[12:14] == b"\x08\0" and frame[23] == 17


def outers(path):
    """The IPv4 packets in the frames of a capture of the underlay."""
    frames = list(read(path))
    assert all(map(carries_udp, frames)), f"{path}: there is more than tunnels"
    return [frame[14:] for frame in frames]


def without_choices(frame):
    """A frame of the underlay without what its sender chooses: identification, Don't Fragment, source port, and checksums."""
    return frame[:18] + frame[22:24] + frame[26:34] + frame[36:40] + frame[42:]


def check_checksums(folder):
    """Without offloads all checksums are right; with them none of a datagram is."""
    for case in ("come_in", "both", "other_vni", "port_8472"):
        for name in NAMES:
            for frame in filter(carries_udp, read(folder / case / f"{name}.pcap")):
                assert is_right(frame[14:]), f"{case}/{name}: a wrong checksum"
        for packet in outers(folder / case / "underlay.pcap"):
            assert not carries_udp(packet[36:]) or is_right(packet[50:]), f"{case}: a wrong inner checksum"
    for name in ("port1", "port2"):
        tenants = [frame[14:] for frame in read(folder / "offloads" / f"{name}.pcap") if carries_udp(frame)]
        assert tenants and all(map(is_left, tenants)), f"offloads/{name}: a checksum that wasn't left"
    kinds = set()
    for packet in outers(folder / "offloads" / "underlay.pcap"):
        assert not is_right(packet), "offloads: a right outer checksum"
        frame = packet[36:]
        kinds.add(carries_udp(frame))
        if carries_udp(frame):
            assert is_left(frame[14:]), "offloads: an inner checksum that wasn't left"
            assert is_right(packet[:50] + filled(frame[14:])), "offloads: the outer checksum doesn't foresee the inner one"
        else:
            assert is_left(packet), "offloads: an outer checksum that wasn't left"
    assert kinds == {True, False}, "offloads: packets with an inner checksum, and without one"


def check_tunnels(folder):
    """Destination port and VNI are those that the case is about."""
    for case in ("come_in", "both", "offloads", "other_vni", "port_8472"):
        wanted = 8472 if case == "port_8472" else 4789, 5001 if case == "other_vni" else 5000
        packets = outers(folder / case / "underlay.pcap")
        assert packets, f"{case}: no packets"
        for packet in packets:
            told = int.from_bytes(packet[22:24], "big"), int.from_bytes(packet[32:35], "big")
            assert told == wanted and packet[28] == 8, f"{case}: port and VNI {told}"
            assert case == "both" or packet[12:20] == PEER + ENDPOINT, f"{case}: a packet that didn't come in"


def check_sent(folder, out):
    """A capture of both directions has what came in, and what a run on that sends, in their orders."""
    for name in NAMES:
        came = list(read(folder / "come_in" / f"{name}.pcap"))
        left = list(read(folder / "both" / f"{name}.pcap"))
        for frame in came:
            left.remove(frame)
        sent = list(read(out / f"{name}.pcap"))
        assert came and sent, f"{name}: nothing"
        if name == "underlay":
            assert all(is_right(frame[14:]) for frame in sent), "a wrong checksum is sent"
            left, sent = [list(map(without_choices, some)) for some in (left, sent)]
        assert left == sent, f"{name}: the kernel sent something else"


def main():
    if len(sys.argv) != 3:
        sys.exit(__doc__)
    folder, out = map(pathlib.Path, sys.argv[1:])
    check_checksums(folder)
    check_tunnels(folder)
    check_sent(folder, out)


main()
