#!/usr/bin/env python3
"""`tep compare --worked`: a folder as a run leaves it, and captures of what went out, made here octet by octet, with what each
change of them makes of the counts, as worked out by hand. Usage: compare_worked.py TEP FOLDER; prints what differs, and exits 1
where something does."""
import os
import struct
import subprocess
import sys

MOMENT = 5
INNER = bytes(range(60))


def words_sum(octets):
    """The Internet checksum (RFC 1071)."""
    total = sum(struct.unpack(f">{len(octets) // 2}H", octets))
    while total >> 16:
        total = (total & 0xFFFF) + (total >> 16)
    return total ^ 0xFFFF


def ip4(payload, ttl=64, number=0, flags=0x4000, destination=b"\xc0\0\2\2", wrong=0):
    """An IPv4 packet (RFC 791, 3.1) of UDP behind its addresses of Ethernet's type."""
    head = struct.pack(">BBHHHBBH", 0x45, 0, 20 + len(payload), number, flags, ttl, 17, 0) + b"\xc0\0\2\1" + destination
    head = head[:10] + struct.pack(">H", words_sum(head) ^ wrong) + head[12:]
    return b"\x08\0" + head + payload


def ip6(payload, limit=64):
    """The same of IPv6 (RFC 8200, 3)."""
    address = bytes.fromhex("20010db8000000000000000000000001")
    return b"\x86\xdd" + struct.pack(">IHBB", 0x60000000, len(payload), 17, limit) + address + address[:15] + b"\2" + payload


def udp(port, data, source=50000, check=0):
    """A datagram (RFC 768)."""
    return struct.pack(">HHHH", source, port, 8 + len(data), check) + data


def pseudo_sum(length):
    """The sum of the pseudo header before a datagram of ip4's addresses (RFC 768), no complement of it taken: what a sender writes
    that leaves the rest to its card."""
    return words_sum(b"\xc0\0\2\1\xc0\0\2\2" + struct.pack(">BBH", 0, 17, length)) ^ 0xFFFF


def right_sum(datagram):
    """The checksum of a datagram of ip4's addresses that has none (RFC 768)."""
    return words_sum(struct.pack(">H", pseudo_sum(len(datagram))) + datagram + bytes(len(datagram) % 2))


def vxlan(vni, inner, rest=0):
    """A VXLAN packet (RFC 7348, 5)."""
    return struct.pack(">BBHI", 8, rest, rest, vni << 8 | rest) + inner


def geneve(vni, options, inner, flags=0):
    """A Geneve packet (RFC 8926, 3.4)."""
    return struct.pack(">BBHI", len(options) // 4, flags, 0x6558, vni << 8) + options + inner


def frame(packet, mac=b"\2\0\0\0\0\1\2\0\0\0\0\2", tag=b""):
    return mac + tag + packet


OPTION = b"\x01\x02\x03\x01abcd"
CRITICAL = b"\x01\x02\x83\x01abcd"
ARP = frame(b"\x08\x06" + bytes(28))
VX = frame(ip4(udp(4789, vxlan(10, INNER))))
VX6 = frame(ip6(udp(4789, vxlan(10, INNER))))
GN = frame(ip4(udp(6081, geneve(10, OPTION, INNER))))
RIGHT = right_sum(udp(4789, vxlan(10, INNER)))
PARTIAL = frame(ip4(udp(4789, vxlan(10, INNER), check=pseudo_sum(len(udp(4789, vxlan(10, INNER)))))))
UNDERLAY = [VX, VX6, GN, ARP]
PORTS = [[INNER, INNER[::-1]], [VX]]

# What stands in the place of a packet of the underlay, and whether it is the same: VXLAN over IPv4.
FOR_VX = [
    ("another TTL", frame(ip4(udp(4789, vxlan(10, INNER)), ttl=3)), True),
    ("another identification", frame(ip4(udp(4789, vxlan(10, INNER)), number=7)), True),
    ("no Don't Fragment", frame(ip4(udp(4789, vxlan(10, INNER)), flags=0)), True),
    ("another source port", frame(ip4(udp(4789, vxlan(10, INNER), source=1))), True),
    ("a right UDP checksum", frame(ip4(udp(4789, vxlan(10, INNER), check=RIGHT))), True),
    ("a UDP checksum left to the card", PARTIAL, True),
    ("a wrong UDP checksum", frame(ip4(udp(4789, vxlan(10, INNER), check=RIGHT ^ 1))), False),
    ("other MAC addresses", frame(ip4(udp(4789, vxlan(10, INNER))), mac=bytes(12)), True),
    ("a tag", frame(ip4(udp(4789, vxlan(10, INNER))), tag=b"\x81\0\0\5"), True),
    ("Ethernet's padding", frame(ip4(udp(4789, vxlan(10, INNER)))) + bytes(4), True),
    ("reserved bits", frame(ip4(udp(4789, vxlan(10, INNER, rest=5)))), True),
    ("another inner octet", frame(ip4(udp(4789, vxlan(10, INNER[:59] + b"\xff")))), False),
    ("a shorter inner frame", frame(ip4(udp(4789, vxlan(10, INNER[:59])))), False),
    ("another VNI", frame(ip4(udp(4789, vxlan(11, INNER)))), False),
    ("another destination", frame(ip4(udp(4789, vxlan(10, INNER)), destination=b"\xc0\0\2\3")), False),
    ("another port", frame(ip4(udp(4790, vxlan(10, INNER)))), False),
    ("a wrong IPv4 checksum", frame(ip4(udp(4789, vxlan(10, INNER)), wrong=1)), False),
    ("a fragment", frame(ip4(udp(4789, vxlan(10, INNER)), flags=0x2000)), False),
    ("IPv6", frame(ip6(udp(4789, vxlan(10, INNER)))), False),
]
# The same of Geneve, whose packet has an option.
FOR_GN = [
    ("another TTL", frame(ip4(udp(6081, geneve(10, OPTION, INNER)), ttl=3)), True),
    ("the bit C", frame(ip4(udp(6081, geneve(10, OPTION, INNER, flags=0x40)))), True),
    ("another VNI", frame(ip4(udp(6081, geneve(11, OPTION, INNER)))), False),
    ("other data of the option", frame(ip4(udp(6081, geneve(10, OPTION[:7] + b"e", INNER)))), False),
    ("no option", frame(ip4(udp(6081, geneve(10, b"", INNER)))), False),
    ("the option's data as inner frame", frame(ip4(udp(6081, geneve(10, b"", OPTION + INNER)))), False),
    ("the bit O", frame(ip4(udp(6081, geneve(10, OPTION, INNER, flags=0x80)))), False),
]

# What of these differs where it is told that both packets are near: by the tunnel, and strictly by the frame. That over IPv6 is one
# that comes again.
DIFFER_VX = {
    "IPv6": "u: doubled 1\n",
    "another VNI": "u: vxlan 10: vni 11 for 10: 1, first record 1 for 1\n",
    "another destination": "u: vxlan 10: remote 192.0.2.3 for 192.0.2.2: 1, first record 1 for 1\n",
}
DIFFER_STRICTLY = {
    "IPv6": "u: doubled 1\n",
    "a tag": "u: untagged: tag 5 for none: 1, first record 1 for 1\n",
    "Ethernet's padding": "u: untagged: length 114 for 110: 1, first record 1 for 1\n",
}
DIFFER_GN = {"another VNI": "u: geneve 10: vni 11 for 10: 1, first record 3 for 3\n"}


def cut(octets, missing):
    """A record of which so many octets more weren't captured."""
    return octets, len(octets) + missing


def write(path, records, moment=MOMENT, rest=b""):
    """A classic capture of nanoseconds: its records at one moment, in seconds, and behind them a rest."""
    with open(path, "wb") as out:
        out.write(struct.pack("<IHHiIII", 0xA1B23C4D, 2, 4, 0, 0, 262144, 1))
        for content in records:
            octets, original = content if isinstance(content, tuple) else (content, len(content))
            out.write(struct.pack("<IIII", moment, 0, len(octets), original) + octets)
        out.write(rest)
    return path


def line(word, sent, received, both):
    alone = f"sent alone {sent - both}, received alone {received - both}"
    return f"{word}: sent {sent}, received {received}, both {both}, {alone}\n"


def told(p1, p2, u, segments=(), differences=""):
    """What is printed of these three places, each with its counts, or None without a capture, of what differs at the last one, and of
    segments, each with its counts."""
    places = [("p1", p1), ("p2", p2), ("u", u)]
    text = "".join(line(word, *counts) if counts else f"{word}: no capture\n" for word, counts in places) + differences
    text += "".join(line(word, *counts) for word, counts in segments)
    return text + line("all", *(sum(counts[i] for _, counts in places if counts) for i in range(3)))


def main():
    tep, folder = sys.argv[1:]
    worked = os.path.join(folder, "worked")
    os.makedirs(worked)
    ports = [write(f"{worked}/port{n}.pcap", records) for n, records in enumerate(PORTS, 1)]
    underlay = write(f"{worked}/underlay.pcap", UNDERLAY)
    open(f"{worked}/decisions.txt", "w").close()
    failed = False

    def wants(what, status, text, *words):
        nonlocal failed
        done = subprocess.run([tep, "compare", *words], capture_output=True, text=True)
        if (done.returncode, done.stdout + done.stderr) != (status, text):
            print(f"compare_worked.py: {what}: status {done.returncode}\n{done.stdout}{done.stderr}in place of {status}\n{text}")
            failed = True

    differs = "what was received isn't what was sent\n"
    seen = os.path.join(folder, "seen.pcap")

    def underlay_is(what, records, counts, moment=MOMENT, words=(), segments=(), differences=""):
        same = counts[0] == counts[1] == counts[2]
        text = told((2, 2, 2), (1, 1, 1), counts, segments, differences) + ("" if same else differs)
        write(seen, records, moment)
        wants(what, 0 if same else 1, text, *words, "--worked", worked, "-u", seen, *ports)

    underlay_is("the same", UNDERLAY, (4, 4, 4))
    underlay_is("in another order", UNDERLAY[::-1], (4, 4, 4))
    underlay_is("one lost", UNDERLAY[1:], (4, 3, 3))
    underlay_is("one doubled", UNDERLAY + [VX], (4, 5, 4), differences="u: doubled 1\n")
    underlay_is("an octet of no tunnel's packet", UNDERLAY[:3] + [ARP[:-1] + b"\1"], (4, 4, 3))
    underlay_is("a second later", UNDERLAY, (4, 4, 4), MOMENT + 1)
    underlay_is("two seconds later", UNDERLAY, (4, 4, 0), MOMENT + 2)
    for what, packet, same in FOR_VX:
        underlay_is(what, [packet] + UNDERLAY[1:], (4, 4, 4 if same else 3), differences=DIFFER_VX.get(what, ""))
    for what, packet, same in FOR_GN:
        differences = DIFFER_GN.get(what, "")
        underlay_is("Geneve: " + what, [VX, VX6, packet, ARP], (4, 4, 4 if same else 3), differences=differences)
    limit = frame(ip6(udp(4789, vxlan(10, INNER)), limit=1))
    underlay_is("another hop limit", [VX, limit, GN, ARP], (4, 4, 4))

    # A packet with a critical option, which no reader without settings knows, is compared octet by octet.
    critical = frame(ip4(udp(6081, geneve(10, CRITICAL, INNER, flags=0x40))))
    write(underlay, [critical])
    underlay_is("a critical option", [critical], (1, 1, 1))
    underlay_is("a critical option and another TTL", [frame(ip4(udp(6081, geneve(10, CRITICAL, INNER, flags=0x40)), ttl=3))], (1, 1, 0))
    write(underlay, UNDERLAY)

    # Of records that are cut what there is is compared, and how long they were. None is a packet of a tunnel.
    def cuts_are(what, sent, received, counts, are_cut, ends=(False, False), words=()):
        write(underlay, sent, rest=bytes(15 * ends[0]))
        write(seen, received, rest=bytes(15 * ends[1]))
        told_of = [f"u: cut: sent {are_cut[0]}, received {are_cut[1]}\n"] if any(are_cut) else []
        told_of += [f"u: {side}: cut\n" for side, is_cut in zip(("sent", "received"), ends) if is_cut]
        text = told((2, 2, 2), (1, 1, 1), counts)
        at = text.index("all: ")
        same = counts[0] == counts[1] == counts[2]
        text = text[:at] + "".join(told_of) + text[at:] + ("" if same else differs)
        wants(what, 0 if same else 1, text, *words, "--worked", worked, "-u", seen, *ports)

    cuts_are("two frames, cut alike", [cut(ARP, 4)], [cut(ARP, 8)], (1, 1, 0), (1, 1))
    cuts_are("one frame, cut alike", [cut(ARP, 4)], [cut(ARP, 4)], (1, 1, 1), (1, 1))
    cuts_are("one frame, cut alike and not", [cut(ARP, 4)] * 2, [cut(ARP, 4), ARP], (2, 2, 1), (2, 1))
    cuts_are("what was sent, cut", [cut(ARP, 4)], [ARP], (1, 1, 0), (1, 0))
    cuts_are("what was received, cut", [ARP, VX], [cut(ARP, 4), VX], (2, 2, 1), (0, 1))
    cuts_are("a packet whose trailer is cut", [VX], [cut(VX, 4)], (1, 1, 0), (0, 1))
    cuts_are("two packets whose trailer is cut", [cut(VX, 4)], [cut(VX, 4)], (1, 1, 1), (1, 1))
    cuts_are("the same with another TTL", [cut(VX, 4)], [cut(FOR_VX[0][1], 4)], (1, 1, 0), (1, 1))
    cuts_are("two frames, cut alike, strictly", [cut(ARP, 4)], [cut(ARP, 8)], (1, 1, 0), (1, 1), words=("--strict",))
    cuts_are("a record that tells fewer octets than it has", [(ARP, 4)], [ARP], (1, 1, 1), (0, 0))
    cuts_are("captures that end within a record", [VX, ARP], [VX, ARP], (2, 2, 2), (0, 0), (True, True))
    cuts_are("a capture that ends within a record", [VX, cut(ARP, 1)], [VX], (2, 1, 1), (1, 0), (False, True))
    write(underlay, UNDERLAY)

    # At a port all octets count, also of what looks like a tunnel's packet.
    write(seen, [FOR_VX[0][1]])
    wants("another TTL at a port", 1, told((2, 2, 2), (1, 1, 0), (4, 4, 4)) + differs, "--worked", worked, "-u", underlay, ports[0], seen)
    wants("no capture of a port", 0, told(None, (1, 1, 1), (4, 4, 4)), "--worked", worked, "-u", underlay, "-", ports[1])
    wants("no capture of the underlay", 0, told((2, 2, 2), (1, 1, 1), None), "--worked", worked, "-u", "-", *ports)
    nothing = "error: each capture is '-', so nothing is compared\n"
    wants("no capture at all", 2, nothing, "--worked", worked, "-u", "-", "-", "-")
    wants("no capture at all of another run", 2, nothing, "--worked", "none", "-u", "-", "-")

    # Strictly all octets count at the underlay, too.
    underlay_is("the same, strictly", UNDERLAY, (4, 4, 4), words=("--strict",))
    for what, packet, _ in FOR_VX:
        differences = DIFFER_STRICTLY.get(what, "")
        underlay_is(f"{what}, strictly", [packet] + UNDERLAY[1:], (4, 4, 3), words=("--strict",), differences=differences)
    folderless = "error: --settings and --strict go with --worked DIR\n"
    wants("strictly without a run", 2, folderless, "--strict", *ports)

    # The tunnels of settings: their ports, the options that they know, and whether they take a checksum that is left to the card.
    # Their segment is the PVID of port 1, and has VXLAN 10; they have no port 2, and no network of Geneve.
    settings = os.path.join(folder, "settings.toml")
    at_others = ("--settings", settings)

    def settings_are(lines):
        with open(settings, "w") as out:
            out.write('version = 3\n[underlay]\nmac = "02:00:00:00:00:01"\nnext_hop = "02:00:00:00:00:02"\nip4 = "192.0.2.1"\n')
            out.write(f'{lines}[[port]]\npvid = 10\n[[segment]]\nvid = 10\n[[segment.tunnel]]\nkind = "vxlan"\nvni = 10\n')

    def in_segments(ten, none):
        return [("segment 10", ten), ("no segment", none)]

    settings_are("vxlan_port = 4790\ngeneve_port = 6082\n")
    others = [frame(ip4(udp(4790, vxlan(10, INNER)))), frame(ip4(udp(6082, geneve(10, OPTION, INNER))))]
    changed = [frame(ip4(udp(4790, vxlan(10, INNER)), ttl=3)), frame(ip4(udp(6082, geneve(10, OPTION, INNER)), ttl=3))]
    write(underlay, others)
    of_others = in_segments((3, 3, 3), (2, 2, 2))
    underlay_is("other ports and another TTL", changed, (2, 2, 2), words=at_others, segments=of_others)
    underlay_is("other ports and another TTL without settings", changed, (2, 2, 0))
    of_none = in_segments((3, 3, 2), (2, 2, 1))
    underlay_is("other ports and another TTL, strictly", changed, (2, 2, 0), words=(*at_others, "--strict"), segments=of_none)
    write(underlay, [VX])
    of_none = in_segments((2, 2, 2), (2, 2, 1))
    underlay_is("another TTL at a port of no tunnel", [FOR_VX[0][1]], (1, 1, 0), words=at_others, segments=of_none)
    settings_are("")
    apart = in_segments((3, 2, 2), (1, 2, 1))
    underlay_is("a checksum left to the card, and not taken", [PARTIAL], (1, 1, 0), words=("-s", settings), segments=apart)
    settings_are("partial = true\n")
    taken = in_segments((3, 3, 3), (1, 1, 1))
    underlay_is("a checksum left to the card, and taken", [PARTIAL], (1, 1, 1), words=("-s", settings), segments=taken)
    settings_are("known = [[258, 131]]\n")
    unknown = CRITICAL[:2] + b"\x84" + CRITICAL[3:]
    for what, option, both in (("a known critical option", CRITICAL, 1), ("a critical option that isn't known", unknown, 0)):
        write(underlay, [frame(ip4(udp(6081, geneve(10, option, INNER, flags=0x40))))])
        another = frame(ip4(udp(6081, geneve(10, option, INNER, flags=0x40)), ttl=3))
        of_none = in_segments((2, 2, 2), (2, 2, 1 + both))
        underlay_is(f"{what} and another TTL", [another], (1, 1, both), words=("-s", settings), segments=of_none)
    settings_are("mtu = 1\n")
    done = subprocess.run([tep, "compare", "--worked", worked, "-s", settings, "-u", underlay, *ports], capture_output=True, text=True)
    if (done.returncode, done.stdout, done.stderr.split("\n")[0]) != (1, "", "settings: BadValue underlay.mtu"):
        print(f"compare_worked.py: settings that are refused: status {done.returncode}\n{done.stdout}{done.stderr}")
        failed = True
    missing = "read none.toml\n  none.toml: no such file\n"
    wants("no such settings", 3, missing, "--worked", worked, "-s", "none.toml", "-u", underlay, *ports)
    wants("settings without a run", 2, folderless, "-s", settings, *ports)
    write(underlay, UNDERLAY)

    # What isn't compared.
    begin = ("--worked", worked, "-u", underlay)
    wants("one capture too few", 1, f"{worked}: no capture is named beside its port2.pcap\n", *begin, ports[0])
    wants("one capture too many", 1, f"{worked}: it has no port3.pcap\n", *begin, *ports, "-")
    wants("one capture twice", 1, f"{ports[0]}: it is named for two places\n", *begin, ports[0], ports[0])
    wants("the underlay's twice", 1, f"{underlay}: it is named for two places\n", *begin, underlay, ports[1])
    wants("no such capture", 3, "read none.pcap\n  none.pcap: no such file\n", *begin, "none.pcap", ports[1])
    empty = os.path.join(folder, "empty.pcap")
    open(empty, "w").close()
    zero = line("p1", 0, 0, 0)
    wants("an empty file", 1, f"{zero}p1: received: NotPcap\n", *begin, empty, ports[1])
    unpaired = "error: compare takes SENT and RECEIVED, or --worked DIR, --underlay FILE and a capture for each port\n"
    wants("no underlay", 2, unpaired, "--worked", worked, *ports)
    wants("an underlay alone", 2, unpaired, "-u", underlay, *ports)
    wants("one capture", 2, unpaired, ports[0])
    wants("three captures", 2, unpaired, *ports, underlay)
    os.remove(f"{worked}/decisions.txt")
    wants("no decisions", 1, f"{worked}: it has no decisions.txt\n", *begin, *ports)
    open(f"{worked}/decisions.txt", "w").close()
    os.rename(underlay, empty)
    wants("no underlay in the folder", 1, f"{worked}: it has no underlay.pcap\n", "--worked", worked, "-u", empty, *ports)
    return failed


if __name__ == "__main__":
    sys.exit(main())
