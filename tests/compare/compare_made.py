#!/usr/bin/env python3
"""Folders as a run leaves them beside captures of what went out, made of seeds: frames at ports, packets of both kinds of tunnel
over both families at the underlay, other packets, and packets with faults; with loss, doubling, delay, clocks apart, fields that
another sender chooses, and changed octets. What `tep compare --worked`, with settings and without, and `tep compare` tell of them
is worked out here, by the table of docs/formats/comparing.md. Usage: compare_made.py TEP FOLDER COUNT [FIRST]; prints what
differs, and exits 1 where something does."""
import os
import random
import struct
import subprocess
import sys

from compare import SECOND, behind_line, cut_line, cut_to, doubled_line, drawn_end, drawn_snaps, end_lines, pairs, parts_of, rising
from compare import up_to_fault, write
from differing import difference_lines
from made_segments import GENEVE, VXLAN, drawn_settings, frame_segment, number, packet_segment, segment_lines, settings_text

DIFFERS = "what was received isn't what was sent"


def words_sum(octets):
    """The Internet checksum (RFC 1071)."""
    octets += bytes(len(octets) % 2)
    total = sum(struct.unpack(f">{len(octets) // 2}H", octets))
    while total >> 16:
        total = (total & 0xFFFF) + (total >> 16)
    return total ^ 0xFFFF


# What a packet carries, read as the table of docs/formats/comparing.md has it.


def ip4_datagram(packet):
    """Addresses and payload of an IPv4 packet (RFC 791, 3.1) of UDP that is no fragment; None where it isn't one."""
    if len(packet) < 20 or packet[0] >> 4 != 4:
        return None
    head, whole = (packet[0] & 15) * 4, number(packet[2:4])
    if head < 20 or len(packet) < head or not head <= whole <= len(packet) or words_sum(packet[:head]):
        return None
    if number(packet[6:8]) & 0x3FFF or packet[9] != 17:
        return None
    return packet[12:16], packet[16:20], packet[head:whole]


def ip6_datagram(packet):
    """The same of an IPv6 packet (RFC 8200, 3)."""
    if len(packet) < 40 or packet[0] >> 4 != 6 or 40 + number(packet[4:6]) > len(packet) or packet[6] != 17:
        return None
    return packet[8:24], packet[24:40], packet[40 : 40 + number(packet[4:6])]


def vxlan_data(data):
    """The VNI and the inner frame of VXLAN (RFC 7348, 5)."""
    if len(data) < 8 or not data[0] & 8:
        return None
    return number(data[4:7]), b"", data[8:]


def geneve_data(data):
    """The VNI, the options and the inner frame of Geneve (RFC 8926, 3.4), of which no critical option is known."""
    if len(data) < 8 or data[0] >> 6 or data[1] & 0x80 or data[2:4] != b"\x65\x58":
        return None
    end = 8 + (data[0] & 63) * 4
    if len(data) < end:
        return None
    at = 8
    while at < end:
        if data[at + 2] & 0x80:
            return None
        at += 4 + (data[at + 3] & 31) * 4
    return (number(data[4:7]), data[8:end], data[end:]) if at == end else None


def datagram_in(octets):
    """Addresses and the datagram (RFC 768) of a record behind at most two tags; None where it has none."""
    at = 12
    while at < 20 and octets[at : at + 2] in (b"\x81\x00", b"\x88\xa8"):
        at += 4
    families = {b"\x08\x00": ip4_datagram, b"\x86\xdd": ip6_datagram}
    if len(octets) < 14 or octets[at : at + 2] not in families:
        return None
    found = families[octets[at : at + 2]](octets[at + 2 :])
    if found is None:
        return None
    source, destination, udp = found
    if len(udp) < 8 or not 8 <= number(udp[4:6]) <= len(udp):
        return None
    return source, destination, udp[: number(udp[4:6])]


def udp_sum(source, destination, udp):
    """The checksum of a datagram with the pseudo header in front (RFC 768; RFC 8200, 8.1): 0 where it is right."""
    return words_sum(source + destination + struct.pack(">IHH", len(udp), 0, 17) + udp)


def is_left_to_the_card(source, destination, udp):
    """Whether its checksum is that of the pseudo header alone, which is what a sender leaves for its card to complete."""
    return number(udp[6:8]) == words_sum(source + destination + struct.pack(">IHH", len(udp), 0, 17)) ^ 0xFFFF


def has_wrong_sum(source, destination, udp):
    """Whether the checksum of a datagram is wrong: not zero for none, not right, not left to the card."""
    if udp[6:8] == b"\0\0" or is_left_to_the_card(source, destination, udp):
        return False
    return udp_sum(source, destination, udp) != 0


def carried(octets):
    """What of a record at the underlay is compared: what it carries in which tunnel between whom, or else all its octets; of one that
    is cut these and its original length."""
    found = datagram_in(octets) if isinstance(octets, bytes) else None
    if found is None:
        return octets
    source, destination, udp = found
    if has_wrong_sum(source, destination, udp):
        return octets
    port, data = number(udp[2:4]), udp[8:]
    told = vxlan_data(data) if port == VXLAN else geneve_data(data) if port == GENEVE else None
    return octets if told is None else (port, source, destination, *told)


# Packets, as their senders write them.


def option(chance):
    """A Geneve option, mostly none that is critical."""
    kind = chance.choice([1, 2, 0x7F]) | (0x80 if chance.random() < 0.05 else 0)
    data = chance.randbytes(4 * chance.choice([0, 1, 2]))
    told = len(data) // 4 + (1 if chance.random() < 0.03 else 0)
    return struct.pack(">HBB", chance.choice([0, 0x0103]), kind, told) + data


def drawn_packet(chance):
    """What decides what a packet is, in a list of its own: it may be changed and written by several senders."""
    kind = chance.choice([VXLAN, VXLAN, GENEVE, GENEVE, 8472])
    return {
        "is_ip4": chance.random() < 0.5,
        "port": kind,
        "hosts": [chance.randrange(1, 4), chance.randrange(1, 4)],
        "vni": chance.choice([0, 5, 5000, 0xFFFFFF]),
        "options": b"".join(option(chance) for _ in range(chance.choice([0, 0, 1, 2]))) if kind == GENEVE else b"",
        "inner": chance.randbytes(chance.choice([0, 13, 14, 60, 61, 200])),
        "flag": 0 if chance.random() < 0.03 else 1,
        "protocol": chance.choice([6, 44]) if chance.random() < 0.03 else 17,
    }


def tunnel_header(chance, packet):
    """The tunnel's header, with what its reader ignores."""
    noise = chance.random() < 0.3
    rest = chance.randrange(256) if noise else 0
    if packet["port"] != GENEVE:
        first = packet["flag"] << 3 | (rest & 0xF7)
        return struct.pack(">BBHI", first, rest, rest, packet["vni"] << 8 | rest)
    control = 0 if packet["flag"] else 0x80
    first = len(packet["options"]) // 4
    return struct.pack(">BBHI", first, control | rest & 0x7F, 0x6558, packet["vni"] << 8 | rest) + packet["options"]


def host_address(is_ip4, host):
    """The address of an endpoint."""
    return bytes([192, 0, 2, host]) if is_ip4 else bytes.fromhex("20010db80000000000000000000000") + bytes([host])


def as_sent(chance, packet):
    """A packet as one of its senders writes it, who chooses all that isn't compared."""
    data = tunnel_header(chance, packet) + packet["inner"]
    near, far = (host_address(packet["is_ip4"], host) for host in packet["hosts"])
    udp = struct.pack(">HHHH", chance.randrange(65536), packet["port"], 8 + len(data), 0) + data
    if chance.random() < 0.5:
        udp = udp[:6] + struct.pack(">H", udp_sum(near, far, udp) or 0xFFFF) + udp[8:]
    udp += chance.randbytes(chance.choice([0, 0, 0, 3]))
    limit, service = chance.choice([1, 64, 255]), chance.choice([0, 0xB8])
    if packet["is_ip4"]:
        more = chance.randbytes(4 * chance.choice([0, 0, 0, 1]))
        fragment = chance.choice([0, 0x4000]) if chance.random() < 0.97 else chance.choice([0x2000, 0x6001, 0x1FFF])
        whole = 20 + len(more) + len(udp)
        head = struct.pack(">BBHHH", 0x45 + len(more) // 4, service, whole, chance.randrange(65536), fragment)
        head += struct.pack(">BBH", limit, packet["protocol"], 0) + near + far + more
        wrong = 1 if chance.random() < 0.03 else 0
        text = b"\x08\x00" + head[:10] + struct.pack(">H", words_sum(head) ^ wrong) + head[12:] + udp
    else:
        head = struct.pack(">IHBB", 6 << 28 | service << 20 | chance.randrange(1 << 20), len(udp), packet["protocol"], limit)
        text = b"\x86\xdd" + head + near + far + udp
    tags = b""
    for _ in range(chance.choice([0, 0, 0, 1, 2, 3])):
        tags += struct.pack(">HH", chance.choice([0x8100, 0x88A8]), chance.randrange(65536))
    return chance.randbytes(12) + tags + text + chance.randbytes(chance.choice([0, 0, 0, 4]))


def changed_packet(chance, packet):
    """The same packet but for one thing that is compared."""
    other = dict(packet)
    what = chance.choice(["vni", "far", "near", "inner", "port", "is_ip4", "options"])
    if what == "vni":
        other["vni"] ^= 1 << chance.randrange(24)
    elif what == "far":
        other["hosts"] = [packet["hosts"][0], packet["hosts"][1] ^ 8]
    elif what == "near":
        other["hosts"] = [packet["hosts"][0] ^ 8, packet["hosts"][1]]
    elif what == "inner":
        other["inner"] += b"\0"
    elif what == "port":
        other["port"] = {VXLAN: 4790, GENEVE: VXLAN}.get(packet["port"], VXLAN)
    elif what == "is_ip4":
        other["is_ip4"] = not packet["is_ip4"]
    else:
        other["options"] = packet["options"][:-1] + b"\x55" if packet["options"] else bytes([0, 0, 1, 0])
    return other


def with_changed_octet(chance, octets):
    """Octets of which one has another bit, and whose IPv4 checksum is made right again half of the time."""
    if not octets:
        return octets
    at = chance.randrange(min(len(octets), 120))
    changed = octets[:at] + bytes([octets[at] ^ 1 << chance.randrange(8)]) + octets[at + 1 :]
    if changed[12:15] == b"\x08\x00\x45" and len(changed) >= 34 and chance.random() < 0.5:
        head = changed[14:24] + b"\0\0" + changed[26:34]
        changed = changed[:24] + struct.pack(">H", words_sum(head)) + changed[26:]
    return changed


def seen_packet(chance, packet, octets):
    """What is captured of a packet, whose octets these were when it was worked out."""
    drawn = chance.random()
    if drawn < 0.1:
        return as_sent(chance, changed_packet(chance, packet))
    if drawn < 0.25:
        return with_changed_octet(chance, octets)
    if drawn < 0.28:
        return octets[: chance.randrange(len(octets) + 1)]
    return octets if drawn < 0.4 else as_sent(chance, packet)


def drawn_frame(chance):
    """A frame at a port, half of them with a tag (IEEE 802.1Q, 9.6), of which some are cut."""
    octets = chance.randbytes(chance.choice([14, 60, 61, 300]))
    if chance.random() < 0.5:
        return octets
    kind = chance.choice([0x8100, 0x8100, 0x8100, 0x88A8])
    tci = chance.choice([0, 0x6000, 10, 20, 0xE014, 30, 4094, 4095])
    return octets[:12] + struct.pack(">HH", kind, tci) + octets[12:]


def seen_frame(chance, octets):
    """What is captured of a frame at a port."""
    drawn = chance.random()
    if drawn < 0.08:
        return with_changed_octet(chance, octets)
    if drawn < 0.14:
        return octets[:12] + struct.pack(">HH", 0x8100, chance.choice([10, 20, 0x6014])) + octets[chance.choice([12, 16]) :]
    if drawn < 0.17:
        return octets[:12] + octets[16:]
    return octets + bytes(4) if drawn < 0.2 else octets[:-1] if drawn < 0.23 else octets


def place_of(chance, is_underlay, within, shift):
    """What was worked out at a place, and what was captured there."""
    packets = [drawn_packet(chance) for _ in range(chance.choice([1, 2, 6]))]
    frames = [drawn_frame(chance) for _ in packets]
    step, moment = chance.choice([0, 1, 10, 200]), 5 * SECOND
    worked, seen = [], []
    for _ in range(chance.choice([0, 3, 12, 40])):
        moment += chance.randrange(step + 1)
        which = chance.randrange(len(packets))
        octets = as_sent(chance, packets[which]) if is_underlay else frames[which]
        worked.append((moment, octets))
        for _ in range(chance.choice([0, 1, 1, 1, 1, 1, 1, 2])):
            left = seen_packet(chance, packets[which], octets) if is_underlay else seen_frame(chance, octets)
            delay = chance.choice([0, 0, 1, within, within + 1, chance.randrange(2 * within + 1)])
            seen.append((max(0, moment + delay + (shift or 0)), left))
    if chance.random() < 0.8:
        seen.sort(key=lambda record: record[0])
    return [[(moment, cut_to(snap, octets)) for moment, octets in side] for snap, side in zip(drawn_snaps(chance), (worked, seen))]


def as_it_stands(content):
    """What is compared of a record at a port."""
    return content


def place_told(word, worked, seen, key, clock, ends, segment_of=None, counts=None, differs=True):
    """The lines of a place, its counts, and its fault. Each record is counted with its segment, too, where that is asked for; what of
    near ones differs isn't told of two captures that stand for themselves."""
    worked, seen, fault = up_to_fault(worked, seen, *clock, ends)
    keyed = [[(moment, key(octets)) for moment, octets in rising(records)] for records in (worked, seen)]
    found = pairs(*keyed, *clock)
    are_both = {number for number, _ in found}
    for side, records in enumerate((worked, seen) if segment_of else ()):
        for at, (_, octets) in enumerate(records):
            row = counts.setdefault(segment_of(octets), [0, 0, 0])
            row[side] += 1
            row[2] += side == 0 and at in are_both
    one, other, both = len(worked), len(seen), len(are_both)
    line = f"{word}: sent {one}, received {other}, both {both}, sent alone {one - both}, received alone {other - both}\n"
    behind = [f"{word}: {line}\n" for line in doubled_line(keyed[1], found) + cut_line(worked, seen) + behind_line(worked, found)]
    behind += difference_lines(word, *keyed, found, clock, key is carried) if differs else ""
    behind += [f"{word}: {line}\n" for line in end_lines(ends, fault)]
    return line + "".join(behind), (one, other, both), fault


class Case:
    """One made folder, captures beside it, and what the program has to tell."""

    def __init__(self, seed, folder):
        chance = random.Random(seed)
        self.within = chance.choice([0, 5, 100, 1000, SECOND])
        self.shift = chance.choice([None, None, 0, 3, -7, 50, 2000, -2000])
        self.clock = (self.within, self.shift)
        self.folder = os.path.join(folder, "made")
        os.makedirs(self.folder, exist_ok=True)
        for name in os.listdir(self.folder):
            os.remove(os.path.join(self.folder, name))
        open(os.path.join(self.folder, "decisions.txt"), "w").close()
        ports = chance.choice([1, 2, 3])
        self.words = [f"p{port}" for port in range(1, ports + 1)] + ["u"]
        self.files = [f"port{port}.pcap" for port in range(1, ports + 1)] + ["underlay.pcap"]
        self.places = [place_of(chance, word == "u", *self.clock) for word in self.words]
        self.ends = [[drawn_end(chance, 0.08), drawn_end(chance, 0.08)] for _ in self.words]
        self.is_named = [chance.random() < 0.9 for _ in self.words[1:]] + [True]
        self.segments, self.pvids = drawn_settings(chance, ports)
        self.settings = os.path.join(folder, "made.toml")
        with open(self.settings, "w") as out:
            out.write(settings_text(self.segments, self.pvids))
        for (worked, seen), ends, name in zip(self.places, self.ends, self.files):
            write(os.path.join(self.folder, name), worked, ends[0])
            write(os.path.join(self.folder, f"seen_{name}"), seen, ends[1])

    def seen(self, index):
        return os.path.join(self.folder, f"seen_{self.files[index]}") if self.is_named[index] else "-"

    def clock_words(self):
        words = ["--within", f"{self.within}ns"]
        return words if self.shift is None else words + [f"--shift={self.shift}ns"]

    def worked_words(self):
        ports = [self.seen(index) for index in range(len(self.words) - 1)]
        return ["--worked", self.folder, "--underlay", self.seen(-1), *ports]

    def segment_at(self, index):
        """What tells the segment of a record of a place."""
        if self.words[index] == "u":
            return lambda octets: packet_segment(carried(octets), self.segments)
        pvid = self.pvids[index] if index < len(self.pvids) else None
        return lambda content: frame_segment(parts_of(content)[0], self.segments, pvid)

    def worked_told(self, with_settings):
        """What is printed, what is said of it, and the status, of what was worked out beside what was captured."""
        text, sums, counts = "", [0, 0, 0], {}
        for index, word in enumerate(self.words):
            if not self.is_named[index]:
                text += f"{word}: no capture\n"
                continue
            key = carried if word == "u" else as_it_stands
            segment_of = self.segment_at(index) if with_settings else None
            line, told, fault = place_told(word, *self.places[index], key, self.clock, self.ends[index], segment_of, counts)
            text += line
            sums = [one + other for one, other in zip(sums, told)]
            if fault:
                return text, f"{word}: {fault}\n", 1
        one, other, both = sums
        text += segment_lines(counts)
        text += f"all: sent {one}, received {other}, both {both}, sent alone {one - both}, received alone {other - both}\n"
        return (text, "", 0) if one == other == both else (text, DIFFERS + "\n", 1)

    def plain_words(self):
        return [os.path.join(self.folder, "underlay.pcap"), os.path.join(self.folder, "seen_underlay.pcap")]

    def plain_told(self):
        """The same of the underlay's two captures alone, octet for octet."""
        told, (one, other, both), fault = place_told("u", *self.places[-1], as_it_stands, self.clock, self.ends[-1], differs=False)
        text = f"sent {one}\nreceived {other}\nboth {both}\nsent alone {one - both}\nreceived alone {other - both}\n"
        text += "".join(line.removeprefix("u: ") for line in told.splitlines(keepends=True)[1:])
        said = fault or (None if one == other == both else DIFFERS)
        return (text, f"{said}\n", 1) if said else (text, "", 0)


def is_told(tep, seed, words, wanted):
    """Whether the program tells what it has to."""
    done = subprocess.run([tep, "compare", *words], capture_output=True, text=True, check=False)
    told = (done.stdout, done.stderr, done.returncode)
    if told != wanted:
        print(f"compare_made.py: seed {seed}: {' '.join(words)}: {told}\nin place of {wanted}")
    return told == wanted


def main():
    tep, folder, count = sys.argv[1], sys.argv[2], int(sys.argv[3])
    first = int(sys.argv[4]) if len(sys.argv) > 4 else 0
    wrong = 0
    met = [0, 0]
    for seed in range(first, first + count):
        case = Case(seed, folder)
        wanted = case.worked_told(False)
        met[wanted[2]] += 1
        wrong += not is_told(tep, seed, case.clock_words() + case.worked_words(), wanted)
        by_segments = ["--settings", case.settings, *case.clock_words(), *case.worked_words()]
        wrong += not is_told(tep, seed, by_segments, case.worked_told(True))
        wrong += not is_told(tep, seed, case.clock_words() + case.plain_words(), case.plain_told())
        if wrong >= 3:
            break
    if count >= 100 and not all(met):
        print(f"compare_made.py: of {count} folders all end with one status")
        wrong += 1
    sys.exit(1 if wrong else 0)


if __name__ == "__main__":
    main()
