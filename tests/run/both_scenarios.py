"""Made settings, changes and captures for both_made.py: a scenario is a burst of frames and packets that repeat, come back and
leave, as a switch sends them or as nobody does, with changes of ports and memberships between them."""
import json
import random
import struct

from both_model import MILLISECOND, Port, Segment, Settings, Underlay
from both_packets import GENEVE, SERVICE_TAG, TAG, VXLAN, datagram, ip_packet, tunnel_header

SCENARIOS = 20
TEN = 10 * MILLISECOND
# What --within names, and how long that is; without it 10 ms.
LONG = [(None, TEN)] * 3 + [("10ms", TEN), ("2ms", 2 * MILLISECOND), ("500us", 500000)]
SHORT = [("1us", 1000), ("40ns", 40), ("0ns", 0)]
STATIONS = [bytes([2, 0, 0, 0, 0, last]) for last in range(1, 5)]
TARGETS = [b"\xff" * 6, b"\xff" * 6, bytes.fromhex("01005e000001"), *STATIONS[:2], bytes.fromhex("0180c2000000")]
OWN_MAC, HOP_MAC = bytes.fromhex("02000000aa01"), bytes.fromhex("02000000aafe")
GROUPS = {4: bytes([239, 0, 0, 7]), 16: bytes.fromhex("ff0e") + bytes(13) + b"\7"}


def host(family, last):
    return bytes([192, 0, 2, last]) if family == 4 else bytes.fromhex("20010db8") + bytes(11) + bytes([last])


def address_text(address):
    if len(address) == 4:
        return ".".join(str(octet) for octet in address)
    return ":".join(f"{high << 8 | low:x}" for high, low in zip(address[::2], address[1::2]))


class Ground:
    """An endpoint's settings."""

    def __init__(self, chance, is_crowded):
        self.families = chance.choice([[4], [4], [16], [4, 16]])
        own = [host(family, 1) for family in self.families]
        sizes = chance.choice([(4789, 6081), (4789, 6081), (8472, 6081), (4790, 4789)])
        self.underlay = Underlay(own, *sizes, chance.random() < 0.7, chance.random() < 0.3)
        count = chance.choice([3, 4] if is_crowded else [2, 3, 4])
        vids = (10, 20, 30)[: chance.choice([2, 3] if is_crowded else [1, 2, 2, 3])]
        self.ports = {
            port: Port(chance.choice(vids), chance.choice(["all"] * 6 + ["tagged", "untagged"]), chance.random() < 0.95)
            for port in range(1, count + 1)
        }
        self.segments = [self.segment(chance, vid) for vid in vids]
        if is_crowded:
            self.ports |= {1: Port(10), 3: Port(10)}
            self.segments[0].members |= {1: False, 2: chance.random() < 0.5, 3: False}
            self.segments[1].members = {}
        self.settings = Settings(self.underlay, self.ports, self.segments)

    def remotes(self, chance):
        found = [host(family, last) for family in self.families for last in (2, 3)] + [GROUPS[family] for family in self.families]
        return sorted(chance.sample(found, chance.choice([0, 1, 1, 2])))

    def segment(self, chance, vid):
        """One with one or two tunnels, in which each port is a member mostly."""
        kinds = chance.choice([[VXLAN], [VXLAN], [GENEVE], [VXLAN, GENEVE]])
        tunnels = [(kind, 5000 + vid, self.remotes(chance)) for kind in kinds]
        tagged = chance.choice([[False], [False, True], [True]])
        members = {port: chance.choice(tagged) for port in self.ports if chance.random() < 0.75}
        tags = chance.choice(["drop", "drop", "pass", "never"])
        return Segment(vid, tunnels, members, tags, chance.choice(["any", "any", "listed"]))

    def text(self):
        """The settings, as a text of version 3."""
        lines = ["version = 3", "[underlay]", 'mac = "02:00:00:00:aa:01"', 'next_hop = "02:00:00:00:aa:fe"']
        lines += [f'{"ip4" if len(own) == 4 else "ip6"} = "{address_text(own)}"' for own in self.underlay.own]
        lines += [f"vxlan_port = {self.underlay.vxlan_port}", f"geneve_port = {self.underlay.geneve_port}"]
        lines += [f"zero6 = {str(self.underlay.zero6).lower()}", f"partial = {str(self.underlay.partial).lower()}"]
        for port in self.ports.values():
            lines += ["[[port]]", f"pvid = {port.pvid}", f'accept = "{port.accept}"', f"up = {str(port.up).lower()}"]
        for segment in self.segments:
            sides = [[port for port, is_tagged in segment.members.items() if is_tagged == side] for side in (False, True)]
            lines += ["[[segment]]", f"vid = {segment.vid}", f'tags = "{segment.tags}"', f'peers = "{segment.peers}"']
            lines += [f"untagged = {sides[0]}", f"tagged = {sides[1]}"]
            for kind, vni, flood in segment.tunnels:
                listed = ", ".join(f'"{address_text(address)}"' for address in flood)
                lines += ["[[segment.tunnel]]", f'kind = "{kind}"', f"vni = {vni}", f"flood = [{listed}]"]
        return "\n".join(lines) + "\n"


class Made:
    """Captures and changes, made of a seed."""

    def __init__(self, seed):
        self.chance = chance = random.Random(seed)
        is_crowded = seed % 20 == 0
        self.ground = Ground(chance, is_crowded)
        self.word, self.within = chance.choice(LONG if is_crowded else LONG + SHORT)
        # Moments are multiples of this, so that several things have one.
        self.grain = chance.choice([1, 1, 1, 20, 1000, 10000])
        self.captures = {f"p{port}": [] for port in self.ground.ports} | {"u": []}
        self.changes = []
        self.frames = [self.frame() for _ in range(chance.choice([2, 3, 5]))]
        start, step = 10**9, 4 * max(self.within, 20 * MILLISECOND)
        if is_crowded:
            self.crowd(start, seed % 40 == 0)
        for number in range(1, SCENARIOS + 1):
            self.scenario(start + number * step)
        for records in self.captures.values():
            records.sort(key=lambda record: record[0])
            # Records that are earlier than one before them.
            for at in range(1, len(records)):
                if chance.random() < 0.01:
                    records[at - 1 : at + 1] = records[at - 1 : at + 1][::-1]
        self.changes.sort(key=lambda change: change["at"])

    def frame(self):
        """A frame as a segment's bridge has it, some of which begin with a tag yet."""
        chance = self.chance
        source = chance.choice(STATIONS) if chance.random() < 0.95 else b"\xff" * 6
        head = chance.choice(TARGETS) + source
        if chance.random() < 0.2:
            head += chance.choice([TAG, TAG, SERVICE_TAG]) + struct.pack(">H", chance.choice([10, 20, 99]))
        return head + b"\x08\x06" + chance.randbytes(chance.choice([0, 2, 46, 46, 200]))

    def put(self, tap, moment, octets, original=None):
        moment = max(0, moment // self.grain * self.grain)
        self.captures[tap].append((moment, octets, len(octets) if original is None else original))

    def delay(self):
        """How much later something is met: about the time within which it is an echo."""
        chance, within = self.chance, self.within
        some = [0, 1, within // 2, within - 1, within, within + 1]
        return chance.choice(some + [chance.randrange(within + 1), chance.randrange(2 * within + 2)])

    def tagged(self, frame, vid):
        return frame[:12] + TAG + struct.pack(">H", self.chance.choice([0, 0, 3, 7]) << 13 | vid) + frame[12:]

    def at_port(self, frame, port, segment):
        """A frame at a port: as its segment has it there mostly."""
        drawn, is_tagged = self.chance.random(), segment.members.get(port, False)
        if drawn < 0.06:
            return self.tagged(frame, self.chance.choice([0, 10, 20, 30, 40, 4095]))
        return self.tagged(frame, segment.vid) if is_tagged ^ (drawn > 0.94) else frame

    def in_tunnel(self, frame, segment, source, target):
        """A packet, of which something may be wrong or of another segment."""
        chance = self.chance
        kind, vni, _ = chance.choice(segment.tunnels)
        if chance.random() < 0.05:
            vni = chance.choice([7, *[tunnel[1] for other in self.ground.segments for tunnel in other.tunnels]])
        options = b"\0\1\x01\0" if kind == GENEVE and chance.random() < 0.2 else b""
        port = self.ground.underlay.vxlan_port if kind == VXLAN else self.ground.underlay.geneve_port
        data = tunnel_header(kind, vni, options) + frame
        text = ip_packet(source, target, datagram(source, target, port, data, chance.random() < 0.5))
        tags = b"".join(chance.choice([TAG, SERVICE_TAG]) + b"\0\x07" for _ in range(chance.choice([0] * 8 + [1, 2, 3])))
        return HOP_MAC + OWN_MAC + tags + text

    def at_underlay(self, moment, packet):
        """Puts a packet, damaged or cut now and then."""
        drawn, chance = self.chance.random(), self.chance
        at = chance.randrange(12, min(len(packet), 80))
        if drawn < 0.06:
            packet = packet[:at] + bytes([packet[at] ^ 1 << chance.randrange(8)]) + packet[at + 1 :]
        elif drawn < 0.1:
            packet = packet[:24] + struct.pack(">H", chance.randrange(65536)) + packet[26:]
        elif drawn < 0.12:
            packet = packet[:16] + struct.pack(">H", chance.randrange(65536)) + packet[18:]
        if 0.12 < drawn < 0.18:
            self.put("u", moment, packet[:at], len(packet))
        else:
            self.put("u", moment, packet[:at] if 0.18 < drawn < 0.2 else packet, None if drawn < 0.97 else len(packet) + 4)

    def leaves(self, moment, frame, segment, came_at):
        """What a switch sends of a frame, or something like it: copies at ports, and packets of its own."""
        chance, ground = self.chance, self.ground
        for port in ground.ports:
            many = chance.choice([0, 1, 1, 1, 1, 1, 2]) if port in segment.members else chance.choice([0, 0, 0, 0, 1])
            for _ in range(many if port != came_at else chance.choice([0, 0, 0, 1])):
                self.put(f"p{port}", moment + self.delay(), self.at_port(frame, port, segment))
        for _, _, flood in segment.tunnels if came_at else []:
            for target in flood:
                source = host(len(target), 1 if chance.random() < 0.95 else 2)
                self.at_underlay(moment + self.delay(), self.in_tunnel(frame, segment, source, target))

    def comes(self, moment):
        """A frame comes in, by a port or in a tunnel; copies leave; and a remote may send one back."""
        chance, ground = self.chance, self.ground
        frame, segment = chance.choice(self.frames), chance.choice(ground.segments)
        if chance.random() < 0.55:
            port = chance.choice(list(segment.members) or list(ground.ports))
            octets = self.at_port(frame, port, segment)
            is_cut = chance.random() < 0.04
            kept = octets[: chance.randrange(len(octets))] if is_cut else octets
            self.put(f"p{port}", moment, kept, len(octets) + chance.choice([0] * 6 + [-1, 4]))
            self.leaves(moment, frame, segment, port)
            if chance.random() < 0.25:
                self.returns(moment + self.delay(), frame, segment)
        else:
            self.returns(moment, frame, segment)

    def returns(self, moment, frame, segment):
        """A packet with the frame comes from a remote, or from nobody who may send."""
        chance, family = self.chance, self.chance.choice(self.ground.families)
        last = chance.choice([2, 2, 2, 3, 9])
        source = host(family, last) if chance.random() < 0.95 else chance.choice([bytes(family), GROUPS[family]])
        target = chance.choice([host(family, 1)] * 8 + [GROUPS[family], host(family, 8)])
        self.at_underlay(moment, self.in_tunnel(frame, segment, source, target))
        if chance.random() < 0.8:
            self.leaves(moment, frame, segment, 0)

    def scenario(self, start):
        """A burst of a few frames, with changes between them."""
        chance = self.chance
        for _ in range(chance.choice([1, 2, 4, 8])):
            self.comes(start + chance.choice([0, self.within, chance.randrange(2 * self.within + 2), chance.randrange(MILLISECOND)]))
        for _ in range(chance.choice([0, 0, 1, 2])):
            self.change(start + chance.randrange(2 * self.within + 2), start + 19 * MILLISECOND + 3 * self.within)

    def change(self, moment, later):
        """A change, which is mostly taken back later."""
        chance = self.chance
        port, segment, drawn = chance.choice(list(self.ground.ports)), chance.choice(self.ground.segments), chance.random()
        member = {"kind": "set_member", "vid": segment.vid, "port": port}
        if drawn < 0.5:
            pair = [{"kind": kind, "port": port} for kind in ("port_down", "port_up")]
        elif drawn < 0.95:
            before = {True: "tagged", False: "untagged", None: "none"}[segment.members.get(port)]
            pair = [member | {"egress": egress} for egress in (chance.choice(["none", "none", "tagged", "untagged"]), before)]
        else:
            kind, vni, _ = segment.tunnels[0]
            added = {"kind": "add_segment", "vid": segment.vid, "vni": vni, "tunnel": kind}
            pair = [{"kind": "remove_segment", "vid": segment.vid}, added]
            pair += [member | {"port": other, "egress": "tagged" if side else "untagged"} for other, side in segment.members.items()]
        for which, change in enumerate(pair):
            if which == 0 or chance.random() < 0.9:
                self.changes.append({"at": (later if which else moment) // self.grain * self.grain} | change)

    def crowd(self, start, is_large):
        """More frames within the time than there is room for, of which some are met again at each port as they come, so that
        nothing is forgotten with them, and some at port 2 behind all; and frames that take no room: those of a segment without
        ports, and one that is too long."""
        chance, (segment, other) = self.chance, self.ground.segments[:2]
        count, length = (chance.choice([65, 80]), 65000) if is_large else (chance.choice([4096, 4097, 4150]), 46)
        step = max(self.within // (2 * count), 1)
        frames = [b"\xff" * 6 + STATIONS[0] + b"\x88\xb5" + struct.pack(">I", at) + bytes(length) for at in range(count)]
        for at, frame in enumerate(frames):
            self.put("p1", start + at * step, frame)
        for at in chance.sample(range(60), 20):
            for port in sorted({*segment.members} - {1}):
                self.put(f"p{port}", start + at * step, self.at_port(frames[at], port, segment))
        for at in range(1, 41):
            source, target = (host(self.ground.families[0], last) for last in (2, 1))
            self.at_underlay(start + at * step, self.in_tunnel(frames[0][:-at], other, source, target))
        for length, tap, moment in (65535, "p1", start), (65536, "p1", start), (65535, "p2", start + 1), (65536, "p2", start + 1):
            self.put(tap, moment, (b"\xff" * 6 + STATIONS[1] + b"\x88\xb5" + bytes(65536))[:length])
        for at in [*range(5), count - 1, *(chance.randrange(count) for _ in range(20))]:
            self.put("p2", start + count * step + at, self.at_port(frames[at], 2, segment))

    def changes_text(self):
        text = ""
        for change in self.changes:
            # JSON writes numbers and words as TOML does.
            text += "[[change]]\n" + "".join(f"{key} = {json.dumps(value)}\n" for key, value in change.items())
        return text
