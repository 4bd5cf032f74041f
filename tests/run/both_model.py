"""What a run with --both takes in: a model made of docs/formats/captures.md ("Both directions"), docs/formats/settings.md and
docs/REASONS.md, and of no code. Captures are lists of records by tap, `p1` and so on and `u`; a record is its moment, its octets
and its original length. Changes are dictionaries, as a changes text has them."""
import copy
from collections import deque

from both_packets import TAG, is_group, outer_source, unwrapped

ROOM_FRAMES, ROOM_OCTETS = 4096, 4 * 1024 * 1024
MILLISECOND = 10**6


class Underlay:
    """What the settings say of the underlay."""

    def __init__(self, own, vxlan_port=4789, geneve_port=6081, zero6=True, partial=False):
        self.own, self.vxlan_port, self.geneve_port, self.zero6, self.partial = own, vxlan_port, geneve_port, zero6, partial


class Port:
    def __init__(self, pvid, accept="all", up=True):
        self.pvid, self.accept, self.up = pvid, accept, up


class Segment:
    """A segment: its tunnels are a list of kinds with VNI and flood list, its members a dictionary of ports to tagged or not."""

    def __init__(self, vid, tunnels, members=None, tags="drop", peers="any"):
        self.vid, self.tunnels, self.tags, self.peers = vid, tunnels, tags, peers
        self.members = {} if members is None else members

    def flood_of(self, kind):
        return [address for tunnel, _, flood in self.tunnels if tunnel == kind for address in flood]


class Settings:
    """Those in force; ports are numbered from 1, segments stand by their VIDs."""

    def __init__(self, underlay, ports, segments):
        self.underlay, self.ports, self.segments = underlay, ports, {segment.vid: segment for segment in segments}

    def make(self, change):
        """Makes a change (settings.md, "Changes"), where it isn't refused."""
        kind, segment = change["kind"], self.segments.get(change.get("vid"))
        port = self.ports.get(change.get("port"))
        if kind in ("port_up", "port_down") and port:
            port.up = kind == "port_up"
        elif kind == "set_member" and segment and port:
            segment.members.pop(change["port"], None)
            if change["egress"] != "none":
                segment.members[change["port"]] = change["egress"] == "tagged"
        elif kind == "remove_segment" and segment:
            del self.segments[segment.vid]
        elif kind == "add_segment" and not segment and not self.segment_of(change["tunnel"], change["vni"]):
            tunnels = [(change["tunnel"], change["vni"], [])]
            self.segments[change["vid"]] = Segment(change["vid"], tunnels, None, change.get("tags", "drop"))

    def segment_of(self, kind, vni):
        """The segment with this network."""
        found = [segment for segment in self.segments.values() for tunnel in segment.tunnels if tunnel[:2] == (kind, vni)]
        return found[0] if found else None

    def outs(self, segment, place):
        """The ports where a segment sends a frame out that came in at a place."""
        return {port for port in segment.members if self.ports[port].up and port != place}

    def came_at(self, port, octets, original):
        """Segment and frame of what comes in at a port; None where one of the reasons 1 to 11 or 34 holds."""
        door = self.ports[port]
        if len(octets) > 65535 or len(octets) < original or len(octets) < 14 or not door.up or is_refused(octets):
            return None
        is_tagged, vid, frame = octets[12:14] == TAG, door.pvid, octets
        if is_tagged:
            if len(octets) < 18:
                return None
            told, frame = int.from_bytes(octets[14:16], "big") & 0xFFF, octets[:12] + octets[16:]
            if told == 4095:
                return None
            is_tagged, vid = told != 0, told or vid
        if door.accept == ("untagged" if is_tagged else "tagged"):
            return None
        segment = self.segments.get(vid)
        if not segment or port not in segment.members or (segment.tags == "never" and frame[12:14] == TAG):
            return None
        return segment, frame

    def came_by(self, octets, original):
        """The same of a packet at the underlay: reasons 1 to 3, and 12 to 34."""
        if len(octets) > 65549 or len(octets) < original or len(octets) < 14:
            return None
        found = unwrapped(self.underlay, octets)
        if found is None:
            return None
        source, target, kind, vni, frame = found
        segment = self.segment_of(kind, vni)
        if not segment or (is_group(target) and target not in segment.flood_of(kind)):
            return None
        if (segment.peers == "listed" and source not in segment.flood_of(kind)) or len(frame) < 14 or is_refused(frame):
            return None
        return None if frame[12:14] == TAG and segment.tags != "pass" else (segment, frame)


def is_refused(frame):
    """Reasons 5 and 6: no station may be the source, or no bridge forwards to the destination."""
    return bool(frame[6] & 1) or (frame[:5] == b"\x01\x80\xc2\0\0" and frame[5] < 16)


def without_tag(octets):
    """A record without one tag, where it has a whole one."""
    return octets[:12] + octets[16:] if octets[12:14] == TAG and len(octets) >= 18 else octets


def time_of(time):
    """A time in the greatest unit up to a millisecond of which it is a whole number."""
    return next(f"{time // length}{unit}" for unit, length in (("ms", MILLISECOND), ("us", 1000), ("ns", 1)) if time % length == 0)


class Arrival:
    """A frame that came to a segment by a record, and the ports where it may be met yet."""

    def __init__(self, moment, record, frame, ports):
        self.moment, self.record, self.frame, self.ports = moment, record, frame, ports


class Window:
    """The latest frames that came to a segment and may leave by a port."""

    def __init__(self, within):
        self.within, self.arrivals, self.octets, self.by_frame = within, deque(), 0, {}
        # The ages of those that went for want of room although an echo might still have come.
        self.forgotten = []

    def go(self):
        """The earliest one goes."""
        gone = self.arrivals.popleft()
        self.octets -= len(gone.frame)
        self.by_frame[gone.frame].popleft()
        return gone

    def let_pass(self, moment):
        """What is too old goes."""
        while self.arrivals and self.arrivals[0].moment + self.within < moment:
            self.go()

    def meet(self, port, moment, frame):
        """The frame that a record is the echo of, which it is the first of at this port."""
        self.let_pass(moment)
        for arrival in self.by_frame.get(frame, ()):
            if port in arrival.ports:
                arrival.ports.discard(port)
                return arrival
        return None

    def enter(self, moment, record, frame, ports):
        """A frame comes by a record, and where there is no room for it the earliest ones go."""
        self.let_pass(moment)
        if not ports:
            return
        arrival = Arrival(moment, record, frame, ports)
        self.arrivals.append(arrival)
        self.by_frame.setdefault(frame, deque()).append(arrival)
        self.octets += len(frame)
        while len(self.arrivals) > ROOM_FRAMES or self.octets > ROOM_OCTETS:
            gone = self.go()
            if gone.ports:
                self.forgotten.append(moment - gone.moment)


def rising(records):
    """Records with the moments that a run takes them at: none before that of one before it."""
    latest, found = 0, []
    for moment, octets, original in records:
        latest = max(latest, moment)
        found.append((latest, octets, original))
    return found


def events(captures, changes):
    """Events in their order: by moment; at one moment changes, then ports, rising, and then the underlay."""
    order = {tap: (2, 0) if tap == "u" else (1, int(tap[1:])) for tap in captures}
    found = [(change["at"], (0, 0), at, None, change) for at, change in enumerate(changes)]
    for tap, records in captures.items():
        found += [(record[0], order[tap], at, tap, record) for at, record in enumerate(rising(records))]
    return sorted(found, key=lambda event: event[:3])


class Model:
    """What is input of captures: by tap the places of records in it, and how many frames were forgotten."""

    def __init__(self, settings, captures, changes, within):
        self.settings, self.window = copy.deepcopy(settings), Window(within)
        self.inputs = {tap: [] for tap in captures}
        self.counts = {tap: len(records) for tap, records in captures.items()}
        # Of each record that is left out its tap and number, the moment, and the frame that it is an echo of, if it is one.
        self.outs = []
        for moment, _, at, tap, happening in events(captures, changes):
            if tap is None:
                self.settings.make(happening)
            elif self.takes((tap, at + 1), moment, *happening[1:]):
                self.inputs[tap].append(at)

    def takes(self, record, moment, octets, original):
        """Whether a record is input. What it brings to a segment enters the window then."""
        tap = record[0]
        if tap == "u":
            if outer_source(octets) in self.settings.underlay.own:
                self.outs.append((record, moment, None))
                return False
            place, came = None, self.settings.came_by(octets, original)
        else:
            place = int(tap[1:])
            if arrival := self.window.meet(place, moment, without_tag(octets)):
                self.outs.append((record, moment, arrival))
                return False
            came = self.settings.came_at(place, octets, original)
        if came:
            self.window.enter(moment, record, came[1], self.settings.outs(came[0], place))
        return True

    def left_out(self, tap):
        return self.counts[tap] - len(self.inputs[tap])

    def list_lines(self):
        """The list of what is left out."""
        of = lambda moment, arrival: f"of {arrival.record[0]} {arrival.record[1]}, {time_of(moment - arrival.moment)}"
        return [f"{tap} {number} {of(moment, arrival) if arrival else 'sent'}" for (tap, number), moment, arrival in self.outs]

    def forgotten_line(self, within):
        """The line of what was forgotten for want of room, for a time as it was named."""
        if not self.window.forgotten:
            return []
        many, least = len(self.window.forgotten), min(self.window.forgotten)
        line = f"both: {many} frame{'s were' if many > 1 else ' was'} forgotten before {within} had passed"
        for unit, length in ("ms", MILLISECOND), ("us", 1000), ("ns", 1):
            if least > length:
                return [f"{line}: --within {(least - 1) // length}{unit} would fit"]
        return [line]

    def run_lines(self, within):
        """What standard error says of a run."""
        many = {tap: self.left_out(tap) for tap in self.counts}
        lines = [f"{tap}: left out {count} record{'s' * (count > 1)} that the switch sent" for tap, count in many.items() if count]
        return [f"  {line}" for line in lines + self.forgotten_line(within)]

    def check_lines(self):
        """What a check says of the captures, of a model of 10 ms."""
        lines = []
        for tap, count in self.counts.items():
            if 0 < self.left_out(tap) and self.left_out(tap) * 10 >= count:
                what = "packets left us" if tap == "u" else "records came in elsewhere within 10 ms before"
                lines.append(f"{tap}: {self.left_out(tap)} of {count} {what}: does this capture have what left, too? "
                             "run --both, or tcpdump -Q in")
        return lines + self.forgotten_line("10ms")
