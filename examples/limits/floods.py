#!/usr/bin/env python3
"""Writes settings of version 3, changes and captures with as many remotes as segments may have, and what a run on them decides.

    floods.py FOLDER    settings.toml, changes.toml, port1.pcap to port255.pcap, underlay.pcap, decisions.txt, and check.txt, what
                        a look prints
    floods.py read FOLDER OUT    looks at the captures in OUT, which a run on FOLDER wrote

255 ports; 2,048 segments of two tunnels, each in a horizon group of its own, where the limits allow 512 remotes each: 256 segments
have as many by Geneve from the beginning, and 8 by both tunnels by changes, which fill their lists, empty them and take the whole
segments away. A frame leaves by 767 places. Nothing but Python's own library is needed.
"""
import pathlib
import re
import struct
import sys

from most import ALL_PORTS, EVERYBODY, HOPS, PORTS, WIDE, frame, hop, members, packet, records_of, station, write

SEGMENTS, FLOOD, LIMIT = 2_048, 512, 32
# Segments with full lists, and those whose lists changes fill. Of each there is one with all ports: 64, and 1.
FULL, CHANGED = range(8, SEGMENTS + 1, 8), range(1, SEGMENTS + 1, 256)
# Of whoever is on no list.
STRANGER, NEWCOMER = "203.0.113.1", "203.0.113.2"


def remotes(k):
    """So many remotes of the k-th segment."""
    return [hop((k * 16 + n) % HOPS)[0] for n in range(FLOOD)]


def settings():
    """The text of the settings."""
    yield f"version = 3\n[limits]\nports = {PORTS}\nsegments = {SEGMENTS}\nflood = {FLOOD}\n"
    yield '[underlay]\nmac = "02:00:00:00:aa:01"\nnext_hop = "02:00:00:00:aa:fe"\nip4 = "192.0.2.1"\n'
    for _ in ALL_PORTS:
        yield "[[port]]\npvid = 1\n"
    for k in range(1, SEGMENTS + 1):
        ports = {is_tagged: [port for port, tagged in members(k) if tagged == is_tagged] for is_tagged in (False, True)}
        flood = ", ".join(f'"{remote}"' for remote in remotes(k)) if k in FULL else ""
        yield f"[[segment]]\nvid = {k}\nlimit = {LIMIT}\nuntagged = {ports[False]}\ntagged = {ports[True]}\n"
        yield f'[[segment.tunnel]]\nkind = "vxlan"\nvni = {k}\ngroup = 1\n'
        yield f'[[segment.tunnel]]\nkind = "geneve"\nvni = {k}\ngroup = 2\nflood = [{flood}]\n'


class Segment:
    """A segment as changes leave it: its ports, each with whether frames leave it tagged, and its remotes behind their kinds."""

    def __init__(self, k):
        self.k, self.ports = k, members(k)
        self.flood = [("geneve", remote) for remote in remotes(k)] if k in FULL else []

    def change(self, kind, keys="", result="done"):
        """A change of it, and how it is answered."""
        return None, f'kind = "{kind}"\nvid = {self.k}\n{keys}', self.k, result

    def listed(self, kind, remote, result="done"):
        """A change of its flood list."""
        return self.change(kind, f'addr = "{remote[1]}"\ntunnel = "{remote[0]}"', result)

    def add(self, remote):
        """One remote more."""
        self.flood.append(remote)
        return self.listed("add_flood", remote)

    def remove(self):
        """The first remote goes."""
        return self.listed("remove_flood", self.flood.pop(0))

    def refuse(self):
        """A remote more than there may be, by each tunnel."""
        for kind in "vxlan", "geneve":
            yield self.listed("add_flood", (kind, NEWCOMER), "refused 5 FloodFull")

    def places(self, but, kinds=("vxlan", "geneve")):
        """How a frame for everybody leaves at its other ports and to its remotes by these kinds of tunnel."""
        local = [f"p{port}={64 if is_tagged else 60}" for port, is_tagged in self.ports if port != but]
        return " ".join(local + [f"{kind}:{remote}=110" for kind, remote in self.flood if kind in kinds])

    def frames(self):
        """A frame for everybody from its first port, and one from each horizon group into the other."""
        port = self.ports[0][0]
        yield port, frame(self.k, EVERYBODY, station(self.k, 0)), self.k, self.places(port)
        for n, (kind, other) in enumerate((("vxlan", "geneve"), ("geneve", "vxlan")), 1):
            yield 0, packet(kind, self.k, STRANGER, station(self.k, n)), self.k, self.places(None, (other,))


def each(segments, at_once):
    """What comes to each of these segments, the first of each, then the second and so on."""
    for told in zip(*map(at_once, segments)):
        yield from told


def filled(remotes_of):
    """A function of a segment: as many remotes as it may have, by both tunnels in turn, and then none."""

    def fill(segment):
        for n, remote in enumerate(remotes_of(segment.k)):
            if len(segment.flood) < FLOOD:
                yield segment.add((("vxlan", "geneve")[n % 2], remote))
        yield from segment.refuse()

    return fill


def emptied(segment):
    """The remotes go down to ten."""
    while len(segment.flood) > 10:
        yield segment.remove()


def anew(segment):
    """A segment goes and comes again, with two ports."""
    yield segment.change("remove_segment")
    segment.flood, segment.ports = [], [(1, True), (PORTS, True)]
    keys = f'vni = {segment.k}\ntunnel = "vxlan"\ngroup = 1\nvni2 = {segment.k}\ngroup2 = 2\nlimit = {LIMIT}'
    yield segment.change("add_segment", keys)
    for port, _ in segment.ports:
        yield segment.change("set_member", f'port = {port}\negress = "tagged"')


def passing():
    """What comes in, in order: the port, 0 for the underlay, or None for a change; the octets or the keys; the segment, and what is
    decided."""
    full, changed = [Segment(k) for k in FULL], [Segment(k) for k in CHANGED]
    for segment in full:
        yield from segment.frames()
    yield from each(changed, filled(remotes))
    yield from each([*full[:8], *changed], Segment.refuse)
    # Whom one list has room for finds none in another.
    yield full[0].remove()
    yield from each(changed, Segment.refuse)
    yield full[0].add(("vxlan", NEWCOMER))
    yield from each(changed, Segment.frames)
    yield from each(changed, emptied)
    yield from each(changed, Segment.frames)
    yield from each(changed, filled(lambda k: [f"198.51.{100 + (n >> 8)}.{n & 255}" for n in range(FLOOD)]))
    yield from each(changed, Segment.frames)
    yield from each(changed, anew)
    yield from each(changed, filled(remotes))
    yield from each([*changed, full[0]], Segment.frames)


def read(folder, out):
    """Each capture has as many records as the decisions tell, and each packet goes to the remote that they name, by its tunnel."""
    decisions = folder.joinpath("decisions.txt").read_text()
    told = dict.fromkeys(ALL_PORTS, 0)
    for port in re.findall(r" p(\d+)=", decisions):
        told[int(port)] += 1
    for port in ALL_PORTS:
        found = sum(1 for _ in records_of(out / f"port{port}.pcap"))
        assert found == told[port], f"port {port} has {found} records in place of {told[port]}"
    places = re.findall(r" (vxlan|geneve):(\S+)=110", decisions)
    ports = {"vxlan": 4789, "geneve": 6081}
    packets = list(records_of(out / "underlay.pcap"))
    assert len(packets) == len(places), f"the underlay has {len(packets)} packets in place of {len(places)}"
    for number, (octets, (kind, remote)) in enumerate(zip(packets, places), 1):
        assert octets[30:34] == bytes(map(int, remote.split("."))), f"packet {number} goes to another than {remote}"
        assert struct.unpack_from(">H", octets, 36) == (ports[kind],), f"packet {number} goes by another tunnel than {kind}"


def main():
    if len(sys.argv) == 2 and not sys.argv[1].startswith("-"):
        write(pathlib.Path(sys.argv[1]), settings(), SEGMENTS, passing())
    elif len(sys.argv) == 4 and sys.argv[1] == "read":
        read(pathlib.Path(sys.argv[2]), pathlib.Path(sys.argv[3]))
    else:
        sys.exit(__doc__)


if __name__ == "__main__":
    assert FULL[7] in WIDE and CHANGED[0] in WIDE
    main()
