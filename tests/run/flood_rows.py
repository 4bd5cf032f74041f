"""Worked rows of long flood lists, too long to write down: their lines are made here, in the form that rows.py tells."""

# The frame that is flooded; of each kind of tunnel the UDP port and the header in front of the VNI (RFC 7348, 5; RFC 8926, 3.4).
FRAME = "ALL M1 0806"
TUNNELS = {"vxlan": ("12B5", "08000000"), "geneve": ("17C1", "00006558")}


def remotes(vid, first, last):
    """The remotes of a segment from this number up to before the other."""
    return [f"198.18.{vid + (n >> 8)}.{n & 255}" for n in range(first, last)]


def listed(addresses):
    """A flood list in settings."""
    return "flood = [" + ", ".join(f'"{address}"' for address in addresses) + "]"


def packet(address, kind, vni, source_port="CA07", frame=FRAME):
    """A packet with a frame in it, as a record that leaves; the checksum of its IPv4 header is RFC 791's."""
    one, two, three, four = map(int, address.split("."))
    total = sum((0x4500, 0x0060, 0x4000, 0x4011, 0xC000, 0x0201, one << 8 | two, three << 8 | four))
    total = (total & 0xFFFF) + (total >> 16)
    total = (total & 0xFFFF) + (total >> 16)
    port, header = TUNNELS[kind]
    head = f"45000060 00004000 4011{0xFFFF - total:04X} C0000201 {one:02X}{two:02X}{three:02X}{four:02X}"
    return f"110 ETHER {head} {source_port}{port} 004C0000 {header} {vni:06X}00 {frame}"


def to_all(most):
    """A frame to as many remotes as there may be, over one tunnel, and over two; and out of the one of these to the other's."""
    of_10, of_20 = remotes(10, 0, most), remotes(20, 0, most)
    first, second = of_20[: most // 3], of_20[most // 3 :]
    yield f"flood{most}"
    yield f"~ vni = 5000;flood = [] => vni = 5000;{listed(of_10)}"
    yield f"~ group = 1;flood = [] => group = 1;{listed(first)}"
    yield f"~ group = 2;flood = [] => group = 2;{listed(second)}"
    yield f"1s p1 60 {FRAME}"
    yield "> 1 1000000000 p1 1 10 p2=60 p3=64" + "".join(f" {address}=110" for address in of_10)
    yield "2s p3 64 ALL M1 81000014 0806"
    beyond = "".join(f" vxlan:{address}=110" for address in second)
    yield "> 2 2000000000 p3 1 20 p2=64" + "".join(f" geneve:{address}=110" for address in first) + beyond
    yield "3s u 110 ETHER 45000060 00004000 4011B689 C0000202 C0000201 CA0717C1 004C0000 00006558 00177000 ALL M5 0806"
    yield "> 3 3000000000 u 1 20 p2=64 p3=64" + beyond
    for line in "1s p2 60 ALL M1 0806", "1s p3 64 ALL M1 8100000A 0806", "2s p2 64 ALL M1 81000014 0806":
        yield f"< {line}"
    for port in "p2", "p3":
        yield f"< 3s {port} 64 ALL M5 81000014 0806"
    for address in of_10:
        yield f"< 1s u {packet(address, 'vxlan', 5000)}"
    for address in first:
        yield f"< 2s u {packet(address, 'geneve', 6000)}"
    for address in second:
        yield f"< 2s u {packet(address, 'vxlan', 7000)}"
    for address in second:
        yield f"< 3s u {packet(address, 'vxlan', 7000, 'CA0B', 'ALL M5 0806')}"


def told(most):
    """The story of a frame to as many remotes as there may be."""
    of_10 = remotes(10, 0, most)
    yield f"flood{most}"
    yield f"~ vni = 5000;flood = [] => vni = 5000;{listed(of_10)}"
    yield f"1s p1 60 {FRAME}"
    yield "|  length 60, at most 65535"
    yield "|  captured 60 of 60"
    yield "|  ether 02:00:00:00:00:01 > ff:ff:ff:ff:ff:ff"
    yield "|  port p1 up"
    yield "|  source individual"
    yield "|  destination group"
    yield "|  no tag"
    yield "|  port p1 takes frames without a vid"
    yield "|  segment 10 by the vid of the port"
    yield "|  port p1 member, untagged"
    yield "|  source new at p1"
    yield "|  destination a group, flooded"
    yield "|  p1 is where it came from"
    yield "|  out p2 untagged"
    yield "|  out p3 tagged"
    for address in of_10:
        yield f"|  out vxlan:{address} vni 5000 next hop 02:00:00:00:aa:fe, packet 96 of at most 1550"
    yield "|1 1000000000 p1 1 10 p2=60 p3=64" + "".join(f" {address}=110" for address in of_10)


class Changes:
    """Changes of an endpoint of lists of so many remotes, one behind another from the moment 1 on, and the lists that they leave.
    A segment's list has pairs of kind and address."""

    def __init__(self, most):
        self.most, self.made, self.lists = most, 0, {10: [], 20: []}

    def change(self, vid, keys, answer="done"):
        """A change that is answered so."""
        self.made += 1
        yield f"c at = {self.made}, {keys}"
        yield f"> {self.made} {self.made} c {self.made} {vid} {answer}"

    def add(self, vid, kind, address):
        """One remote more."""
        self.lists[vid].append((kind, address))
        return self.change(vid, f'kind = "add_flood", vid = {vid}, addr = "{address}", tunnel = "{kind}"')

    def remove(self, vid, kind, address):
        """One remote less."""
        self.lists[vid].remove((kind, address))
        return self.change(vid, f'kind = "remove_flood", vid = {vid}, addr = "{address}", tunnel = "{kind}"')

    def refuse(self, vid, kind, address):
        """One remote more than there may be, and why it is refused."""
        answer = "refused 5 FloodFull"
        yield from self.change(vid, f'kind = "add_flood", vid = {vid}, addr = "{address}", tunnel = "{kind}"', answer)
        yield f"|  add_flood vid {vid} addr {address} tunnel {kind}"
        yield f"|  segment {vid}"
        yield f"|  tunnel {kind}"
        yield "|  addr usable"
        yield "|  own address of its family"
        yield "|  addr another endpoint's"
        yield "|  addr not on the flood list"
        yield f"|  flood list has {self.most}, at most {self.most}"
        yield f"|{self.made} {self.made} c {self.made} {vid} {answer}"

    def fill(self, vid, kinds, addresses):
        """As many remotes as there may be, by these kinds of tunnel in turn, of those that aren't there; and one more by each
        kind, which is refused."""
        for n, address in enumerate(addresses):
            if len(self.lists[vid]) < self.most:
                yield from self.add(vid, kinds[n % len(kinds)], address)
        for kind in kinds:
            yield from self.refuse(vid, kind, "192.0.2.99")

    def empty(self, vid, left):
        """The first remotes go, down to so many."""
        for kind, address in self.lists[vid][: len(self.lists[vid]) - left]:
            yield from self.remove(vid, kind, address)


def by_changes(most):
    """Lists that changes fill, each to its limit and no further, whatever the other has: emptied over what stands in the list
    itself, filled again, and gone and come again with their segments."""
    made = Changes(most)
    both = "vxlan", "geneve"
    yield f"flood{most}"
    yield from made.fill(10, both[:1], remotes(10, 0, most))
    yield from made.fill(20, both, remotes(20, 0, most))
    yield from made.empty(10, min(10, most - 1))
    yield from made.refuse(20, "geneve", "192.0.2.98")
    yield from made.fill(10, both[:1], remotes(30, 0, most))
    yield from made.empty(20, 0)
    yield from made.refuse(10, "vxlan", "192.0.2.97")
    for vid, keys in (10, "vni = 5000"), (20, "vni = 7000, vni2 = 6000"):
        made.lists[vid] = []
        yield from made.change(vid, f'kind = "remove_segment", vid = {vid}')
        yield from made.change(vid, f'kind = "add_segment", vid = {vid}, {keys}, tunnel = "vxlan"')
        for port in 1, 2:
            yield from made.change(vid, f'kind = "set_member", vid = {vid}, port = {port}, egress = "tagged"')
    yield from made.fill(20, both[::-1], remotes(50, 0, most))
    yield from made.fill(10, both[:1], remotes(40, 0, most))
    for second, vid in enumerate((10, 20), 1):
        yield f"{second}s p1 64 ALL M1 8100{vid:04X} 0806"
        places = "".join(f" {kind + ':' if vid == 20 else ''}{address}=110" for kind, address in made.lists[vid])
        yield f"> {made.made + second} {second}000000000 p1 {second} {vid} p2=64{places}"


def rows():
    """The name and the lines of each row."""
    for most in 17, 40, 512:
        yield f"to {most} remotes", to_all(most)
    yield "the story of a frame to 40 remotes", told(40)
    for most in 1, 15, 16, 17, 40, 512:
        yield f"lists of up to {most} remotes, by changes", by_changes(most)
