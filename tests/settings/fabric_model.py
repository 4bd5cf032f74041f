"""Who reaches whom by the settings of many endpoints, worked out in plain Python from docs/formats/fabric.md alone."""
import ipaddress
import pathlib
import tomllib

KINDS = ("vxlan", "geneve")
REASONS = {15: "BadOuterSource", 20: "NotTunnel", 21: "ZeroSum", 30: "UnknownVni", 31: "WrongGroup", 32: "UnknownPeer"}


class Segment:
    def __init__(self, table, version):
        self.vid = table["vid"]
        rows = [{"kind": table["tunnel"], **table}] if version == 1 else table["tunnel"]
        self.vni = {r["kind"]: r["vni"] for r in rows}
        self.group = {r["kind"]: r.get("group", 0) if version > 1 else 0 for r in rows}
        self.flood = [(r["kind"], ipaddress.ip_address(a)) for r in rows for a in r.get("flood", [])]
        self.listed, self.learns = table.get("peers") == "listed", table.get("learn", True)
        self.untagged, self.tagged = table.get("untagged", []), table.get("tagged", [])


class Leaf:
    def __init__(self, path):
        self.path, self.name = str(path), pathlib.Path(path).name.removesuffix(".toml")
        table = tomllib.loads(pathlib.Path(path).read_text())
        under = table["underlay"]
        self.own = {4: under.get("ip4"), 6: under.get("ip6")}
        self.own = {f: ipaddress.ip_address(a) for f, a in self.own.items() if a}
        self.port = {"vxlan": under.get("vxlan_port", 4789), "geneve": under.get("geneve_port", 6081)}
        self.sum6, self.zero6 = under.get("sum6", True), under.get("zero6", True)
        self.ports = table["port"]
        self.segments = [Segment(s, table["version"]) for s in table["segment"]]

    def segment_by(self, kind, vni):
        return next((s for s in self.segments if s.vni.get(kind) == vni), None)


def hop(a, s, entry, b):
    """The segment of b to which a's broadcast in s comes that is sent to this entry, or the number of the reason; None: it isn't sent to b."""
    kind, addr = entry
    if b is a or not (addr.is_multicast or addr in b.own.values()):
        return None
    source = a.own[addr.version]
    there = b.segment_by(kind, s.vni[kind])
    if source in b.own.values():
        return 15
    if a.port[kind] != b.port[kind]:
        return 20
    if addr.version == 6 and not a.sum6 and not b.zero6:
        return 21
    if there is None:
        return 30
    if addr.is_multicast and entry not in there.flood:
        return 31
    if there.listed and (kind, source) not in there.flood:
        return 32
    return there


class Fabric:
    def __init__(self, leaves):
        self.leaves = leaves

    def steps(self, a, s, came):
        """Where a frame goes on that came to s of a by no tunnel (None) or by one of a kind."""
        for entry in s.flood:
            if came is None or s.group[entry[0]] != s.group[came]:
                for b in self.leaves:
                    there = hop(a, s, entry, b)
                    if isinstance(there, Segment):
                        yield b, there, entry[0]

    def led(self, *state):
        """All that is led to from a state, by one step or more."""
        found, todo = [], list(self.steps(*state))
        while todo:
            state = todo.pop()
            if not any(state[0] is b and state[1] is h and state[2] == k for b, h, k in found):
                found.append(state)
                todo += self.steps(*state)
        return found

    def is_cyclic(self, members):
        return any(any(b is x and h is y and k == z for x, y, z in self.led(b, h, k)) for a, s in members for b, h, k in self.led(a, s, None))

    def networks(self):
        rows = []
        for leaf in self.leaves:
            for s in leaf.segments:
                mine = [row for row in rows if any(k in s.vni and s.vni[k] == h.vni.get(k) for _, h in row for k in KINDS)]
                rows = [row for row in rows if all(row is not m for m in mine)]
                rows.append([member for row in mine for member in row] + [(leaf, s)])
        order = {(id(a), id(s)): k for k, (a, s) in enumerate((a, s) for a in self.leaves for s in a.segments)}
        rows = [sorted(row, key=lambda m: order[id(m[0]), id(m[1])]) for row in rows]
        return sorted(rows, key=lambda row: min(2 * vni + KINDS.index(kind) for _, s in row for kind, vni in s.vni.items()))

    def hole(self, a, s, b, h):
        shared = [k for k in KINDS if k in s.vni and s.vni[k] == h.vni.get(k)]
        if not shared:
            return "no tunnel in common"
        if set(a.own.values()) & set(b.own.values()):
            return "one address"
        reasons = [hop(a, s, e, b) for e in s.flood if e[0] in shared]
        reasons = [r for r in reasons if r is not None]
        if not reasons:
            return "not on the list" if set(a.own) & set(b.own) else "no address family in common"
        return f"{max(reasons)} {REASONS[max(reasons)]}"

    def lost_answer(self, a, s, b, h):
        """Why the answer to what comes straight from a doesn't come back, or None."""
        straight = [e for e in s.flood if hop(a, s, e, b) is h]
        if not straight:
            return None
        kind, addr = straight[-1]
        if h.learns:
            back = hop(b, h, (kind, a.own[addr.version]), a)
            return None if back is s else "not on the list" if isinstance(back, Segment) else f"{back} {REASONS[back]}"
        return None if any(hop(b, h, e, a) is s for e in h.flood) else "not on the list"


def few(words):
    return ", ".join(words[:4]) + (f" and {len(words) - 4} more" if len(words) > 4 else "")


def told(fabric, members):
    """What is told of a network, without its title, and whether all reach all."""
    count = f"{len(members)} {'leaf' if len(members) == 1 else 'leaves'}"
    often = [sum(a is b for b, _ in members) for a, _ in members]
    names = [a.name if n == 1 else f"{a.name}/{s.vid}" for (a, s), n in zip(members, often)]
    if len({s.vid for _, s in members}) > 1:
        count += "".join(f", {name} vid {s.vid}" for name, (_, s) in zip(names, members))
    if fabric.is_cyclic(members):
        return count + "\n  a loop: who reaches whom isn't counted\n", False
    size, cells, ways, pairs = len(members), {}, 0, 0
    for i, (a, s) in enumerate(members):
        led = fabric.led(a, s, None)
        for j, (b, h) in enumerate(members):
            if a is b:
                continue
            pairs += 1
            if any(x is b and y is h for x, y, _ in led):
                ways += 1
                why = fabric.lost_answer(a, s, b, h)
                if why:
                    cells[i, j] = "heard, and the answer is lost: " + why
            else:
                cells[i, j] = fabric.hole(a, s, b, h)
    if size == 1:
        return count + "\n", True
    if not cells:
        return count + ": all reach all\n", True
    return f"{count}: {ways} of {pairs} ways\n" + "".join(f"  {line}\n" for line in lines(members, names, cells)), False


def lines(members, names, cells):
    # Members of one leaf have no cell: they are taken to reach each other.
    size = len(members)
    comes = lambda i, j: (i, j) not in cells
    parts = []
    for i in range(size):
        part = next((p for p in parts if all(comes(i, j) and comes(j, i) for j in p)), None)
        parts.append([i]) if part is None else part.append(i)
    where = {i: k for k, p in enumerate(parts) for i in p}
    if 1 < len(parts) < size and not any(c.startswith("heard") for c in cells.values()) \
            and all((where[i] == where[j]) == comes(i, j) for i in range(size) for j in range(size)):
        return [f"{len(parts)} parts, " + " | ".join(" ".join(names[i] for i in p) for p in parts) + ": " + ", ".join(dict.fromkeys(cells[c] for c in sorted(cells)))]

    def called(some):
        rest = [names[i] for i in range(size) if i not in some]
        if len(rest) <= 1 and size > 2:
            return "all"
        return "all but " + " ".join(rest) if len(rest) <= 4 < len(some) else " ".join(names[i] for i in sorted(some))

    row = lambda i, why: frozenset(j for j in range(size) if cells.get((i, j)) == why)
    heads = lambda i, why: frozenset(k for k in range(size) if row(k, why) == row(i, why))
    out, seen = [], set()
    for i, j in sorted(cells):
        why = cells[i, j]
        box = heads(i, why), row(i, why), why
        if box in seen:
            continue
        back = heads(j, why), row(j, why), why
        both = back[:2] == (box[1], box[0])
        seen |= {box, back} if both else {box}
        out.append(f"{called(box[0])} {'<->' if both else '->'} {called(box[1])}: {why}")
    return out


def check(paths):
    """What `tep fabric check` prints of these files, and its status."""
    fabric = Fabric([Leaf(p) for p in paths])
    rows, whole, networks = {}, True, fabric.networks()
    for members in networks:
        nets = sorted({(KINDS.index(k), s.vni[k]) for _, s in members for k in s.vni})
        text, good = told(fabric, members)
        rows.setdefault(text, []).append(" = ".join(f"{KINDS[k]} {v}" for k, v in nets))
        whole &= good
    rows = sorted(rows.items(), key=lambda row: row[0].count("\n") == 1)
    text = "".join(f"{few(titles)}: {text}" for text, titles in rows)
    count = lambda n, one, many: f"{n} {one if n == 1 else many}"
    return text + f"{count(len(fabric.leaves), 'leaf', 'leaves')}, {count(len(networks), 'network', 'networks')}\n", 0 if whole else 1
