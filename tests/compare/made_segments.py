"""Segments of settings, made of seeds for compare_made.py, and which one a record is of (docs/formats/comparing.md): of a
frame by its tag (IEEE 802.1Q, 9.6) and its port's PVID (6.9), of a packet by the kind and the VNI of its tunnel."""

VXLAN, GENEVE = 4789, 6081


def number(octets):
    return int.from_bytes(octets, "big")


def drawn_settings(chance, ports):
    """Segments by VID, each with the VNI of its tunnel of a kind, where it has one; and the PVIDs of so many ports or fewer."""
    segments, taken = {}, set()
    for vid in chance.sample([10, 20, 4094, 1], chance.choice([1, 2, 3])):
        tunnels = {}
        for kind in chance.sample([VXLAN, GENEVE], chance.choice([1, 1, 2])):
            left = [vni for vni in (0, 5, 5000, 0xFFFFFF) if (kind, vni) not in taken]
            tunnels[kind] = chance.choice(left)
            taken.add((kind, tunnels[kind]))
        segments[vid] = tunnels
    pvids = [chance.choice([1, 10, 20, 99]) for _ in range(chance.randrange(1, ports + 1))]
    return segments, pvids


def settings_text(segments, pvids):
    """The settings text of these."""
    text = 'version = 3\n[underlay]\nmac = "02:00:00:00:00:01"\nnext_hop = "02:00:00:00:00:02"\nip4 = "192.0.2.1"\npartial = true\n'
    text += "".join(f"[[port]]\npvid = {pvid}\n" for pvid in pvids)
    words = {VXLAN: "vxlan", GENEVE: "geneve"}
    for vid, tunnels in segments.items():
        text += f"[[segment]]\nvid = {vid}\n"
        text += "".join(f'[[segment.tunnel]]\nkind = "{words[kind]}"\nvni = {vni}\n' for kind, vni in tunnels.items())
    return text


def frame_segment(octets, segments, pvid):
    """The VID of the segment of a frame at a port with this PVID; None where it has none."""
    vid = 0
    if len(octets) >= 18 and octets[12:14] == b"\x81\x00":
        vid = number(octets[14:16]) & 0xFFF
    vid = vid or pvid
    return vid if vid in segments else None


def packet_segment(told, segments):
    """The same of a packet of the underlay, by what is compared of it: octets, of one that is cut with its original length, or what it
    carries."""
    if isinstance(told, bytes) or len(told) == 2:
        return None
    kind, vni = told[0], told[3]
    return next((vid for vid, tunnels in segments.items() if tunnels.get(kind) == vni), None)


def segment_lines(counts):
    """The lines of segments and of none, by their counts."""
    rows = [(f"segment {vid}", counts[vid]) for vid in sorted(vid for vid in counts if vid is not None)]
    rows += [("no segment", counts[None])] if None in counts else []
    return "".join(
        f"{word}: sent {one}, received {other}, both {both}, sent alone {one - both}, received alone {other - both}\n"
        for word, (one, other, both) in rows
    )
