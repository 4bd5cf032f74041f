"""What of records that are of one capture alone and near another differs, and the lines that count it, worked out by the table and
the rules of docs/formats/comparing.md alone. A record is its octets, or of one that is cut the pair of these and its original
length; a packet of a tunnel is what it carries: its port, the two addresses, the VNI, the options and the inner frame."""
from compare import parts_of

KINDS = {4789: "vxlan", 6081: "geneve"}
LOOKED_AT, ROWS = 256, 1024


def number(octets):
    return int.from_bytes(octets, "big")


def bare(octets):
    """A frame's addresses, the VID in its tag, if it has one, and what stands behind (IEEE 802.1Q, 9.6); None of no frame, and of a tag
    that is cut."""
    if len(octets) < 14:
        return None
    if octets[12:14] != b"\x81\x00":
        return octets[:12], None, octets[12:]
    return (octets[:12], number(octets[14:16]) & 0xFFF, octets[16:]) if len(octets) >= 18 else None


def frame_segment(content):
    """The segment that a frame tells."""
    found = bare(parts_of(content)[0])
    return "untagged" if found is None or found[1] is None else f"vlan {found[1]}"


def frame_difference(sent, received):
    """The one thing in which two frames differ; None where it isn't one."""
    (one, whole), (other, other_whole) = parts_of(sent), parts_of(received)
    if max(whole - len(one), 0) != max(other_whole - len(other), 0):
        return None
    before, behind = bare(one), bare(other)
    if before and behind and (before[0], before[2]) == (behind[0], behind[2]) and before[1] != behind[1]:
        words = ["none" if vid is None else vid for vid in (behind[1], before[1])]
        return f"tag {words[0]} for {words[1]}"
    if whole > len(one) or len(one) == len(other) or not (one.startswith(other) or other.startswith(one)):
        return None
    return f"length {len(other)} for {len(one)}"


def is_carried(content):
    return isinstance(content, tuple) and len(content) == 6


def packet_segment(content):
    """The segment that a packet of the underlay tells."""
    return f"{KINDS[content[0]]} {content[3]}" if is_carried(content) else "no tunnel"


def address(octets):
    """An address of either family."""
    if len(octets) == 4:
        return ".".join(map(str, octets))
    return ":".join(octets[at : at + 2].hex() for at in range(0, 16, 2))


def packet_difference(sent, received):
    """The one thing in which two packets of tunnels differ."""
    if not (is_carried(sent) and is_carried(received)):
        return None
    ways = [("kind", 0, KINDS.get), ("remote", 2, address), ("vni", 3, str)]
    if any(sent[at] != received[at] for at in (1, 4, 5)):
        return None
    differ = [way for way in ways if sent[way[1]] != received[way[1]]]
    if len(differ) != 1:
        return None
    what, at, word = differ[0]
    return f"{what} {word(received[at])} for {word(sent[at])}"


def near_pairs(sent, received, least, most, difference):
    """For each record that was sent alone the first that is near: its number, that of the other, and what differs. A record is its
    number, its moment and what is compared of it."""
    left = list(received)
    for number_sent, moment, content in sent:
        left = [one for one in left if one[1] >= moment + least]
        for at, (number_received, other, seen) in enumerate(left[:LOOKED_AT]):
            found = difference(content, seen) if other <= moment + most else None
            if found:
                yield number_sent, number_received, found
                del left[at]
                break


def difference_lines(word, sent, received, both, clock, is_underlay):
    """The lines of a place, of records with their moments, each the greatest up to it, of which these pairs are both."""
    within, shift = clock
    least, most = (0, within) if shift is None else (shift - within, shift + within)
    segment, difference = (packet_segment, packet_difference) if is_underlay else (frame_segment, frame_difference)
    lonely = []
    for side, records in enumerate((sent, received)):
        matched = {pair[side] for pair in both}
        lonely.append([(k + 1, moment, content) for k, (moment, content) in enumerate(records) if k not in matched])
    rows, others = {}, 0
    for number_sent, number_received, found in near_pairs(*lonely, least, most, difference):
        key = f"{segment(sent[number_sent - 1][1])}: {found}"
        if key in rows:
            rows[key][0] += 1
        elif len(rows) < ROWS:
            rows[key] = [1, number_received, number_sent]
        else:
            others += 1
    lines = [f"{word}: {key}: {count}, first record {one} for {other}\n" for key, (count, one, other) in rows.items()]
    return "".join(lines + ([f"{word}: other differences: {others}\n"] if others else []))
