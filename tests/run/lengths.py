"""Packets and frames cut at every length, the longest ones, the most that settings and changes may hold, and a frame to every
place that there may be.

What is expected was worked out by hand from RFC 7348, RFC 8926, IEEE 802.1Q and docs/formats/, never taken from a run.
"""
import random
import struct
import sys

import runs
import view

FAULTS = []

# A broadcast of 60 octets in VXLAN 5000, from 192.0.2.1 to 192.0.2.2: 110 octets.
PACKET = runs.octets("OUTER12 08000000 00138800 ALL M1 0806 00*46")

LAST_MOMENT = 4_294_967_295_999_999_999


def run(settings, tap="u", texts=(), changes="", at=None):
    """A run on octets and the original length of each, which come from one tap a second apart, or all at a moment."""
    captures = runs.Captures()
    for second, (text, original) in enumerate(texts, 1):
        captures.of[tap] += runs.record(second * 10**9 if at is None else at, text, original)
    return runs.Run(settings, changes, captures)


def expect(name, run, results):
    """Asks for the decision lines that the results of records from one tap are in."""
    tap, results = results
    wanted = [f"{n} {n * 10**9} {tap} {n} {result}" for n, result in enumerate(results, 1)]
    expect_lines(name, run.said(), wanted)


def expect_lines(name, said, wanted):
    said = said.splitlines()
    if said != wanted:
        wrong = next((pair for pair in zip(said, wanted) if pair[0] != pair[1]), (len(said), len(wanted)))
        FAULTS.append(f"{name}: {wrong[0]} in place of {wrong[1]}")


def of_cut_packet(length):
    """A packet that is cut before its end has fewer octets than its IPv4 header claims: 13, BadIp. One of fewer than 14 is no
    frame: 3, Runt."""
    if length < 14:
        return "- drop 3 Runt"
    if length < 110:
        return "- drop 13 BadIp"
    return "10 p1=60 p2=60 p3=64"


def a_packet_is_cut_at_every_length():
    lengths = range(111)
    at_peer = run(runs.PEER, texts=[(PACKET[:n], n) for n in lengths])
    expect("a packet is cut", at_peer, ("u", map(of_cut_packet, lengths)))


def with_payload(length):
    """The packet with so many octets of UDP payload, 68 at most, and lengths and the header's checksum made right for them:
    with each octet that the header claims less its checksum is one more, B689 for 68 octets (RFC 1071)."""
    octets = bytearray(PACKET[:42 + length])
    struct.pack_into(">H", octets, 16, 28 + length)
    struct.pack_into(">H", octets, 24, 0xB689 + 68 - length)
    struct.pack_into(">H", octets, 38, 8 + length)
    return bytes(octets)


def of_payload(length):
    """A VXLAN header has 8 octets, less is 23, ShortTunnel; a frame in it has 14 at least, less is 33, InnerRunt."""
    if length < 8:
        return "- drop 23 ShortTunnel"
    if length < 22:
        return "10 drop 33 InnerRunt"
    return f"10 p1={length - 8} p2={length - 8} p3={length - 4}"


def a_datagram_has_every_length():
    lengths = range(69)
    at_peer = run(runs.PEER, texts=[(with_payload(n), 42 + n) for n in lengths])
    expect("a datagram", at_peer, ("u", map(of_payload, lengths)))


def of_cut_frame(length):
    """A frame is refused before its addresses (3, Runt) and its tag (7, CutTag) are whole; the rest may have any length. The
    tag leaves at port 3 alone, and headers of 50 octets come in front for the remote."""
    if length < 14:
        return "- drop 3 Runt"
    if length < 18:
        return "- drop 7 CutTag"
    return f"10 p2={length - 4} p3={length} 192.0.2.2={length + 46}"


def a_tagged_frame_is_cut_at_every_length():
    frame = runs.octets("ALL M1 8100000A 0806 00*46")
    lengths = range(65)
    at_endpoint = run(runs.ENDPOINT, "p1", [(frame[:n], n) for n in lengths])
    expect("a tagged frame is cut", at_endpoint, ("p1", map(of_cut_frame, lengths)))


def the_longest_frame_is_taken():
    """It leaves at local ports alone; one octet more is too long (1, TooLong), whatever its original length."""
    frame = runs.octets("ALL M1 0806") + bytes(65_521)
    texts = [(frame, 65_535)] + [(frame + b"\0", n) for n in (0, 60, 65_535, 65_536, 4_294_967_295)]
    results = ["10 p2=65535 p3=65539 192.0.2.2!TooBig"] + ["- drop 1 TooLong"] * 5
    expect("the longest frame", run(runs.ENDPOINT, "p1", texts), ("p1", results))


def the_longest_record_is_too_long_a_frame():
    told = run(runs.BRIDGE, "p1", [(b"\xA5" * 262_144, 262_144)], at=LAST_MOMENT)
    expect_lines("the longest record", told.said(), [f"1 {LAST_MOMENT} p1 1 - drop 1 TooLong"])


def all_changes_are_made(count, head=""):
    """Each gives an ageing of 10 more than its number, so it is another each time."""
    numbers = range(1, count + 1)
    changes = [f'[[change]]\nkind = "set_ageing"\nat = {n}\nvid = 10\nseconds = {10 + n}\n' for n in numbers]
    told = run(runs.BRIDGE, changes=head + "".join(changes))
    expect_lines(f"{count} changes", told.said(), [f"{n} {n} c {n} 10 done" for n in numbers])


# Segments that there may be, and addresses that each has here: 65,536 in all.
SEGMENTS = 256


def vid_of(k):
    """The VID of the k-th segment, from 1: the last is 4094."""
    return 16 * k - 2


def segment(k):
    """The k-th segment, by turns over VXLAN and over Geneve, with the VNI 16,777,215 for the last: every port, half of them
    untagged, 256 addresses and 16 remotes."""
    flood = ", ".join(f'"198.51.100.{n}"' for n in range(1, 17))
    return (
        f"[[segment]]\nvid = {vid_of(k)}\nvni = {65_536 * k - 1}\n"
        f'tunnel = "{"vxlan" if k % 2 else "geneve"}"\nlimit = 256\n'
        f"untagged = {list(range(1, 9))}\ntagged = {list(range(9, 17))}\nflood = [{flood}]\n"
    )


def greatest():
    """The settings with as much of everything as there may be: 16 critical options of Geneve, 64 exceptions from the next
    hop, 16 ports, and 256 segments."""
    head = (
        'version = 1\n[underlay]\nmac = "02:00:00:00:aa:01"\nnext_hop = "02:00:00:00:aa:fe"\nip4 = "192.0.2.1"\n'
        f"known = {[[258, n] for n in range(128, 144)]}\n"
    )
    hops = [f'[[underlay.hop]]\naddr = "203.0.113.{n}"\nmac = "02:00:00:00:bb:01"\n' for n in range(1, 65)]
    return head + "".join(hops) + "[[port]]\npvid = 14\n" * 16 + "".join(map(segment, range(1, SEGMENTS + 1)))


# To 15 ports and 16 remote endpoints: a tag of 4 octets is put in at ports 9 to 16, and headers of 50 (Ethernet 14, IPv4 20,
# UDP 8, VXLAN or Geneve 8) in front.
FROM_PORT_1 = (
    "p2=60 p3=60 p4=60 p5=60 p6=60 p7=60 p8=60 p9=64 p10=64 p11=64 p12=64 p13=64 p14=64 p15=64 p16=64 "
    + " ".join(f"198.51.100.{n}=110" for n in range(1, 17))
)

# To all 16 ports.
FROM_A_REMOTE = (
    "p1=60 p2=60 p3=60 p4=60 p5=60 p6=60 p7=60 p8=60 p9=64 p10=64 p11=64 p12=64 p13=64 p14=64 p15=64 p16=64"
)

# From 198.51.100.1: in VNI 16,711,679 over VXLAN, and in VNI 16,777,215 over Geneve with 16 critical options, all of them
# known (RFC 8926, 3.5).
PACKETS = (
    "ETHER 45000060 00004000 40114E57 C6336401 C0000201 CA0712B5 004C0000 08000000 FEFFFF00 ALL M1 0806 00*46",
    "ETHER 450000A0 00004000 40114E17 C6336401 C0000201 CA0717C1 008C0000 10406558 FFFFFF00 "
    + " ".join(f"0102{n:02X}00" for n in range(0x80, 0x90))
    + " ALL M1 0806 00*46",
)


def all_limits_hold_at_once():
    """A broadcast in each segment goes to 31 places, and counts as often there and nowhere else; and a packet to 16 ports."""
    settings = greatest()
    captures = runs.Captures(ports=16)
    vids = [vid_of(k) for k in range(1, SEGMENTS + 1)]
    wanted = []
    for n, vid in enumerate(vids, 1):
        frame = runs.octets(f"ALL M1 8100{vid:04X} 0806 00*46")
        captures.of["p1"] += runs.record(n * 10**9, frame)
        wanted.append(f"{n} {n * 10**9} p1 {n} {vid} {FROM_PORT_1}")
    told = runs.Run(settings, "", captures, words=["run", "--summary"])
    expect_lines("a frame to 31 places", told.said(), wanted)
    summary = [line for line in told.stdout.splitlines() if line.startswith("segment")]
    expect_lines("what the segments sent", "\n".join(summary), [f"segment {vid} sent 31" for vid in vids])
    captures = runs.Captures(ports=16)
    wanted = []
    for n, (words, vid) in enumerate(zip(PACKETS, (4078, 4094)), 1):
        captures.of["u"] += runs.record(n * 10**9, runs.octets(words))
        wanted.append(f"{n} {n * 10**9} u {n} {vid} {FROM_A_REMOTE}")
    expect_lines("a packet to every port", runs.Run(settings, "", captures).said(), wanted)
    checked = runs.ends(["check", "-s", "/dev/stdin"], settings.encode()).stdout.decode()
    expect_lines("the greatest settings", checked, ["ok: 16 ports, 256 segments, 0 changes"])


# The ports and the remote endpoints that a frame may leave for, by settings of version 3; remotes stand with all their digits.
PORTS, REMOTES = 255, [f"2001:0db8:0000:0000:0000:0000:0001:{n:04x}" for n in range(512)]


def every_place():
    """Settings with a segment of every port, half of them untagged, and of as many remotes, all of them over Geneve. There is
    no remote over VXLAN, which is in a horizon group of its own."""
    flood = ", ".join(f'"{remote}"' for remote in REMOTES)
    return (
        f"version = 3\n{runs.underlay(1)}[limits]\nports = {PORTS}\nflood = {len(REMOTES)}\n{runs.PORT * PORTS}"
        f"[[segment]]\nvid = 10\nuntagged = {list(range(1, 129))}\ntagged = {list(range(129, PORTS + 1))}\n"
        f'[[segment.tunnel]]\nkind = "vxlan"\nvni = 5000\ngroup = 1\n'
        f'[[segment.tunnel]]\nkind = "geneve"\nvni = 6000\ngroup = 2\nflood = [{flood}]\n'
    )


def a_frame_goes_to_every_place():
    """A broadcast from a port goes to 766 places, and one from the other horizon group to 767. One with a second tag goes to
    the ports alone, and the longest word is told of each remote. Headers of 70 octets (Ethernet 14, IPv6 40, UDP 8, Geneve 8) come
    in front."""
    captures = runs.Captures(ports=PORTS)
    captures.of["p1"] += runs.record(10**9, runs.octets("ALL M1 0806 00*46"))
    captures.of["u"] += runs.record(2 * 10**9, runs.octets("OUTER21 08000000 00138800 ALL M5 0806 00*46"))
    captures.of["p1"] += runs.record(3 * 10**9, runs.octets("ALL M1 8100000A 8100000B 0806 00*42"))
    ports = [f"p{port}={60 if port < 129 else 64}" for port in range(1, PORTS + 1)]
    remotes = [f"geneve:{remote}=130" for remote in REMOTES]
    wanted = [
        "1 1000000000 p1 1 10 " + " ".join(ports[1:] + remotes),
        "2 2000000000 u 1 10 " + " ".join(ports + remotes),
        "3 3000000000 p1 2 10 " + " ".join(ports[1:] + [f"geneve:{remote}!InnerTagOut" for remote in REMOTES]),
    ]
    told = runs.Run(every_place(), "", captures, words=["run", "--summary", "--pcapng", "out/view.pcapng"])
    expect_lines("a frame to every place", told.said(), wanted)
    expect_lines("a frame to every place, in a view", "\n".join(view.View(told.files["view.pcapng"]).lines), wanted)
    # 21 octets in front, 1,672 of 254 ports, 58 of each of 512 remotes, and 765 spaces: less than half a comment's 65,535.
    assert max(map(len, wanted)) == 32_154
    summary = [line for line in told.stdout.splitlines() if line.startswith(("segment", "remote"))]
    counts = [f"segment 10 sent {766 + 767 + 254}", "segment 10 dropped 40 InnerTagOut 512", "remote vxlan:192.0.2.2 in 1 110 out 0 0"]
    counts += [f"remote geneve:{remote} in 0 0 out 2 260" for remote in REMOTES]
    expect_lines("what every place is counted", "\n".join(summary), counts)


def more_tunnels_than_rows():
    """Packets of 4,100 networks that no segment has, their numbers falling: the 4,096 least have lines, and the others one."""
    captures = runs.Captures()
    vnis = range(9099, 4999, -1)
    for n, vni in enumerate([*vnis, 5000, 9099], 1):
        captures.of["u"] += runs.record(n * 10**9, runs.octets(f"OUTER12 08000000 {vni:06X}00 ALL M1 0806 00*46"))
    told = runs.Run(runs.PEER.replace("vni = 5000", "vni = 4999"), "", captures, words=["run", "--summary"])
    summary = [line for line in told.stdout.splitlines() if line.startswith(("unknown", "remote"))]
    wanted = [f"unknown vxlan {vni} from 192.0.2.1 {1 + (vni == 5000)}" for vni in range(5000, 9096)]
    expect_lines("more networks than rows", "\n".join(summary), [*wanted, "unknown others 5"])


def talk_frames(count):
    """Frames of so many stations: most send once, in a random order, and 60 among them send up to 120 frames, a few at a time."""
    rng = random.Random(count)
    frames = [(0x10000 + n, 46 + n % 7) for n in range(count)]
    for n in range(60):
        frames += [(0x80000 + n, 46 + n)] * rng.randint(1, 120)
    rng.shuffle(frames)
    return frames


def told_of(line):
    """The station of a line and its words behind where the frames went, with `short 0` where that isn't told."""
    words = line.split()
    return int(words[2].replace(":", ""), 16) & 0xFFFFFF, [*words[7:], *([] if "short" in words else ["short", "0"])]


def holds_of_talks(lines, others, sent):
    """What docs/formats/lines.md says of more than 4,096 talks: each line and that of the others, against all frames sent."""
    _, _, frames, octets, _, first, _, last = others.split()
    most = max(int(told_of(line)[1][-1]) for line in lines)
    left = [sum(len(moments) for moments in sent.values()), sum(octets for all_ in sent.values() for _, octets in all_)]
    lacks = {station: all_ for station, all_ in sent.items()}
    rest = []
    for line in lines:
        station, (count, size, _, begins, _, ends, _, short) = told_of(line)
        mine = lacks.pop(station)
        own = mine[len(mine) - int(count):]
        assert len(mine) - int(count) <= int(short) <= most, line
        assert [int(size), int(begins), int(ends)] == [sum(octets for _, octets in own), own[0][0], own[-1][0]], line
        rest += mine[: len(mine) - int(count)]
        left = [left[0] - int(count), left[1] - int(size)]
    assert all(len(mine) <= most for mine in lacks.values()), (most, "a larger talk has no line")
    rest = sorted(rest + [frame for mine in lacks.values() for frame in mine])
    assert [int(frames), int(octets)] == left and [int(first), int(last)] == [rest[0][0], rest[-1][0]], others
    assert 4000 * most <= sum(len(mine) for mine in sent.values()), others


def more_talkers_than_rows():
    """Where more than 4,096 talks come, those of most frames have lines, and all that is told of them and the others holds."""
    for count in (4096 - 60, 4097, 4200, 9000):
        captures = runs.Captures()
        sent = {}
        for n, (station, length) in enumerate(talk_frames(count), 1):
            captures.of["p1"] += runs.record(n * 10**6, runs.octets(f"ALL 020000{station:06X} 0806 00*{length}"))
            sent.setdefault(station, []).append((n * 10**6, length + 14))
        told = runs.Run(runs.ENDPOINT, "", captures, words=["run", "--talkers"])
        talks = [line for line in told.stdout.splitlines() if line.startswith("talk")]
        if len(sent) <= 4096:
            assert len(talks) == len(sent) and not any("short" in line or "others" in line for line in talks)
            continue
        assert len(talks) == 4097, len(talks)
        holds_of_talks(talks[:-1], talks[-1], sent)


def main():
    a_packet_is_cut_at_every_length()
    a_datagram_has_every_length()
    a_tagged_frame_is_cut_at_every_length()
    the_longest_frame_is_taken()
    the_longest_record_is_too_long_a_frame()
    all_changes_are_made(10_000)
    all_changes_are_made(100_000, "version = 2\n")
    all_limits_hold_at_once()
    a_frame_goes_to_every_place()
    more_tunnels_than_rows()
    more_talkers_than_rows()
    for fault in FAULTS:
        print(f"tests/run/lengths.py: {fault}")
    return 1 if FAULTS else 0


sys.exit(main())
