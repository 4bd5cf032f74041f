#!/usr/bin/env python3
"""Makes settings and captures of a large leaf, for docs/PERF.md: leaf.py FOLDER EVENTS [most]

64 ports, 1,000 segments with five ports each or 65 and more, 128 remotes each, and 131,072 addresses, as examples/leaf/large.py and
settings.py write them; with `most` 255 ports, 4,094 segments of 16 ports, 256 remotes each, 4,096 exceptions from the next hop, and
1,048,576 addresses.

Frames are tagged, four in eight of 60 octets, one of 576 and one of 1,400 among others of 60. The stations of a segment take turns at
its ports; each first sends to the first one, and then to any; one frame in 500 goes to everybody. The same words give the same
octets. Nothing but Python's own library is needed."""
import json
import struct
import subprocess
import sys
from pathlib import Path

TOP = Path(__file__).resolve().parent.parent
HEADER = struct.pack("<IHHiIII", 0xA1B23C4D, 2, 4, 0, 0, 262144, 1)
START, STEP = 1_700_000_000 * 10**9, 200
SIZES = (60, 60, 60, 60, 576, 60, 60, 1400)
BODY = bytes(1400)
EVERYBODY = b"\xff" * 6


def leaf(folder):
    """The settings of the leaf, and the ports of its segments."""
    own = TOP / "examples" / "leaf"
    subprocess.run([sys.executable, own / "large.py", folder], check=True)
    texts = [folder / f"{name}.json" for name in ("vlans", "links", "floods")]
    words = [sys.executable, own / "settings.py", *texts, "02:00:00:00:aa:01", "02:00:00:00:aa:fe", "131072"]
    with open(folder / "settings.toml", "w") as out:
        subprocess.run(words, check=True, stdout=out)
    ports = {}
    for number, port in enumerate((p for p in json.loads(texts[0].read_text()) if not p["ifname"].startswith("vx")), 1):
        for row in port["vlans"]:
            for vid in range(row["vlan"], row.get("vlanEnd", row["vlan"]) + 1):
                ports.setdefault(vid, []).append(number)
    return {vid: at for vid, at in ports.items() if 2 <= vid <= 1001}


def most(folder):
    """The settings with all limits at their most, and the ports of its segments."""
    remotes = [f"198.18.{n >> 8}.{n & 255}" for n in range(4096)]
    ports = {vid: sorted((vid * 7 + 16 * n) % 255 + 1 for n in range(16)) for vid in range(1, 4095)}
    with open(folder / "settings.toml", "w") as out:
        out.write("version = 3\n[limits]\nports = 255\nsegments = 4094\nflood = 256\nhops = 4096\naddresses = 1048576\n")
        out.write('[underlay]\nmac = "02:00:00:00:aa:01"\nnext_hop = "02:00:00:00:aa:fe"\nip4 = "192.0.2.1"\n')
        for n, remote in enumerate(remotes):
            out.write(f'[[underlay.hop]]\naddr = "{remote}"\nmac = "02:00:00:01:{n >> 8:02x}:{n & 255:02x}"\n')
        out.write('[[port]]\npvid = 1\naccept = "tagged"\n' * 255)
        for vid, at in ports.items():
            flood = ", ".join(f'"{remotes[(vid * 16 + n) % 4096]}"' for n in range(256))
            out.write(f"[[segment]]\nvid = {vid}\nlimit = 256\nuntagged = []\ntagged = {at}\n")
            out.write(f'[[segment.tunnel]]\nkind = "vxlan"\nvni = {10000 + vid}\nflood = [{flood}]\n')
    return ports


def write(folder, ports, events, stations):
    """The captures: so many events among so many stations of each segment."""
    vids = sorted(ports)
    count = max(max(at) for at in ports.values())
    outs = [bytearray(HEADER) for _ in range(count)]
    files = [open(folder / f"port{number}.pcap", "wb") for number in range(1, count + 1)]
    moment, all_of = START, len(vids) * stations
    for i in range(events):
        vid, station = vids[i * 7 % len(vids)], i // len(vids) % stations
        at = ports[vid][station % len(ports[vid])] - 1
        other = (station * 5 + i) % stations if i >= all_of else 0
        moment += STEP
        to = EVERYBODY if i % 500 == 499 else b"\x02\x00" + struct.pack(">HH", vid, other)
        frame = to + b"\x02\x00" + struct.pack(">HHHHH", vid, station, 0x8100, vid, 0x0800) + BODY[: SIZES[i % 8] - 18]
        out = outs[at]
        out += struct.pack("<IIII", moment // 10**9, moment % 10**9, len(frame), len(frame)) + frame
        if len(out) > 1 << 20:
            files[at].write(out)
            out.clear()
    for out, file in zip(outs, files):
        file.write(out)
        file.close()
    (folder / "underlay.pcap").write_bytes(HEADER)


def main():
    folder, events = Path(sys.argv[1]), int(sys.argv[2])
    folder.mkdir(parents=True, exist_ok=True)
    if sys.argv[3:] == ["most"]:
        write(folder, most(folder), events, 256)
    else:
        write(folder, leaf(folder), events, 131)


if len(sys.argv) in (3, 4):
    main()
else:
    sys.exit(__doc__)
