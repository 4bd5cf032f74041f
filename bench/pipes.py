#!/usr/bin/env python3
"""Times `tep run` over nine captures from files and from pipes: pipes.py TEP [EVENTS [TURNS]]

Eight ports and the underlay of one segment, by turns: frames of 60 to 1,400 octets of 64 stations, every second one to a station of
the ports and the others to one behind the remote, and packets of that in VXLAN. The ways are taken by turns, after they were seen to
write the same. It tells the median of each, and what that is of the run over files: of the whole run's seconds, where nothing should
run beside it, and of those in which a processor did the run's own work, without that of the programs that write the pipes."""
import filecmp
import os
import statistics
import subprocess
import sys
import tempfile
import time
from pathlib import Path

from loads import HEADER, flow, packet, station

PORTS = 8
SIZES = (60, 200, 594, 1400)
BODIES = [[flow(number, size) for number in range(64)] for size in SIZES]
SETTINGS = (
    'version = 1\n[underlay]\nmac = "02:00:00:00:aa:01"\nnext_hop = "02:00:00:00:aa:fe"\nip4 = "192.0.2.1"\n'
    + "[[port]]\npvid = 10\n" * PORTS
    + '[[segment]]\nvid = 10\nvni = 5000\ntunnel = "vxlan"\n'
    + f'untagged = {list(range(1, PORTS + 1))}\nflood = ["192.0.2.2"]\n'
)


def record(number, octets):
    moment = 10**12 + number * 1000
    head = (moment // 10**9, moment % 10**9, len(octets), len(octets))
    return b"".join(word.to_bytes(4, "little") for word in head) + octets


def event(number):
    """What comes to the capture of this number by turns: a frame of a station there, to one of another port or of the remote."""
    at, turn = number % (PORTS + 1), number // (PORTS + 1)
    body = BODIES[turn % len(SIZES)][turn % 64]
    here = at + PORTS * (turn % 8)
    if at == PORTS:
        return packet(turn, station(1 + here % 64) + station(turn % 64, 1) + body)
    to = station(turn % 64, 1) if turn % 2 else station(1 + (here + 1 + turn % 7) % 64)
    return to + station(1 + here) + body


def make(folder, events):
    (folder / "settings.toml").write_text(SETTINGS)
    captures = [folder / f"port{port + 1}.pcap" for port in range(PORTS)] + [folder / "underlay.pcap"]
    octets = [bytearray(HEADER) for _ in captures]
    for number in range(events):
        octets[number % len(captures)] += record(number, event(number))
    for path, text in zip(captures, octets):
        path.write_bytes(text)
    subprocess.run(["gzip", "-k", *captures], check=True)
    subprocess.run(["xz", "-k", "-1", *captures], check=True)
    return captures


# what a capture is read from, by its path and its place
WAYS = {
    "nine files": lambda path, place: f"{path}",
    "`cat` of one": lambda path, place: f"<(cat {path})" if place == 0 else f"{path}",
    "`zcat` of one": lambda path, place: f"<(zcat {path}.gz)" if place == 0 else f"{path}",
    "`xz -dc` of one": lambda path, place: f"<(xz -dc {path}.xz)" if place == 0 else f"{path}",
    "`cat` of all nine": lambda path, place: f"<(cat {path})",
    "`zcat` of all nine": lambda path, place: f"<(zcat {path}.gz)",
}


def run(tep, folder, captures, way):
    """Where a run wrote, its seconds, and those of a processor."""
    out = folder / "out" / "".join(letter for letter in way if letter.isalnum())
    out.mkdir(parents=True, exist_ok=True)
    *ports, underlay = [WAYS[way](path, place) for place, path in enumerate(captures)]
    words = f"exec {tep} run -s {folder}/settings.toml -u {underlay} -o {out} {' '.join(ports)}"
    before = time.perf_counter()
    started = subprocess.Popen(["bash", "-c", words])
    _, status, used = os.wait4(started.pid, 0)
    started.returncode = os.waitstatus_to_exitcode(status)
    if started.returncode:
        sys.exit(f"{way}: status {started.returncode}")
    return out, time.perf_counter() - before, used.ru_utime + used.ru_stime


def main():
    if not 2 <= len(sys.argv) <= 4:
        sys.exit(__doc__)
    tep = Path(sys.argv[1]).resolve()
    events = int(sys.argv[2]) if len(sys.argv) > 2 else 200000
    turns = int(sys.argv[3]) if len(sys.argv) > 3 else 5
    with tempfile.TemporaryDirectory(dir=os.environ.get("TMPDIR")) as name:
        folder = Path(name)
        captures = make(folder, events)
        first = run(tep, folder, captures, "nine files")[0]
        for way in WAYS:
            out = run(tep, folder, captures, way)[0]
            names = sorted(os.listdir(first))
            if names != sorted(os.listdir(out)) or filecmp.cmpfiles(first, out, names, shallow=False)[0] != names:
                sys.exit(f"{way}: other outputs than of files")
        taken = {way: [] for way in WAYS}
        for _ in range(turns):
            for way in WAYS:
                taken[way].append(run(tep, folder, captures, way)[1:])
        medians = {way: [statistics.median(column) for column in zip(*taken[way])] for way in WAYS}
        print("| Captures | seconds | of the run over files | of a processor | of the run over files |\n|---|---|---|---|---|")
        for way in WAYS:
            cells = [f"{seconds:.3f} | {seconds / of_files:.2f}" for seconds, of_files in zip(medians[way], medians["nine files"])]
            print(f"| {way} | {' | '.join(cells)} |")


main()
