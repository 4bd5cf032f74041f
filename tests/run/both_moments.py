"""The lab's captures of both directions (examples/lab/both) with their moments rounded down: to microseconds, and to ten of them.

Where no two places have one moment a coarser clock changes nothing: that is so in microseconds. In ten of them packet 7 of the
underlay and what it became at port 2, its record 7, have one moment, 1795777482.02709 s. Records of one moment are met as ports
rise and the underlay last (docs/OPERATING.md, "Both directions", what it can't tell), so that record is input: a frame of
10.0.0.5 to 10.0.0.2 that comes in where 10.0.0.2 stands. It is dropped as SamePlace, and the packet brings its source back to
the peer. No other line is another one. The captures are classic pcap of microseconds.
"""
import pathlib
import struct
import sys
import tempfile

import runs

LAB = runs.TOP / "examples/lab"
NAMES = ("port1", "port2", "underlay")
COUNTS = {"p1": 5, "p2": 4, "u": 7}


def rounded(capture, grain):
    """A little-endian capture of nanoseconds as one of microseconds, whose moments are multiples of so many of them."""
    assert capture[:4] == bytes.fromhex("4d3cb2a1")
    text, at = bytes.fromhex("d4c3b2a1") + capture[4:24], 24
    while at < len(capture):
        second, fraction, kept, length = struct.unpack("<IIII", capture[at : at + 16])
        text += struct.pack("<IIII", second, fraction // 1000 // grain * grain, kept, length) + capture[at + 16 : at + 16 + kept]
        at += 16 + kept
    return text


def told(grain):
    """Standard error, and the decision lines without their first two fields, of a run on the captures rounded so."""
    with tempfile.TemporaryDirectory() as name:
        folder = pathlib.Path(name)
        (folder / "out").mkdir()
        for capture in NAMES:
            (folder / f"{capture}.pcap").write_bytes(rounded((LAB / f"both/{capture}.pcap").read_bytes(), grain))
        words = ["run", "--both", "-s", str(LAB / "settings.toml"), "-u", "underlay.pcap", "-o", "out", "port1.pcap", "port2.pcap"]
        done = runs.ends(words, folder=folder)
        lines = (folder / "out/decisions.txt").read_text(encoding="utf-8").splitlines() if done.returncode == 0 else []
    return done.stderr.decode().splitlines(), [line.split(" ", 2)[2] for line in lines]


def left_out(counts):
    return [f"  {tap}: left out {count} records that the switch sent" for tap, count in counts.items()]


def main():
    lines = [line.split("#")[0].rstrip() for line in (LAB / "both/decisions_both.txt").read_text(encoding="utf-8").splitlines()]
    at = lines.index("u 7 1 p2=42")
    coarse = lines[:at] + ["p2 7 1 drop 35 SamePlace"] + lines[at:]
    wrong = 0
    for grain, counts, wanted in (1, COUNTS, lines), (10, COUNTS | {"p2": 3}, coarse):
        got = told(grain)
        if got != (left_out(counts), wanted):
            print(f"tests/run/both_moments.py: moments of {grain} us: {got}")
            wrong += 1
    return 1 if wrong else 0


if __name__ == "__main__":
    sys.exit(main())
