#!/usr/bin/env python3
"""Runs and merges whose writes fail: what stands in each output then, and what standard error tells.

What an output may hold at most is what a run without a failure writes there. What it has to hold is told by the decision lines that
stand: `p2=60` is a record of 60 octets in port2.pcap."""
import os
import re
import resource
import shutil
import signal
import struct
import subprocess
import sys
import tempfile
import threading
from pathlib import Path

TOP = Path(__file__).resolve().parent.parent.parent
TEP = os.environ.get("TEP", str(TOP / "tep"))
HEADER = bytes.fromhex("4d3cb2a10200040000000000000000000000040001000000")
SETTINGS = (TOP / "examples" / "a.toml").read_text()
CAPTURES = ["port1.pcap", "port2.pcap", "port3.pcap", "underlay.pcap"]
OUTPUTS = CAPTURES + ["decisions.txt"]


def long_lists(remotes):
    """Settings of three ports in a segment of so many remotes: its lines are longer than any that few ports and remotes have."""
    flood = ", ".join(f'"198.18.{n >> 8}.{n & 255}"' for n in range(remotes))
    return (
        f"version = 3\n[limits]\nflood = {remotes}\n[underlay]\n"
        'mac = "02:00:00:00:aa:01"\nnext_hop = "02:00:00:00:aa:fe"\nip4 = "192.0.2.1"\n' + "[[port]]\npvid = 10\n" * 3 +
        "[[segment]]\nvid = 10\nuntagged = [1, 2, 3]\n"
        f'[[segment.tunnel]]\nkind = "vxlan"\nvni = 5000\nflood = [{flood}]\n'
    )


def frame(octets):
    """A frame to everybody, which leaves through two ports and to each remote."""
    return b"\xff" * 6 + bytes.fromhex("020000000001" "0806") + bytes(octets - 14)


def record(second, octets):
    return struct.pack("<IIII", second, 0, len(octets), len(octets)) + octets


def capture(events, flooded, octets):
    """A capture of so many events: of each `flooded` one is a frame of so many octets, and the others are too short for one."""
    return HEADER + b"".join(record(n, frame(octets) if n % flooded == 0 else b"\xff" * 10) for n in range(events))


# Many lines and few records; many records; long records; lines of some 650 and some 8,500 octets, each second one.
TRAFFIC = {
    "many lines": capture(6000, 40, 60),
    "many records": capture(3000, 1, 60),
    "long records": capture(2000, 1, 1000),
    "few events": capture(20, 1, 60),
    "lines to 40": capture(600, 2, 60),
    "lines to 512": capture(60, 2, 60),
}
LONG_LISTS = {"lines to 40": long_lists(40), "lines to 512": long_lists(512)}
# A record with a fault.
FAULTY = struct.pack("<IIII", 9000, 0, 262145, 262145)


def asks(truth, what):
    if not truth:
        sys.exit(f"tests/files/failed_writes.py: {what}")


def needed(lines):
    """How many octets each capture has to hold where these lines stand."""
    sizes = dict.fromkeys(CAPTURES, 24)
    for line in lines:
        for place, size in re.findall(r" (\S+)=(\d+)", line):
            name = f"port{place[1:]}.pcap" if place[0] == "p" else "underlay.pcap"
            sizes[name] += 16 + int(size)
    return sizes


class Case:
    """A folder with the inputs, and what a run of them leaves without a failure."""

    def __init__(self, traffic, behind=b""):
        self.path = Path(tempfile.mkdtemp())
        (self.path / "settings.toml").write_text(LONG_LISTS.get(traffic, SETTINGS))
        (self.path / "1.pcap").write_bytes(TRAFFIC[traffic] + behind)
        (self.path / "empty.pcap").write_bytes(HEADER)
        self.behind = behind
        self.what = traffic
        self.run = ["run", "-s", "settings.toml", "-u", "empty.pcap", "-o", "out", "1.pcap", "empty.pcap", "empty.pcap"]
        self.whole = self.made(self.run, {})[2]

    def __enter__(self):
        return self

    def __exit__(self, *_):
        shutil.rmtree(self.path)

    def parts(self):
        """From here on parts of the run are merged."""
        for name, segments in (("a", "1-10"), ("b", "11-4094,none")):
            (self.path / name).mkdir()
            words = [*self.run, "--segments", segments]
            words[words.index("out")] = name
            subprocess.run([TEP, *words], cwd=self.path, check=True)
        self.what += ", merged"
        self.run = ["merge", "-o", "out", "a", "b"]

    def made(self, words, links, limit=None):
        """The status, standard error, and what stands in each output that is a file."""
        out = self.path / "out"
        shutil.rmtree(out, ignore_errors=True)
        out.mkdir()
        for name, target in links.items():
            (out / name).symlink_to(target)

        def limited():
            if limit is not None:
                signal.signal(signal.SIGXFSZ, signal.SIG_IGN)
                resource.setrlimit(resource.RLIMIT_FSIZE, (limit, limit))

        run = subprocess.run([TEP, *words], cwd=self.path, stderr=subprocess.PIPE, preexec_fn=limited)
        held = {name: (out / name).read_bytes() for name in OUTPUTS if (out / name).is_file()}
        return run.returncode, run.stderr.decode().splitlines(), held

    def stands(self, held, what):
        """Each output holds a front of what it holds without a failure, and each capture the records of all lines."""
        for name, octets in held.items():
            asks(self.whole[name].startswith(octets), f"{self.what}, {what}: {name} holds something else")
        lines = held.get("decisions.txt", b"").decode().splitlines(keepends=True)
        for name, size in needed([line for line in lines if line.endswith("\n")]).items():
            if name in held and lines:
                length = len(held[name])
                asks(length >= size, f"{self.what}, {what}: {name} has {length} octets, and {len(lines)} lines ask for {size}")


def told_at(said):
    """The outputs that are told below the fault; the first of them is the fault's."""
    names = [re.fullmatch(r"  out/(\S+): .+", line) for line in said[1:]]
    asks(all(names) and names and said[0] == f"write {names[0][1]}", f"it says {said}")
    return [name[1] for name in names]


def full(case):
    """A device that is full, in place of each output and of several."""
    for names in [[name] for name in OUTPUTS[1:]] + [["port2.pcap", "port3.pcap"], ["port3.pcap", "underlay.pcap"]]:
        what = f"{' and '.join(names)} at a full device"
        status, said, held = case.made(case.run, dict.fromkeys(names, "/dev/full"))
        asks(status == 3, f"{case.what}, {what}: status {status}")
        is_told = sorted(told_at(said)) == names and all(line.endswith(": no space left") for line in said[1:])
        asks(is_told, f"{case.what}, {what}: it says {said}")
        case.stands(held, what)
        if names[0] != "decisions.txt":
            asks(needed_more(case, held, names) == [], f"{case.what}, {what}: lines stand of records at a full device")


def needed_more(case, held, names):
    """The captures at full devices of which a line tells a record: nothing was handed to them."""
    sizes = needed(held["decisions.txt"].decode().splitlines())
    return [name for name in names if sizes[name] > 24]


def limited(case):
    """A limit of a file's size, which all outputs meet."""
    for limit in (10, 24, 1000, 20_000, 65_536, 70_000, 100_000, 200_000):
        what = f"files of {limit} octets"
        status, said, held = case.made(case.run, {}, limit)
        longer = [name for name in OUTPUTS if len(case.whole[name]) > limit]
        asks(status == (3 if longer else 0), f"{case.what}, {what}: status {status}")
        case.stands(held, what)
        met = sorted(name for name in longer if len(held[name]) == limit)
        asks(sorted(told_at(said)) == met if longer else not said, f"{case.what}, {what}: {met} are full, and it says {said}")


def closed(case):
    """A pipe whose reader takes some octets and goes away, in place of each output in turn."""
    pipe = case.path / "pipe"
    for name in OUTPUTS[1:]:
        for octets in (0, 24, 1000, 80_000):
            if octets >= len(case.whole[name]) - 65_536:
                continue
            what = f"{name} a pipe that closes behind {octets} octets"
            os.mkfifo(pipe)

            def take():
                with open(pipe, "rb", 0) as reader:
                    left = octets
                    while left > 0:
                        taken = reader.read(left)
                        if not taken:
                            return
                        left -= len(taken)

            reader = threading.Thread(target=take)
            reader.start()
            status, said, held = case.made(case.run, {name: pipe})
            reader.join()
            pipe.unlink()
            asks(status == 3, f"{case.what}, {what}: status {status}")
            asks(said == [f"write {name}", f"  out/{name}: a closed pipe"], f"{case.what}, {what}: it says {said}")
            case.stands(held, what)


def behind_a_fault():
    """Behind a record with a fault the outputs that can't be written are told below it."""
    with Case("few events", FAULTY) as case:
        for names in (["port2.pcap"], ["port3.pcap", "underlay.pcap"], ["decisions.txt"]):
            status, said, held = case.made(case.run, dict.fromkeys(names, "/dev/full"))
            wanted = ["p1: TooLarge 21"] + [f"  out/{name}: no space left" for name in names]
            wanted += ["  1.pcap: record 21 is damaged: editcap -F nsecpcap -r 1.pcap OUT 1-20 keeps those before"]
            asks((status, said) == (1, wanted), f"{names} behind a fault: {status}, {said}")
            case.stands(held, f"{names} behind a fault")
            if names != ["decisions.txt"]:
                asks(held["decisions.txt"] == b"", f"lines stand where {names} can't be written")


def main():
    subprocess.run([TEP, "--version"], check=True, stdout=subprocess.DEVNULL)
    for traffic in TRAFFIC:
        with Case(traffic) as case:
            for test in (full, limited, closed):
                test(case)
            case.parts()
            for test in (full, limited):
                test(case)
    behind_a_fault()


main()
