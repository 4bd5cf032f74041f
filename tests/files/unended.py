#!/usr/bin/env python3
"""Runs, parts and merges that are killed or interrupted at many moments, and at each output: what stands in an output is the front
of what the whole run writes there, each line behind its records, the folder says that it didn't end, no other command takes it, and
the next run says so and takes the mark away."""
import os
import signal
import struct
import subprocess
import sys
import tempfile
import time
from pathlib import Path

TOP = Path(__file__).resolve().parent.parent.parent
TEP = os.environ.get("TEP", str(TOP / "tep"))
HEADER = bytes.fromhex("4d3cb2a10200040000000000000000000000040001000000")
MARK = "unfinished.txt"
CAPTURES = ["port1.pcap", "port2.pcap", "port3.pcap", "underlay.pcap"]
OUTPUTS = [*CAPTURES, "decisions.txt"]
EVENTS = 20_000
SIGNALS = [signal.SIGKILL, signal.SIGINT, signal.SIGTERM]
FAULTS = []


def asks(truth, what):
    if not truth:
        FAULTS.append(what)


def capture(events):
    """A capture of so many frames to everybody."""
    frame = b"\xff" * 6 + bytes.fromhex("020000000001" "0806") + bytes(486)
    return HEADER + b"".join(struct.pack("<IIII", n, 0, len(frame), len(frame)) + frame for n in range(events))


class Case:
    """A folder with the inputs, and what a run of them leaves that ends."""

    def __init__(self, path):
        self.path = path
        (path / "settings.toml").write_text((TOP / "examples" / "a.toml").read_text())
        (path / "1.pcap").write_bytes(capture(EVENTS))
        for name in ("empty.pcap", "2.pcap", "3.pcap"):
            (path / name).write_bytes(HEADER)
        self.run = ["run", "-s", "settings.toml", "-u", "empty.pcap", "1.pcap", "empty.pcap", "empty.pcap"]
        for name, words in [("whole", []), ("one", ["--segments", "1-10"]), ("other", ["--segments", "11-4094,none"])]:
            (path / name).mkdir()
            subprocess.run([TEP, *self.run, "-o", name, *words], cwd=path, check=True)
            asks(not (path / name / MARK).exists(), f"the mark stands behind the run {name}")
        self.whole = {name: (path / "whole" / name).read_bytes() for name in OUTPUTS}
        asks(self.whole["decisions.txt"].count(b"\n") == EVENTS, "an event has no line, or several")
        self.fresh()

    def fresh(self):
        subprocess.run(["rm", "-rf", str(self.path / "out")], check=True)
        (self.path / "out").mkdir()

    def ends(self, words):
        ended = subprocess.run([TEP, *words], cwd=self.path, stdout=subprocess.PIPE, stderr=subprocess.PIPE, check=False)
        return ended.returncode, ended.stderr.decode().splitlines()

    def is_refused(self, what):
        """No command takes the folder for one of a run."""
        for words in (
            ["report", "-o", "page.html", "out"],
            ["compare", "--worked", "out", "-u", "empty.pcap", "1.pcap", "2.pcap", "3.pcap"],
            ["merge", "-o", "merged", "out"],
        ):
            status, said = self.ends(words)
            wanted = (1, "out: a run into it is under way or didn't end")
            asks((status, said[0]) == wanted, f"{what}: {words[0]} says {said}, status {status}")

    def stands(self, what, read=None):
        """Each output holds a front of what the whole run writes, and each whole line has its records, which are of one length for
        all events. What came out of outputs that are no files was read."""
        held = {}
        for name in OUTPUTS:
            path = self.path / "out" / name
            held[name] = (read or {}).get(name) if path.is_fifo() else path.read_bytes() if path.exists() else b""
            asks(self.whole[name].startswith(held[name]), f"{what}: {name} holds something else")
        lines = held["decisions.txt"].count(b"\n")
        for name in CAPTURES:
            wanted = len(HEADER) + lines * (len(self.whole[name]) - len(HEADER)) // EVENTS
            asks(not lines or len(held[name]) >= wanted, f"{what}: {name} lacks records of {lines} lines")

    def is_whole(self):
        """Whether the folder holds what the whole run writes."""
        return all((self.path / "out" / name).read_bytes() == self.whole[name] for name in OUTPUTS)

    def again(self, words, what):
        """A further run says that the one before didn't end, and behind it the folder is the whole run's."""
        status, said = self.ends(words)
        asks((status, said) == (0, ["  out: an earlier run into it didn't end"]), f"{what}, and again: status {status}, {said}")
        asks(not (self.path / "out" / MARK).exists(), f"{what}, and again: the mark stands")


def stopped(case, words, how, delay):
    """A line that is stopped by a signal behind a delay; whether it was."""
    started = subprocess.Popen([TEP, *words], cwd=case.path, stderr=subprocess.DEVNULL)
    time.sleep(delay)
    started.send_signal(how)
    return started.wait() != 0


def moments(case, words, how):
    """A line stopped at many moments: so many were stopped behind the first octet that was written."""
    begun = time.monotonic()
    case.ends(words)
    whole = time.monotonic() - begun
    count = 0
    for step in range(12):
        case.fresh()
        delay = whole * (step + 1) / 12
        if not stopped(case, words, how, delay):
            continue
        what = f"{words[0]} stopped by {how.name} behind {delay:.3f} s"
        written = any((case.path / "out" / name).exists() and (case.path / "out" / name).stat().st_size for name in OUTPUTS)
        marked = (case.path / "out" / MARK).exists()
        # It may be stopped behind its last octet.
        asks(marked or not written or case.is_whole(), f"{what}: outputs stand without a mark")
        case.stands(what)
        if marked and written:
            count += 1
            if count == 1:
                case.is_refused(what)
            case.again(words, what)
            asks(case.is_whole(), f"{what}, and again: another run")
    return count


def at_output(case, words, name, how, count):
    """A line whose output waits for a reader, which takes so many octets: then it is stopped by a signal, or its reader goes away."""
    case.fresh()
    pipe = case.path / "out" / name
    os.mkfifo(pipe)
    started = subprocess.Popen([TEP, *words], cwd=case.path, stderr=subprocess.DEVNULL)
    what = f"{words[0]} at {count} octets of {name} by {how.name if how else 'its reader'}"
    with open(pipe, "rb") as reader:
        read = reader.read(count)
        if how:
            started.send_signal(how)
            read += reader.read()
    asks(started.wait() != 0, f"{what}: it isn't stopped")
    asks((case.path / "out" / MARK).exists(), f"{what}: no mark")
    # Where the reader of a capture goes away, nobody knows how far what was written into it goes.
    case.stands(what, {name: read if how or name not in CAPTURES else case.whole[name]})
    case.is_refused(what)


def at_outputs(case, words):
    """The same of each output that is longer than what a pipe holds and the reader takes."""
    names = [name for name in OUTPUTS if len(case.whole[name]) > 1_000_000]
    asks(len(names) > 2 and "decisions.txt" in names, f"only {names} are long")
    for name in names:
        for how in (*SIGNALS, None):
            for count in (1, 400_000):
                at_output(case, words, name, how, count)


def within(case, words):
    """While a run waits for the reader of an output, the mark stands; behind its last octet it is gone."""
    case.fresh()
    pipe = case.path / "out" / "port2.pcap"
    os.mkfifo(pipe)
    started = subprocess.Popen([TEP, *words], cwd=case.path)
    with open(pipe, "rb") as reader:
        reader.read(100)
        asks((case.path / "out" / MARK).exists(), f"{words[0]}: no mark while it is under way")
        case.is_refused(f"{words[0]} that is under way")
        reader.read()
    asks(started.wait() == 0, f"{words[0]} by a FIFO isn't done")
    asks(not (case.path / "out" / MARK).exists(), f"{words[0]} by a FIFO: the mark stands")


def faults(case):
    """A run that stops at a fault leaves the mark, and one that is refused before its outputs change leaves none."""
    case.fresh()
    (case.path / "bad.pcap").write_bytes(capture(3) + struct.pack("<IIII", 9000, 0, 262145, 262145))
    words = [word if word != "1.pcap" else "bad.pcap" for word in case.run]
    status, _ = case.ends([*words, "-o", "out"])
    asks(status == 1 and (case.path / "out" / MARK).exists(), "no mark behind a run that stopped at a fault")
    case.is_refused("a run that stopped at a fault")
    case.again([*case.run, "-o", "out"], "a run that stopped at a fault")
    before = sorted(os.listdir(case.path / "out"))
    (case.path / "none.pcap").write_bytes(b"no capture at all, but some octets")
    words = [word if word != "1.pcap" else "none.pcap" for word in case.run]
    asks(case.ends([*words, "-o", "out"])[0] == 1, "a text is taken for a capture")
    asks(sorted(os.listdir(case.path / "out")) == before, "a run that was refused leaves a mark")
    # A folder can be opened, and isn't read: no output is emptied for it.
    words = [word if word != "1.pcap" else "whole" for word in case.run]
    asks(case.ends([*words, "-o", "out"])[0] == 3, "a folder is taken for a capture")
    asks(case.is_whole() and not (case.path / "out" / MARK).exists(), "outputs are emptied for a capture that is a folder")
    # An output at a full device, and a merge of a part with other octets.
    case.fresh()
    (case.path / "out" / "port2.pcap").symlink_to("/dev/full")
    asks(case.ends([*case.run, "-o", "out"])[0] == 3 and (case.path / "out" / MARK).exists(), "no mark behind a full device")
    case.fresh()
    subprocess.run(["cp", "-r", "one", "broken"], cwd=case.path, check=True)
    octets = bytearray((case.path / "broken" / "port2.pcap").read_bytes())
    octets[-1] ^= 1
    (case.path / "broken" / "port2.pcap").write_bytes(octets)
    asks(case.ends(["merge", "-o", "out", "broken", "other"])[0] == 1, "other octets are merged")
    asks((case.path / "out" / MARK).exists(), "no mark behind a merge that was refused on its way")
    case.is_refused("a merge that was refused on its way")
    # Objects of an earlier run don't stay beside a run that stops at its first record.
    case.fresh()
    asks(case.ends([*case.run, "--json", "-o", "out"])[0] == 0, "no objects are written")
    (case.path / "first.pcap").write_bytes(HEADER + struct.pack("<IIII", 9000, 0, 262145, 262145))
    words = [word if word != "1.pcap" else "first.pcap" for word in case.run]
    asks(case.ends([*words, "--json", "-o", "out"])[0] == 1, "a record of too many octets is taken")
    objects = case.path / "out" / "decisions.jsonl"
    asks(not objects.exists() or not objects.read_bytes(), "objects of an earlier run stay")


def main():
    subprocess.run([TEP, "--version"], check=True, stdout=subprocess.DEVNULL)
    with tempfile.TemporaryDirectory() as name:
        case = Case(Path(name))
        run = [*case.run, "-o", "out"]
        merge = ["merge", "-o", "out", "one", "other"]
        counts = {f"{words[0]} by {how.name}": moments(case, words, how) for words in (run, merge) for how in SIGNALS}
        for what, count in counts.items():
            asks(count > 0, f"{what}: none was stopped while it wrote")
        at_outputs(case, run)
        within(case, run)
        within(case, merge)
        faults(case)
    for fault in FAULTS:
        print(f"tests/files/unended.py: {fault}")
    return 1 if FAULTS else 0


sys.exit(main())
