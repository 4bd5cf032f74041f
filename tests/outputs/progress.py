#!/usr/bin/env python3
"""Runs that last, with a terminal as their standard error: each line that they show, and that none is left.

A record of 60 octets takes 76 in a capture, and record n is n seconds late: so each number of a line but the rate follows from how
many events it tells. A run looks at the clock each 4,096 events, and shows no line within its first second."""
import os
import pty
import re
import struct
import subprocess
import sys
import tempfile
import threading
import time
from pathlib import Path

TOP = Path(__file__).resolve().parent.parent.parent
TEP = os.environ.get("TEP", str(TOP / "tep"))
HEADER = bytes.fromhex("4d3cb2a10200040000000000000000000000040001000000")
SETTINGS = """version = 1
[underlay]
mac = "02:00:00:00:aa:01"
next_hop = "02:00:00:00:aa:fe"
ip4 = "192.0.2.1"
[[port]]
pvid = 10
[[port]]
pvid = 10
[[segment]]
vid = 10
vni = 5000
tunnel = "vxlan"
untagged = [1, 2]
"""
FRAME = b"\xff" * 6 + bytes.fromhex("020000000001" "0806") + bytes(46)
LENGTH = 16 + len(FRAME)
# A record with a fault.
FAULTY = struct.pack("<IIII", 2_000_000_000, 0, 262_145, 262_145)
A_LOOK = 4_096
TAKEN_AWAY = b"\r\x1b[K"
LINE = re.compile(
    rb"\r (?:(?P<share>\d+) %|(?P<octets>\d+) octets), (?P<events>\d+) events, (?P<rate>\d+) a second, at (?P<moment>\d+)\.0{9} s\x1b\[K"
)
failures = []


def asks(truth, what):
    if not truth:
        failures.append(what)
        print(f"tests/outputs/progress.py: {what}")


def records(first, count):
    """So many records of a frame for everybody, from this number on."""
    return b"".join(struct.pack("<IIII", n, 0, len(FRAME), len(FRAME)) + FRAME for n in range(first, first + count))


def feed(pipe, seconds, behind=b""):
    """Gives a capture to a pipe over so many seconds, 2,048 records each 40 ms, and then what stands behind it."""
    begun, count = time.monotonic(), 0
    try:
        pipe.write(HEADER)
        while time.monotonic() - begun < seconds:
            pipe.write(records(count + 1, 2_048))
            pipe.flush()
            count += 2_048
            time.sleep(0.04)
        pipe.write(behind)
        pipe.close()
    except BrokenPipeError:
        pass


def drain(path, pause):
    """Takes all that is written to a pipe, 65,536 octets at a time, with a pause behind each."""
    with open(path, "rb", 0) as pipe:
        while pipe.read(65_536):
            time.sleep(pause)


class Run:
    """A run in a folder of its own, whose standard error is a terminal, a pipe or a file."""

    def __init__(self, what, error="terminal", words=(), port1="-", port2=HEADER, status=0):
        self.what, self.error, self.status = what, error, status
        self.home = tempfile.TemporaryDirectory()
        self.folder = Path(self.home.name)
        (self.folder / "out").mkdir()
        (self.folder / "settings").write_text(SETTINGS)
        (self.folder / "underlay").write_bytes(HEADER)
        captures = []
        for name, octets in (("port1", port1), ("port2", port2)):
            if octets == "-":
                captures.append("-")
            else:
                (self.folder / name).write_bytes(octets)
                captures.append(name)
        self.command = [TEP, "run", "-s", "settings", "-u", "underlay", "-o", "out", *words, *captures]
        self.shown, self.first = b"", None

    def listen(self, reader):
        """Keeps what is written to standard error, and when the first of it came."""
        while True:
            try:
                octets = os.read(reader, 65_536)
            except OSError:
                # a terminal that nobody has open any more
                break
            if not octets:
                break
            self.first = self.first or time.monotonic()
            self.shown += octets
        os.close(reader)

    def begin(self, feeding=None, draining=None):
        """Starts it, with what feeds its standard input and what drains its outputs."""
        threads = []
        kept = self.folder / "stderr"
        if self.error == "file":
            writer = os.open(kept, os.O_CREAT | os.O_WRONLY)
        else:
            reader, writer = pty.openpty() if self.error == "terminal" else os.pipe()
            threads.append(threading.Thread(target=self.listen, args=(reader,)))
        if draining:
            threads.append(threading.Thread(target=draining))
        self.begun = time.monotonic()
        stdin = subprocess.PIPE if feeding else subprocess.DEVNULL
        self.process = subprocess.Popen(self.command, cwd=self.folder, stdin=stdin, stdout=subprocess.PIPE, stderr=writer)
        os.close(writer)
        if feeding:
            threads.append(threading.Thread(target=feeding, args=(self.process.stdin,)))
        self.threads = threads
        for thread in threads:
            thread.start()
        return self

    def end(self):
        """Waits for its end, and answers what was written to standard error."""
        printed = self.process.stdout.read()
        status = self.process.wait()
        self.took = time.monotonic() - self.begun
        for thread in self.threads:
            thread.join()
        if self.error == "file":
            self.shown = (self.folder / "stderr").read_bytes()
        asks(status == self.status, f"{self.what}: status {status}, and {self.shown[-200:]}")
        asks(printed == b"", f"{self.what}: it prints {printed[:200]}")
        self.home.cleanup()
        return self.shown

    def lines(self, behind=b""):
        """The lines that it shows: one over the last, and then that is taken away, with a text of this pattern behind."""
        shown = self.end()
        lines, place = [], 0
        while line := LINE.match(shown, place):
            lines.append(line)
            place = line.end()
        left = shown[place:]
        asks(re.fullmatch(re.escape(TAKEN_AWAY) + behind, left), f"{self.what}: behind {len(lines)} lines it writes {left[:200]}")
        if not lines:
            asks(False, f"{self.what}: it shows no line in {self.took:.1f} s")
            return []
        asks(self.first - self.begun >= 1, f"{self.what}: it shows a line after {self.first - self.begun:.2f} s")
        most = int((self.took - 1) / 0.2) + 1
        asks(len(lines) <= most, f"{self.what}: it shows {len(lines)} lines in {self.took:.1f} s")
        for line in lines:
            events, rate = int(line["events"]), int(line["rate"])
            asks(events > 0 and events % A_LOOK == 0, f"{self.what}: a line after {events} events")
            asks(int(line["moment"]) == events, f"{self.what}: event {events} is at {line['moment']}")
            asks(events / self.took - 1 <= rate <= events, f"{self.what}: {events} events in {self.took:.1f} s are {rate} a second")
        told = [int(line["events"]) for line in lines]
        asks(told == sorted(set(told)), f"{self.what}: the events don't rise: {told}")
        return lines


def tells_octets(run, behind=b""):
    """A run that reads something else than regular files: the octets that were read."""
    for line in run.lines(behind):
        events, octets = int(line["events"]), line["octets"]
        asks(octets is not None and int(octets) == events * LENGTH, f"{run.what}: {events} events, and {line[0]}")


def tells_shares(run, total):
    """A run over regular files of so many octets together: the share that was read, which rises and is below 100."""
    shares = []
    for line in run.lines():
        events = int(line["events"])
        asks(line["share"] is not None, f"{run.what}: {line[0]}")
        shares.append(int(line["share"] or 0))
        asks(shares[-1] == min(events * LENGTH * 100 // total, 99), f"{run.what}: {events} events, and {line[0]}")
    asks(shares == sorted(shares) and len(set(shares)) > 1, f"{run.what}: its shares don't rise: {shares}")
    asks(max(shares, default=0) < 100, f"{run.what}: a share of {max(shares, default=0)} while it goes")


def slowly(pipe):
    feed(pipe, 2.4)


def slowly_to_a_fault(pipe):
    feed(pipe, 2.4, FAULTY)


def main():
    fed = Run("a pipe that is fed slowly").begin(slowly)
    stopped = Run("a pipe that ends with a fault", status=1).begin(slowly_to_a_fault)
    silent = [
        Run("--quiet", words=["--quiet"]).begin(slowly),
        Run("a pipe as standard error", error="pipe").begin(slowly),
        Run("a file as standard error", error="file").begin(slowly),
        Run("a short run", port1=HEADER + records(1, 20_000)).begin(),
    ]
    capture = HEADER + records(1, 120_000)
    whole = Run("regular files", port1=HEADER, port2=capture)
    pipe = whole.folder / "out" / "port1.pcap"
    os.mkfifo(pipe)
    whole.begin(draining=lambda: drain(pipe, 0.02))
    tells_octets(fed)
    tells_octets(stopped, rb"p1: TooLarge \d+\r\n")
    for run in silent:
        shown = run.end()
        asks(shown == b"", f"{run.what}: {shown[:200]}")
    tells_shares(whole, len(capture) + 2 * len(HEADER))
    sys.exit(1 if failures else 0)


main()
