#!/usr/bin/env python3
"""Runs on captures that are made on the fly and never stand on disk.

A gate's run takes 64 MiB; LARGE=1 makes it 2 GiB, and MIB=n makes it n MiB."""
import os
import re
import shutil
import struct
import subprocess
import sys
import tempfile
import threading
import time
from pathlib import Path

TOP = Path(__file__).resolve().parent.parent.parent
TEP = os.environ.get("TEP", str(TOP / "tep"))
MIB = 1 << 20
HEADER = bytes.fromhex("4d3cb2a10200040000000000000000000000040001000000")
SETTINGS = TOP / "examples" / "a.toml"
# A frame of 60 octets to everybody, which leaves through two ports and to a remote.
FRAME = b"\xff" * 6 + bytes.fromhex("020000000001" "0806") + bytes(46)
SIZES = {"port1": 60, "port2": 60, "port3": 64, "underlay": 110}
OUTPUTS = [*(f"{name}.pcap" for name in SIZES), "decisions.txt"]
SENT = " p1 {} 10 p2=60 p3=64 192.0.2.2=110"


def record(second, octets, original=None):
    return struct.pack("<IIII", second, 0, len(octets), original or len(octets)) + octets


# A record as long as any, which is dropped: so a run of many octets writes little.
LONG = record(1, FRAME + bytes(262144 - len(FRAME)))


class Folder:
    """A folder with captures without records, and one for what comes out."""

    def __init__(self):
        self.path = Path(tempfile.mkdtemp())
        self.out = self.path / "out"
        self.out.mkdir()
        self.empty = self.path / "empty.pcap"
        self.empty.write_bytes(HEADER)

    def __enter__(self):
        return self

    def __exit__(self, *_):
        shutil.rmtree(self.path)

    def start(self, first, second=None, **how):
        """A run whose first port's capture is this file, and whose second's that, where there is one."""
        words = [TEP, "run", "--settings", SETTINGS, "--underlay", self.empty, "--out", self.out]
        return subprocess.Popen([*words, first, second or self.empty, self.empty], stderr=subprocess.PIPE, **how)

    def pipe(self, name):
        """A named pipe, and an end to write into it, which waits for no reader."""
        path = self.path / name
        os.mkfifo(path)
        return path, os.fdopen(os.open(path, os.O_RDWR), "wb", 0)

    def holds(self, lines, counts, what):
        """Until these lines stand in the outputs, ten seconds at most; and beside them so many records."""
        for _ in range(2000):
            if (self.out / "decisions.txt").exists() and self.lines() == lines:
                break
            time.sleep(0.005)
        asks(self.lines() == lines, f"{what}: {self.lines()} in place of {lines}")
        # its line comes last
        for name, size in SIZES.items():
            size = 24 + counts[name] * (16 + size)
            asks((self.out / f"{name}.pcap").stat().st_size == size, f"{what}: {name}")

    def lines(self):
        return (self.out / "decisions.txt").read_text().splitlines()


def ended(run):
    """The exit status and the first line on standard error: the fault, below which stands why."""
    said = run.stderr.read().decode().splitlines()
    return run.wait(), said[0] if said else ""


def asks(truth, what):
    if not truth:
        sys.exit(f"tests/run/large.py: {what}")


def peak_of(octets):
    """The most memory in KiB that a run on a pipe of so many octets held, and its lines."""
    read, write = os.pipe()
    with Folder() as folder:
        run = folder.start("/dev/stdin", stdin=read)
        os.close(read)
        with os.fdopen(write, "wb") as pipe:
            pipe.write(HEADER + record(0, FRAME))
            for _ in range(octets // len(LONG)):
                pipe.write(LONG)
            pipe.flush()
            # its own, where what the system tells of it at its end counts the program that started it too
            peak = re.search(r"VmHWM:\s+(\d+) kB", Path(f"/proc/{run.pid}/status").read_text())
        asks(ended(run) == (0, ""), f"a run on {octets} octets")
        return int(peak[1]), folder.lines()


def large():
    octets = int(os.environ.get("MIB", "2048" if os.environ.get("LARGE") else "64")) * MIB
    small, _ = peak_of(octets // 10)
    great, lines = peak_of(octets)
    asks(lines[0] == "1 0" + SENT.format(1), f"the first line is {lines[0]}")
    asks(len(lines) == octets // len(LONG) + 1, f"{len(lines)} lines")
    asks(lines[-1] == f"{len(lines)} 1000000000 p1 {len(lines)} - drop 1 TooLong", f"the last line is {lines[-1]}")
    asks(great <= small + 1024, f"{great} KiB for {octets} octets, {small} KiB for a tenth of them")
    print(f"{octets // MIB} MiB through a pipe: {great} KiB at most, and {small} KiB for a tenth of them")


def block(kind, body):
    """A block of a pcapng file."""
    body += bytes(-len(body) % 4)
    size = struct.pack("<I", len(body) + 12)
    return struct.pack("<I", kind) + size + body + size


# A section with an interface of link type Ethernet.
SECTION = block(0x0A0D0D0A, struct.pack("<IHHq", 0x1A2B3C4D, 1, 0, -1)) + block(1, struct.pack("<HHI", 1, 0, 0))


def packet(second, octets):
    """A record of a pcapng file, in microseconds."""
    moment = second * 1000000
    head = struct.pack("<IIIII", 0, moment >> 32, moment & 0xFFFFFFFF, len(octets), len(octets))
    return block(6, head + octets)


def waits_for(folder, count):
    """Until what comes of so many records stands in the outputs, ten seconds at most."""
    wanted = [f"{n} {n}000000000" + SENT.format(n) for n in range(1, count + 1)]
    sizes = {name: 24 + count * (16 + size) for name, size in (("port1", -16), ("port2", 60), ("port3", 64), ("underlay", 110))}
    for _ in range(2000):
        if (folder.out / "decisions.txt").exists() and folder.lines() == wanted:
            break
        time.sleep(0.005)
    asks(folder.lines() == wanted, f"of {count} records a held pipe gave {folder.lines()}")
    # its line comes last
    for name, size in sizes.items():
        asks((folder.out / f"{name}.pcap").stat().st_size == size, f"{name} of a held pipe behind {count} records")


def held(begin, record_of):
    """What comes of the events so far is out while a read of their pipe waits, though what stands behind them isn't: after
    each of many writes, of one record and of several."""
    read, write = os.pipe()
    with Folder() as folder:
        run = folder.start("/dev/stdin", stdin=read)
        os.close(read)
        with os.fdopen(write, "wb", 0) as pipe:
            count = 0
            left = begin
            for turn in range(200):
                more = turn % 3 * 4 + 1
                octets = left + b"".join(record_of(second, FRAME) for second in range(count + 1, count + more + 1))
                count += more
                # with a part of the next record's header behind it, or without
                part = turn % 2 * 9
                pipe.write(octets + record_of(count + 1, FRAME)[:part])
                waits_for(folder, count)
                asks(run.poll() is None, "a run ended while its pipe was open")
                left = b""
                if part > 0:
                    left = record_of(count + 1, FRAME)[part:]
                    count += 1
            # the last record isn't whole
            count -= 1
        asks(ended(run) == (0, ""), "a held pipe")
        lines = folder.lines()[count:]
        asks(lines == [f"cut p1 {count}"], f"a pipe that ends in mid-record: {lines}")


def held_pcap():
    held(HEADER, record)


def held_pcapng():
    held(SECTION, packet)


def line_of(number):
    """The line of event `number` where frames to everybody come by turns at ports 1 and 2, one a second."""
    if number % 2:
        return f"{number} {number}000000000" + SENT.format(number // 2 + 1)
    return f"{number} {number}000000000 p2 {number // 2} 10 p1=60 p3=64 192.0.2.2=110"


def counts_of(events):
    return {"port1": events // 2, "port2": events - events // 2, "port3": events, "underlay": events}


def by_turns():
    """Two pipes that are written by turns: behind each write all is out that is decided by then, which is all but its record."""
    with Folder() as folder:
        pipes = [folder.pipe("first"), folder.pipe("second")]
        run = folder.start(*(path for path, _ in pipes))
        for _, pipe in pipes:
            pipe.write(HEADER)
        for number in range(1, 101):
            pipes[(number + 1) % 2][1].write(record(number, FRAME))
            decided = [line_of(n) for n in range(1, number)]
            if decided:
                folder.holds(decided, counts_of(number - 1), f"two pipes by turns, behind record {number}")
            asks(run.poll() is None, "a run ended while its pipes were open")
        for _, pipe in pipes:
            pipe.close()
        asks(ended(run) == (0, ""), "two pipes by turns")
        folder.holds([line_of(n) for n in range(1, 101)], counts_of(100), "two pipes by turns, at their end")


def silent():
    """A pipe from which nothing comes any more: what was decided stands, also where the run is ended from outside."""
    with Folder() as folder:
        pipes = [folder.pipe("first"), folder.pipe("second")]
        run = folder.start(*(path for path, _ in pipes))
        pipes[0][1].write(HEADER + b"".join(record(second, FRAME) for second in (1, 3, 5, 7)))
        pipes[1][1].write(HEADER + record(2, FRAME))
        folder.holds([line_of(1), line_of(2)], counts_of(2), "a silent pipe")
        time.sleep(0.2)
        asks(run.poll() is None, "a run ended while a pipe was silent")
        run.terminate()
        run.wait()
        folder.holds([line_of(1), line_of(2)], counts_of(2), "a run that was ended at a silent pipe")
        for _, pipe in pipes:
            pipe.close()


def left_by_its_reader():
    """An output whose reader goes away while an input is a pipe."""
    with Folder() as folder:
        path, pipe = folder.pipe("first")
        os.mkfifo(folder.out / "port3.pcap")
        reader = os.open(folder.out / "port3.pcap", os.O_RDONLY | os.O_NONBLOCK)
        run = folder.start(path)
        pipe.write(HEADER)
        begun = b""
        for _ in range(2000):
            try:
                begun += os.read(reader, 24 - len(begun))
            except BlockingIOError:
                pass
            if len(begun) == 24:
                break
            time.sleep(0.005)
        asks(begun[:4] == HEADER[:4], f"an output begins with {begun}")
        os.close(reader)
        pipe.write(record(1, FRAME))
        asks(ended(run) == (3, "write port3.pcap"), "an output whose reader went away")
        asks(folder.lines() == [], f"an event of which a record wasn't written has {folder.lines()}")
        pipe.close()


def same_as_file():
    """A pipe that ends in mid-record, a FIFO and a file give the same."""
    octets = HEADER + record(1, FRAME) + record(2, FRAME)[:30]
    with Folder() as folder:
        file, fifo = folder.path / "file.pcap", folder.path / "fifo"
        file.write_bytes(octets)
        asks(ended(folder.start(file)) == (0, ""), "a cut file")
        of_file = {path.name: path.read_bytes() for path in folder.out.iterdir()}
        os.mkfifo(fifo)
        run = folder.start(fifo)
        writer = threading.Thread(target=fifo.write_bytes, args=(octets,))
        writer.start()
        asks(ended(run) == (0, ""), "a FIFO")
        writer.join()
        asks(of_file == {path.name: path.read_bytes() for path in folder.out.iterdir()}, "a FIFO and a file")
        asks(folder.lines()[-1] == "cut p1 1", "a cut file's last line")


def part_of(folder, count):
    """A part with all segments of a run on so many frames, by turns at ports 1 and 2, and what its outputs hold."""
    part, first, second = (folder.path / name for name in ("part", "first.pcap", "second.pcap"))
    part.mkdir()
    for file, begin in ((first, 1), (second, 2)):
        file.write_bytes(HEADER + b"".join(record(number, FRAME) for number in range(begin, count + 1, 2)))
    words = [TEP, "run", "--settings", SETTINGS, "--underlay", folder.empty, "--out", part, "--segments", "all"]
    subprocess.run([*words, first, second, folder.empty], check=True)
    return part, {name: (part / name).read_bytes() for name in OUTPUTS}


def in_place(file):
    """A named pipe in place of a file, and an end to write into it, which waits for no reader."""
    file.unlink()
    os.mkfifo(file)
    return os.fdopen(os.open(file, os.O_RDWR), "wb", 0)


def merged():
    """A part whose capture of port 3 is a pipe: behind each record that is given all is out that can be merged by then."""
    with Folder() as folder:
        part, octets = part_of(folder, 100)
        pipe = in_place(part / "port3.pcap")
        merge = subprocess.Popen([TEP, "merge", "--out", folder.out, part], stderr=subprocess.PIPE)
        pipe.write(octets["port3.pcap"][:24])
        for number in range(1, 101):
            pipe.write(octets["port3.pcap"][24 + (number - 1) * 80 : 24 + number * 80])
            # of the next event the record in front of port 3's
            counts = counts_of(number) | {port: counts_of(min(number + 1, 100))[port] for port in ("port1", "port2")}
            stands(folder, number, counts)
            asks(merge.poll() is None, "a merge ended while its pipe was open")
        pipe.close()
        asks(ended(merge) == (0, ""), "a merge of a pipe")
        asks(octets == {name: (folder.out / name).read_bytes() for name in OUTPUTS}, "a merge of a pipe and its part")


def stands(folder, lines, counts):
    """Until so many lines and records stand in the outputs, ten seconds at most."""
    sizes = {f"{name}.pcap": 24 + counts[name] * (16 + size) for name, size in SIZES.items()}
    for _ in range(2000):
        if (folder.out / "decisions.txt").exists() and len(folder.lines()) == lines:
            if sizes == {name: (folder.out / name).stat().st_size for name in sizes}:
                break
        time.sleep(0.005)
    asks(folder.lines() == [line_of(number) for number in range(1, lines + 1)], f"behind record {lines}: {folder.lines()}")
    found = {name: (folder.out / name).stat().st_size for name in sizes}
    asks(found == sizes, f"behind record {lines}: {found} in place of {sizes}")


def at_the_end():
    """What `explain` and `digest` print of a pipe they print at its end, all of it, and it's what they print of a file."""
    parts = [HEADER, record(1, FRAME), record(2, FRAME)]
    with Folder() as folder:
        file = folder.path / "file.pcap"
        file.write_bytes(b"".join(parts))
        for words in (["explain", "--settings", SETTINGS], ["digest", "--underlay", folder.empty]):
            of_file = subprocess.run([TEP, *words, file], check=True, stdout=subprocess.PIPE).stdout
            path, pipe = folder.pipe(words[0])
            run = subprocess.Popen([TEP, *words, path], stdout=subprocess.PIPE)
            os.set_blocking(run.stdout.fileno(), False)
            for part in parts:
                pipe.write(part)
                time.sleep(0.1)
                asks(run.poll() is None and run.stdout.read() is None, f"{words[0]} before the end of its pipe")
            pipe.close()
            asks(run.wait() == 0, f"{words[0]} of a pipe")
            asks(run.stdout.read() == of_file != b"", f"{words[0]} of a pipe and of a file")


def faulty():
    """Behind a record with a fault stand the events before it, whole."""
    with Folder() as folder:
        file = folder.path / "faulty.pcap"
        file.write_bytes(HEADER + record(1, FRAME) * 300 + struct.pack("<IIII", 1, 0, 262145, 262145))
        asks(ended(folder.start(file)) == (1, "p1: TooLarge 301"), "a record with a fault")
        asks(len(folder.lines()) == 300, f"{len(folder.lines())} lines before a fault")
        for name, size in (("port1", 0), ("port2", 300 * 76), ("port3", 300 * 80), ("underlay", 300 * 126)):
            asks((folder.out / f"{name}.pcap").stat().st_size == 24 + size, f"{name} before a fault")


def full():
    """A device that is full in mid-run."""
    with Folder() as folder:
        file = folder.path / "many.pcap"
        file.write_bytes(HEADER + record(1, FRAME) * 3000)
        (folder.out / "underlay.pcap").symlink_to("/dev/full")
        asks(ended(folder.start(file)) == (3, "write underlay.pcap"), "a full device")
        asks(len(folder.lines()) < 3000, "a run that goes on behind a full device")


def calls_of(folder, name, **how):
    """The reads and the writes of a run on 20,000 events of a capture, as strace counts them."""
    counted = folder.path / "counted"
    words = ["strace", "-f", "-c", "-o", counted, TEP, "run", "--settings", SETTINGS, "--underlay", folder.empty]
    run = subprocess.run([*words, "--out", folder.out, name, folder.empty, folder.empty], **how)
    asks(run.returncode == 0 and len(folder.lines()) == 20000, "a run under strace")
    return moved_in(counted)


def merge_calls_of(folder, part, octets=None):
    """The same of a merge of a part of 20,000 events, whose capture of port 3 is a pipe where its octets are given."""
    counted = folder.path / "counted"
    writer = threading.Thread(target=lambda: octets and (part / "port3.pcap").write_bytes(octets))
    writer.start()
    merge = subprocess.run(["strace", "-f", "-c", "-o", counted, TEP, "merge", "--out", folder.out, part])
    writer.join()
    asks(merge.returncode == 0 and len(folder.lines()) == 20000, "a merge under strace")
    return moved_in(counted)


def moved_in(counted):
    """The reads and the writes that strace counted."""
    rows = [row.split() for row in counted.read_text().splitlines() if row[:1] == " "]
    moved = {row[-1]: int(row[3]) for row in rows if row[0] != "100.00"}
    return moved.get("read", 0) + moved.get("write", 0)


def calls():
    """System calls an event, where strace counts them: of a file, and of a pipe whose writer doesn't wait."""
    if not shutil.which("strace"):
        return print("there is no strace: no system calls are counted")
    with Folder() as folder:
        file = folder.path / "many.pcap"
        file.write_bytes(HEADER + record(1, FRAME) * 20000)
        of_file = calls_of(folder, file)
        with subprocess.Popen(["cat", file], stdout=subprocess.PIPE) as cat:
            of_pipe = calls_of(folder, "/dev/stdin", stdin=cat.stdout)
        for count, what in ((of_file, "a file"), (of_pipe, "a pipe")):
            asks(count <= 4000, f"{count} reads and writes for 20000 events of {what}")
            print(f"{count} reads and writes for 20000 events of {what} with 3 emissions each")
    with Folder() as folder:
        part, octets = part_of(folder, 20000)
        of_files = merge_calls_of(folder, part)
        in_place(part / "port3.pcap").close()
        of_pipe = merge_calls_of(folder, part, octets["port3.pcap"])
        for count, what in ((of_files, "files"), (of_pipe, "files and a pipe")):
            asks(count <= 4000, f"{count} reads and writes for a merge of 20000 events of {what}")
            print(f"{count} reads and writes for a merge of 20000 events of {what} with 3 emissions each")


def main():
    subprocess.run([TEP, "--version"], check=True, stdout=subprocess.DEVNULL)
    of_pipes = (held_pcap, held_pcapng, by_turns, silent, left_by_its_reader, same_as_file, merged, at_the_end)
    for test in (*of_pipes, faulty, full, calls, large):
        test()


main()
