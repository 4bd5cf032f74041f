#!/usr/bin/env python3
"""What `tep run` costs: instructions and system calls an event, and the most memory. It is no test.

    bench/run_cost.py [LOAD ..]     the loads of loads.py, by default all

Instructions are those of the events between a run of 10,000 and one of 20,000, as valgrind's callgrind counts them: they
don't depend on what else the machine does. Memory is told of 20,000 and of 200,000 events. System calls are counted by
strace. Where valgrind or strace is missing, a dash stands in place of its figure. TEP names another program than ./tep."""
import os
import re
import shutil
import subprocess
import sys
import tempfile
import time
from pathlib import Path

import loads

TEP = os.environ.get("TEP", str(Path(__file__).resolve().parent.parent / "tep"))
FEW, MORE, MANY = 10_000, 20_000, 200_000
# Vector moves in place of repeated ones, of which callgrind counts each turn.
PLAIN_MOVES = "glibc.cpu.x86_rep_stosb_threshold=100000000:glibc.cpu.x86_rep_movsb_threshold=100000000"


def words(folder):
    (folder / "out").mkdir(exist_ok=True)
    captures = [folder / f"port{n}.pcap" for n in (1, 2, 3)]
    return [TEP, "run", "--settings", folder / "settings.toml", "--underlay", folder / "underlay.pcap", "--out", folder / "out", *captures]


def instructions(folder):
    counting = ["valgrind", "--tool=callgrind", "--trace-children=yes", f"--callgrind-out-file={folder}/callgrind.%p"]
    environment = dict(os.environ, GLIBC_TUNABLES=PLAIN_MOVES)
    run = subprocess.run([*counting, *words(folder)], env=environment, stderr=subprocess.PIPE, text=True)
    counts = [int(count) for count in re.findall(r"Collected : (\d+)", run.stderr)]
    if run.returncode or not counts:
        sys.exit(f"callgrind: {run.stderr[-300:]}")
    return max(counts)


def calls(folder):
    subprocess.run(["strace", "-f", "-c", "-o", folder / "calls", *words(folder)], check=True)
    rows = [row.split() for row in (folder / "calls").read_text().splitlines()]
    return sum(int(row[3]) for row in rows if row and row[-1] in ("read", "write", "lseek"))


def peak(folder):
    """The most memory in MiB, looked at until the run ends."""
    run, most = subprocess.Popen(words(folder)), 0
    while run.poll() is None:
        # its own, where what the system tells of it at its end counts the program that started it too
        told = re.search(r"VmHWM:\s+(\d+) kB", Path(f"/proc/{run.pid}/status").read_text())
        most = max(most, int(told[1]) if told else 0)
        time.sleep(0.001)
    if run.returncode:
        sys.exit(f"a run ended with {run.returncode}")
    return most / 1024


def cost(name, top):
    folders = {}
    for events in (FEW, MORE, MANY):
        folders[events] = top / f"{name}-{events}"
        loads.write(folders[events], name, events)
    told = [f"{name:14}"]
    if shutil.which("valgrind"):
        told.append(f"{(instructions(folders[MORE]) - instructions(folders[FEW])) / (MORE - FEW):12.0f}")
    else:
        told.append(f"{'-':>12}")
    told.append(f"{calls(folders[MANY]) / MANY:12.2f}" if shutil.which("strace") else f"{'-':>12}")
    told.append(f"{peak(folders[MORE]):12.1f}{peak(folders[MANY]):12.1f}")
    print("".join(told), flush=True)


def main(names):
    subprocess.run([TEP, "--version"], check=True, stdout=subprocess.DEVNULL)
    print(f"{'load':14}{'instructions':>12}{'calls':>12}{'MiB few':>12}{'MiB many':>12}")
    for name in names or loads.LOADS:
        with tempfile.TemporaryDirectory() as top:
            cost(name, Path(top))


main(sys.argv[1:])
