"""Command lines over files in a folder of their own, each with its status and what it writes."""
import pathlib
import sys
import tempfile

import runs

FAULTS = []

# Two local ports in one segment without remotes.
SETTINGS = b"""version = 1
[underlay]
mac = "02:00:00:00:aa:01"
next_hop = "02:00:00:00:aa:fe"
ip4 = "192.0.2.1"
[[port]]
pvid = 10
[[port]]
pvid = 10
[[segment]]
vid = 10
vni = 5000
tunnel = "vxlan"
untagged = [1, 2]
"""

# A capture of one frame of 14 octets at 1 s.
ONE_FRAME = runs.octets("PCAP 01000000 00000000 0E000000 0E000000 ALL M1 0806")

# The files that the lines name; the last has a rest of three octets behind its record.
INPUTS = {
    "settings": SETTINGS,
    "empty": runs.octets("PCAP"),
    "one": ONE_FRAME,
    "cut": ONE_FRAME + b"\x01\0\0",
}

# The files that the run writes: what the rules say of a frame of 14 octets at each of two ports, and of what was cut behind
# one.
OUTPUTS = {
    "port1.pcap": ONE_FRAME,
    "port2.pcap": ONE_FRAME,
    "underlay.pcap": runs.octets("PCAP"),
    "decisions.txt": b"1 1000000000 p1 1 10 p2=14\n2 1000000000 p2 1 10 p1=14\ncut p2 1\n",
}

# Lines that write nothing, and their statuses.
STATUSES = [
    ("", 0),
    ("--help", 0),
    ("--version", 0),
    ("nothing", 2),
    ("run", 2),
    ("check --settings settings", 0),
    ("check --settings one", 1),
    ("check --settings none", 3),
    ("run --settings settings --underlay empty --out . one", 1),
    ("run --settings settings --underlay empty --out . one settings", 1),
    ("run --settings settings --underlay none --out . one cut", 3),
    ("run --settings settings --underlay empty --out none one cut", 3),
]

RUN = "run --settings settings --underlay empty --out . one cut"


def expect_status(folder, line, wanted):
    status = runs.ends(line.split(), folder=folder).returncode
    if status != wanted:
        FAULTS.append(f"tep {line}: status {status} in place of {wanted}")


def main():
    with tempfile.TemporaryDirectory() as name:
        folder = pathlib.Path(name)
        for file, octets in INPUTS.items():
            (folder / file).write_bytes(octets)
        for line, wanted in STATUSES:
            expect_status(folder, line, wanted)
        for file in folder.iterdir():
            # A run that is refused leaves its files empty, or none.
            if file.name not in INPUTS and file.read_bytes():
                FAULTS.append(f"{file.name} is written before the run")
        expect_status(folder, RUN, 0)
        for file, wanted in OUTPUTS.items():
            if (folder / file).read_bytes() != wanted:
                FAULTS.append(f"{file} has other octets")
    for fault in FAULTS:
        print(f"tests/files/statuses.py: {fault}")
    return 1 if FAULTS else 0


sys.exit(main())
