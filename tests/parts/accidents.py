#!/usr/bin/env python3
"""accidents.py FOLDER: a part whose captures are changed by accidents that cancel each other in a plain sum, or in one modulo a
power of two, is refused by a merge, each with the name of the output.

Frames of 512 octets with their records, alike but for a number in their last octets: so blocks that are exchanged differ in few
bits, which is hard for sums."""
import os
import pathlib
import struct
import subprocess
import sys

TOP = pathlib.Path(__file__).resolve().parent.parent.parent
TEP = os.environ.get("TEP", str(TOP / "tep"))
HEADER = bytes.fromhex("4d3cb2a10200040000000000000000000000040001000000")
FAULTS = []


def frame(number):
    """A frame of 496 octets to everybody, whose last two are its number."""
    return b"\xff" * 6 + bytes.fromhex("020000000001" "0806") + bytes(480) + struct.pack(">H", number)


def capture():
    """512 records of 512 octets, in seconds that rise."""
    return HEADER + b"".join(struct.pack("<IIII", 1, 0, 496, 496) + frame(number) for number in range(512))


def ends(folder, *words):
    ended = subprocess.run([TEP, *words], cwd=folder, stdout=subprocess.PIPE, stderr=subprocess.PIPE)
    return ended.returncode, ended.stderr.decode().splitlines()


def turned(octets, places, bit):
    """The same octets with this bit of some of them turned."""
    octets = bytearray(octets)
    for place in places:
        octets[place] ^= 1 << bit
    return bytes(octets)


def stuck(octets, bit):
    """The same with this bit of the last octet of each word of eight set from the middle on, within the zeros of frames."""
    middle = len(octets) // 2
    places = range(middle - middle % 8 + 7, len(octets), 8)
    return turned(octets, [place for place in places if 100 < (place - 24) % 512 < 500], bit)


def exchanged(octets, first, other, size):
    """The same with two blocks exchanged."""
    front, middle = octets[:first], octets[first + size : other]
    return front + octets[other : other + size] + middle + octets[first : first + size] + octets[other + size :]


def accidents(octets):
    """What accidents make of a capture. All records have one moment and one length, so that a capture with blocks exchanged is one."""
    yield "the highest bit of two words whose numbers have an even sum", turned(octets, (247, 263), 7)
    yield "the highest bit of two words far apart", turned(octets, (247, 247 + 8 * 4096), 7)
    yield "each bit of two words", turned(turned(octets, (247, 263), 0), (246, 262), 3)
    for bit in range(8):
        yield f"a line of bit {bit} that is stuck at one", stuck(octets, bit)
    yield "blocks of 512 octets, 2,048 apart", exchanged(octets, 24 + 512, 24 + 512 + 2048, 512)
    yield "blocks of 1,024 octets, 65,536 apart", exchanged(octets, 24, 24 + 65536, 1024)
    yield "two words exchanged", exchanged(octets, 24 + 512 * 3 - 8, 24 + 512 * 40 - 8, 8)
    for place in range(100, len(octets), 40_009):
        yield f"an octet at {place}", turned(octets, (place,), place % 8)


def main():
    folder = pathlib.Path(sys.argv[1]) / "accidents"
    folder.mkdir()
    (folder / "settings.toml").write_text((TOP / "examples" / "a.toml").read_text())
    (folder / "1.pcap").write_bytes(capture())
    (folder / "empty.pcap").write_bytes(HEADER)
    run = ["run", "-s", "settings.toml", "-u", "empty.pcap", "1.pcap", "empty.pcap", "empty.pcap"]
    for name, segments in (("one", "1-15"), ("other", "16-4094,none")):
        (folder / name).mkdir()
        status, said = ends(folder, *run, "-o", name, "--segments", segments)
        if status != 0:
            sys.exit(f"tests/parts/accidents.py: status {status}, {said}")
    (folder / "out").mkdir()
    output = folder / "one" / "port2.pcap"
    whole = output.read_bytes()
    if len(whole) < 100_000:
        sys.exit(f"tests/parts/accidents.py: port2.pcap has {len(whole)} octets")
    wanted = ["part one: port2.pcap has other octets than shard.txt says", "  run the part again"]
    for what, octets in accidents(whole):
        if octets == whole or len(octets) != len(whole):
            FAULTS.append(f"{what} is no accident")
        output.write_bytes(octets)
        status, said = ends(folder, "merge", "-o", "out", "one", "other")
        if status != 1 or [line for line in said if "earlier run" not in line] != wanted:
            FAULTS.append(f"{what}: status {status}, {said}")
    for fault in FAULTS:
        print(f"tests/parts/accidents.py: {fault}")
    return 1 if FAULTS else 0


sys.exit(main())
