#!/usr/bin/env python3
"""Captures as compare.py makes them, some of whose frames go to addresses that no bridge forwards (IEEE 802.1Q, table 8-1), compared
by ./tep with `--ignore reserved` and by the plain matcher of compare.py, which is handed the other frames. Usage:
compare_ignored.py TEP FOLDER COUNT; prints what differs, and exits 1 where something does."""
import random
import sys

from compare import end_lines, in_parts, made, parts_of, report, rising, told, up_to_fault, write

RESERVED = bytes.fromhex("0180c20000")


def is_reserved(content):
    """Whether a frame goes to 01-80-C2-00-00-00 to 01-80-C2-00-00-0F."""
    octets, _ = parts_of(content)
    return len(octets) >= 14 and octets[:5] == RESERVED and octets[5] < 16


def sent_to(address, content):
    """The same record to another address."""
    octets, original = parts_of(content)
    readdressed = (address + octets[6:])[: len(octets)]
    return readdressed if isinstance(content, bytes) else (readdressed, original)


def readdressed(chance, sent, received):
    """The records, where of some frames all go to an address at or near those that no bridge forwards."""
    to = {}
    for _, content in sent + received:
        if content not in to:
            near = RESERVED + bytes([chance.choice([0, 2, 14, 15, 16, 255])])
            to[content] = near if chance.random() < 0.4 else parts_of(content)[0][:6]
    return ([(moment, sent_to(to[content], content)) for moment, content in side] for side in (sent, received))


def sifted(records):
    """The other records, each at the greatest moment up to it of all."""
    return [(moment, content) for moment, content in rising(records) if not is_reserved(content)]


def main():
    tep, folder, count = sys.argv[1], sys.argv[2], int(sys.argv[3])
    wrong = 0
    for seed in range(count):
        chance = random.Random(f"ignored {seed}")
        sent, received, within, shift, ends = made(chance)
        sent, received = readdressed(chance, sent, received)
        write(f"{folder}/sent.pcap", sent, ends[0])
        write(f"{folder}/received.pcap", received, ends[1])
        sent, received, fault = up_to_fault(sent, received, within, shift, ends)
        compared = sifted(sent), sifted(received)
        wanted = report(*compared, within, shift)
        aside = [f"sent left aside {len(sent) - len(compared[0])}", f"received left aside {len(received) - len(compared[1])}"]
        said = fault or ("what was received isn't what was sent" if wanted[0] or wanted[1] else None)
        printed, status, told_of = told(tep, folder, within, shift, "--list", "--by", "length", "--ignore", "reserved")
        plain = told(tep, folder, within, shift, "--ignore", "reserved")[0].splitlines()
        found = in_parts(printed), plain, status, told_of
        are_cut = end_lines(ends, fault)
        lists = (*wanted[:3], aside + wanted[3] + are_cut)
        if found != (lists, wanted[2] + aside + are_cut, 1 if said else 0, f"{said}\n" if said else ""):
            wrong += 1
            print(f"seed {seed}: status {status}, printed\n{printed}{told_of}wanted\n{lists}{said}")
            if wrong == 3:
                break
    sys.exit(1 if wrong else 0)


if __name__ == "__main__":
    main()
