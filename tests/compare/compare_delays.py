#!/usr/bin/env python3
"""Captures of which each record that is received has octets of its own and a delay that is chosen here: what `tep compare --by
delay` prints of them is what sorted lists of the delays tell. Usage: compare_delays.py TEP FOLDER; prints what differs, and exits
1 where something does."""
import random
import subprocess
import sys

from compare import behind_line, write

STEPS = 1 << 22


def by_rank(delays, hundredths, earliest, step):
    """Of the delays the one by the nearest rank, rounded down to whole steps from the earliest that may be."""
    rank = -(-len(delays) * hundredths // 100)
    delay = sorted(delays)[rank - 1]
    return delay - (delay - earliest) % step


def lines(delays, within, is_shifted):
    """What is printed behind the counts."""
    if not delays:
        return ["delays 0"]
    earliest = -within if is_shifted else 0
    step = (within - earliest) // STEPS + 1
    told = {
        "least": min(delays),
        "median": by_rank(delays, 50, earliest, step),
        "99 in 100": by_rank(delays, 99, earliest, step),
        "greatest": max(delays),
        "step": step,
    }
    return [f"delays {len(delays)}"] + [f"delay {name} {number}" for name, number in told.items()]


def compared(tep, folder, delays, lost, shift, words):
    """What is printed of records with these delays, and of some more that are lost, where the clock is so much ahead, and the line of
    those that are behind another."""
    start = 10_000_000_000
    sent = [(start + 1000 * number, number.to_bytes(60, "big")) for number in range(len(delays) + lost)]
    received = [(moment + delay + shift, octets) for (moment, octets), delay in zip(sent, delays)]
    received.sort(key=lambda record: record[0])
    both = [(int.from_bytes(octets, "big"), number) for number, (_, octets) in enumerate(received)]
    write(f"{folder}/delays_sent.pcap", sent)
    write(f"{folder}/delays_received.pcap", received)
    done = subprocess.run(
        [tep, "compare", "--by", "delay", *words, f"{folder}/delays_sent.pcap", f"{folder}/delays_received.pcap"],
        capture_output=True,
        text=True,
    )
    return done.stdout.splitlines(), behind_line(sent, both)


def main():
    tep, folder = sys.argv[1:]
    made = random.Random(66)
    rows = [
        ([], 3, None, 1_000_000_000, []),
        ([0], 0, None, 1_000_000_000, []),
        ([1_000_000_000], 0, None, 1_000_000_000, []),
        ([238, 239, 240, 478], 1, None, 1_000_000_000, []),
        ([5, 1, 4, 2, 3], 0, None, 4_194_303, ["--within", "4194303ns"]),
        ([5, 1, 4, 2], 0, None, 4_194_304, ["--within", "4194304ns"]),
        ([7] * 99 + [9], 0, None, 1_000_000, ["--within", "1ms"]),
        ([7] * 98 + [9] * 2, 0, None, 1_000_000, ["--within", "1ms"]),
        ([7] * 100 + [9], 0, None, 1_000_000, ["--within", "1ms"]),
        ([-1200, 0, 1200], 0, 5_000_000, 2_000_000, ["--within", "2ms", "--shift", "5ms"]),
        ([-1200, -1000, 1200, 1100], 0, 500_000, 2_000_000, ["--within", "2ms", "--shift", "500us"]),
        ([-1_000_000, 1_000_000], 0, -500_000, 1_000_000, ["--within", "1ms", "--shift=-500us"]),
        ([-999_999_999, 12_345, 67_891], 0, 0, 1_000_000_000, ["--shift", "0s"]),
    ]
    for _ in range(20):
        within = made.choice([1_000_000, 20_000_000, 1_000_000_000])
        most = made.choice([10, 5000, within])
        delays = [made.randint(0, most) for _ in range(made.randint(1, 400))]
        rows.append((delays, made.randint(0, 5), None, within, ["--within", f"{within}ns"]))
    status = 0
    for delays, lost, shift, within, words in rows:
        printed, behind = compared(tep, folder, delays, lost, shift or 0, words)
        wanted = behind + lines(delays, within, shift is not None)
        if printed[5:] != wanted:
            print(f"tests/compare/compare_delays.py: of {delays[:8]}.. with {words} it prints {printed}, not {wanted}")
            status = 1
    sys.exit(status)


if __name__ == "__main__":
    main()
