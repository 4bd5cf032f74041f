"""Cuts the run of each worked row of tests/run/rows/ and of tests/run/flood_rows.py into each pair of parts, and puts them
together again: files, tables and counts are those of the whole run, octet for octet. The parts share the segments 10 and 20, all others,
and what comes to none."""
import concurrent.futures
import os
import pathlib
import sys
import tempfile

import rows
import runs

SHARES = ["10", "20", "1-9,11-19,21-4094", "none"]


def pairs():
    """Each way to part the shares among two parts, neither of them without one."""
    for mask in range(1, 2 ** (len(SHARES) - 1)):
        sides = ([], [])
        for index, share in enumerate(SHARES):
            sides[mask >> index & 1].append(share)
        yield tuple(",".join(side) for side in sides)


def written(folder, words, out):
    """What comes of the program with these words, and the files that it writes into a folder."""
    (folder / out).mkdir()
    ended = runs.ends([*words, "--tables", "--summary", "-o", out], folder=folder)
    return ended, {file.name: file.read_bytes() for file in (folder / out).iterdir()}


def faults(row):
    """Where the parts of a row's run, put together, aren't the whole run; and whether it is a run that ends well."""
    told = []
    with tempfile.TemporaryDirectory() as name:
        folder = pathlib.Path(name)
        (folder / "settings.toml").write_text(row.settings_text(), encoding="utf-8")
        (folder / "changes.toml").write_text(row.changes, encoding="utf-8")
        for tap, text in row.comes.of.items():
            (folder / f"{tap}.pcap").write_bytes(text)
        words = ["-s", "settings.toml", "-c", "changes.toml", "-u", "u.pcap", *[f"{port}.pcap" for port in row.comes.ports]]
        whole, files = written(folder, ["run", *words], "whole")
        if whole.returncode:
            return told, False
        for number, (one, other) in enumerate(pairs()):
            parts = [f"one{number}", f"other{number}"]
            for part, share in zip(parts, (one, other)):
                ended, _ = written(folder, ["run", "--segments", share, *words], part)
                if ended.returncode:
                    told.append(f"the part {share}: {ended.stderr.decode()}")
            merged, again = written(folder, ["merge", *parts], f"merged{number}")
            if merged.returncode or (merged.stdout, again) != (whole.stdout, files):
                told.append(f"{one} and {other}: {merged.stderr.decode() or 'the merge is another run'}")
    return told, True


def main():
    wrong = count = 0
    all_rows = [row for row in [*rows.rows(), *rows.long_floods()] if row.words[0] == "run"]
    with concurrent.futures.ThreadPoolExecutor(os.cpu_count()) as pool:
        for row, (told, is_run) in zip(all_rows, pool.map(faults, all_rows)):
            count += is_run
            for fault in told:
                print(f"tests/parts/row_parts.py: {row.name}: {fault}")
                wrong += 1
    # Rows that end at a fault have no parts; most don't.
    if count < 150:
        print(f"tests/parts/row_parts.py: {count} runs")
        wrong += 1
    return 1 if wrong else 0


if __name__ == "__main__":
    sys.exit(main())
