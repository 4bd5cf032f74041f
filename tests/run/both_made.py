"""Made captures that hold both directions, against the model of both_model.py: a run with --both is the run on the records
that the model takes in, run and check tell what the model left out, and a list has a line for each record of it; and of the
echoes as many are told where the run sent nothing as there are by its decision lines.

    both_made.py COUNT [FIRST]      so many runs, each of an endpoint's settings and of 20 scenarios one after another, from a seed
    both_made.py seed SEED FOLDER   the run of a seed, whose files stay in a folder; input_*.pcap are what the model takes in

What differs is printed with its seed.
"""
import concurrent.futures
import contextlib
import os
import pathlib
import re
import sys
import tempfile

import runs
from both_model import Model, rising
from both_scenarios import TEN, Made


def capture(records, rest=b""):
    """A capture in nanoseconds, with a cut rest or none behind it."""
    return runs.octets("PCAP") + b"".join(runs.record(*record) for record in records) + rest


def numbered(lines, inputs, counts):
    """Decision lines of a run on inputs alone, with the numbers of these records in the whole captures."""
    found = []
    for line in lines:
        words = line.split(" ")
        if words[0] == "cut":
            words[2] = str(counts[words[1]])
        elif words[2] != "c":
            words[3] = str(inputs[words[2]][int(words[3]) - 1] + 1)
        found.append(" ".join(words))
    return found


def counted(stdout, counts):
    """A summary of a run on inputs alone, with the whole captures' numbers of records where one is cut."""
    return re.sub(r"(?m)^cut (\w+) .*$", lambda line: f"cut {line[1]} {counts[line[1]]}", stdout)


class Files:
    """The files of a run, in a folder of their own."""

    def __init__(self, folder, made):
        self.folder, self.made = pathlib.Path(folder), made
        self.write("settings.toml", made.ground.text().encode())
        self.write("changes.toml", made.changes_text().encode())

    def write(self, name, octets):
        (self.folder / name).write_bytes(octets)

    def words(self, captures, rests, front=""):
        """Writes captures, and names them behind the settings."""
        for tap, records in captures.items():
            self.write(f"{front}{tap}.pcap", capture(records, rests.get(tap, b"")))
        ports = [f"{front}{tap}.pcap" for tap in captures if tap != "u"]
        return ["-s", "settings.toml", "-c", "changes.toml", "-u", f"{front}u.pcap", *ports]

    def ends(self, *words):
        done = runs.ends(words, folder=self.folder)
        return done.returncode, done.stdout.decode(), done.stderr.decode().splitlines()

    def runs(self, out, named, *words):
        """Status, standard output, standard error, decision lines, and captures of a run."""
        (self.folder / out).mkdir()
        return *self.ends("run", *words, "-o", out, *named), *self.left(out)

    def left(self, out):
        """Decision lines and captures in a folder."""
        files = {file.name: file.read_bytes() for file in (self.folder / out).iterdir()}
        return files.pop("decisions.txt", b"").decode().splitlines(), files

    def merged(self, named, both, counts):
        """The same of two parts of a run that are merged; of standard error what each part said."""
        parts = {"one": "10", "other": "1-9,11-4094,none"}
        told = [self.runs(out, named, *both, *counts, "--segments", segments)[2] for out, segments in parts.items()]
        (self.folder / "whole").mkdir()
        status, stdout, stderr = self.ends("merge", *counts, "-o", "whole", *parts)
        return status, stdout, told + [stderr], *self.left("whole")


def told_sent(stderr, outs, lines):
    """What standard error says of a run with a list: of the echoes at a port, too, how many stand where the run sent nothing."""
    sent = {tuple(line.split(" ")[2:4]): line.split(" ")[5:] for line in lines}
    astray = {}
    for (tap, _), _, arrival in outs:
        if arrival and not any(place.startswith(f"{tap}=") for place in sent[arrival.record[0], str(arrival.record[1])]):
            astray[tap] = astray.get(tap, 0) + 1
    found = []
    for line in stderr:
        tap = line.split(":")[0].strip()
        found += [line, f"  {tap}: {astray[tap]} of them where the run sent nothing"] if "left out" in line and tap in astray else [line]
    return found


def differing(what, got, wanted):
    """A line of where two lists, or two texts, differ first."""
    if got == wanted:
        return []
    if isinstance(got, list):
        pairs = [*zip(got + [None], wanted + [None])]
        got, wanted = next(pair for pair in pairs if pair[0] != pair[1])
    return [f"{what}: {got!r} in place of {wanted!r}"]


def tried(seed, kept=None):
    """What the program does otherwise than the model, and how many records there were and were left out, and how many frames
    were forgotten."""
    made = Made(seed)
    rests = {tap: b"\1" for tap in made.captures if made.chance.random() < 0.1}
    model = Model(made.ground.settings, made.captures, made.changes, made.within)
    ten = model if made.within == TEN else Model(made.ground.settings, made.captures, made.changes, TEN)
    inputs = {tap: [rising(records)[at] for at in model.inputs[tap]] for tap, records in made.captures.items()}
    both = ["--both"] if made.word is None else ["--within", made.word]
    with contextlib.nullcontext(kept) if kept else tempfile.TemporaryDirectory() as folder:
        files = Files(folder, made)
        named = files.words(made.captures, rests)
        status, stdout, stderr, lines, left = files.runs("both", named, *both, "--summary")
        _, checked, _ = files.ends("check", *named)
        listed = files.ends("run", *both, "--list", "list.txt", *named)
        rows = (files.folder / "list.txt").read_text().splitlines()
        # Parts of cut captures are merged without their counts.
        summed = [] if rests else ["--summary"]
        merged = files.merged(named, both, summed) if seed % 4 == 1 else None
        plain = files.runs("plain", files.words(inputs, rests, "input_"), "--summary")
    wrong = differing("status", [status, plain[0]], [0, 0])
    wrong += differing("standard error", stderr, model.run_lines(made.word or "10ms"))
    wrong += differing("standard error of the run on inputs", plain[2], [])
    wrong += differing("decision line", lines, numbered(plain[3], model.inputs, model.counts))
    wrong += differing("list", rows, model.list_lines())
    wrong += differing("a run with a list", [*listed[:2], *listed[2]], [0, "", *told_sent(stderr, model.outs, lines)])
    wrong += differing("summary", stdout, counted(plain[1], model.counts))
    wrong += [f"{name} leaves otherwise" for name in sorted({*left, *plain[4]}) if left.get(name) != plain[4].get(name)]
    told = [line for line in checked.splitlines() if "elsewhere" in line or "left us" in line or line.startswith("both:")]
    wrong += differing("check", told, ten.check_lines())
    if merged:
        wrong += differing("parts", list(merged), [0, stdout if summed else "", [stderr, stderr, []], lines, left])
    out = sum(map(model.left_out, model.counts))
    return [f"seed {seed}: {line}" for line in wrong], (sum(model.counts.values()), out, len(model.window.forgotten))


def try_all(seeds):
    """What differs in the runs of seeds, the first twenty lines of it, and whether they were worth while."""
    wrong, sums = [], [0, 0, 0]
    with concurrent.futures.ProcessPoolExecutor(os.cpu_count()) as pool:
        for lines, counts in pool.map(tried, seeds, chunksize=2):
            wrong += lines
            sums = [one + other for one, other in zip(sums, counts)]
    # Enough of each kind has come: made captures of which nothing is left out would pass.
    records, out, forgotten = sums
    if len(seeds) >= 50 and (min(out, records - out) * 8 < records or not forgotten):
        wrong.append(f"of {records} records {out} are left out, and {forgotten} frames forgotten")
    return wrong[:20]


def main():
    if sys.argv[1] == "seed":
        wrong = tried(int(sys.argv[2]), sys.argv[3])[0]
    else:
        first = int(sys.argv[2]) if len(sys.argv) > 2 else 0
        wrong = try_all(range(first, first + int(sys.argv[1])))
    for line in wrong:
        print(f"tests/run/both_made.py: {line}")
    return 1 if wrong else 0


if __name__ == "__main__":
    sys.exit(main())
