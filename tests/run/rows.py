"""Runs each row of tests/run/rows/ and of flood_rows.py through the program, and compares what it says and writes, octet for
octet.

A row is a name behind `==`, and a run told line by line; a line that begins with `#` belongs to none:
- `A`, `B` and `L` stand for the settings of an endpoint, of its peer, and of a learning bridge alone; `A2` for those of the
  endpoint in version 2, one of its segments with two tunnels; `T` for those of an endpoint that forgets; `ports16`,
  `ports17` and `ports255` for those of a learning bridge of so many ports; `flood1` and so on for those of an endpoint whose
  segments may flood to so many remotes;
- `~ OLD => NEW` puts NEW for OLD in the settings, a `;` in either being the end of a line;
- `migrate` takes the settings as `tep migrate` writes them in version 2;
- `c KEYS` is a change, with commas between its keys;
- `MOMENT TAP LENGTH OCTETS` is a record that comes, `= TAP OCTETS` a whole capture, and `+ TAP OCTETS` more of one;
- `> LINE` is what the run says: the next decision line, or the line of its fault;
- `! LINE` is what standard error says of a run that is done;
- `|LINE` is a line of the story of the change or the record above it; behind a line `run WORDS`, `explain WORDS` or `check` it
  is what the program prints for these words. Where there is such a line, other decision lines need not be told;
- `< MOMENT TAP LENGTH OCTETS` is a record that leaves. Where there is such a line, nothing else leaves.

What is expected was worked out by hand from RFC 7348, RFC 8926, IEEE 802.1Q and docs/formats/, never taken from a run.
"""
import sys

import flood_rows
import runs

SETTINGS = {"A": runs.ENDPOINT, "A2": runs.TWO_TUNNELS, "B": runs.PEER, "L": runs.BRIDGE, "T": runs.FORGETFUL}
SETTINGS |= {f"ports{ports}": runs.wide(ports) for ports in (16, 17, 255)}
SETTINGS |= {f"flood{most}": runs.flooding(most) for most in (1, 15, 16, 17, 40, 512)}


class Row:
    """A run told line by line."""

    def __init__(self, name):
        self.name = name
        self.settings, self.changes, self.is_migrated = "", "", False
        self.comes, self.leaves, self.tells_octets = None, None, False
        self.says, self.notes, self.prints, self.words = [], [], [], ["run"]
        # The events whose stories are told; none behind a command line.
        self.why = []
        # The events so far of each tap and of changes, and the last one of them.
        self.events, self.last = {}, None

    def put(self, line):
        """Takes a line."""
        word, _, rest = line.partition(" ")
        if line in SETTINGS:
            self.settings = SETTINGS[line]
            self.comes, self.leaves = (runs.Captures(self.settings.count("[[port]]")) for _ in range(2))
        elif line == "migrate":
            self.is_migrated = True
        elif word == "~":
            self.edit(*rest.replace(";", "\n").split(" => "))
        elif word == "c":
            self.changes += "[[change]]\n" + rest.replace(", ", "\n") + "\n"
            self.count("c")
        elif word == ">":
            self.says.append(rest)
        elif word == "!":
            self.notes.append(f"  {rest}")
        elif word == "<":
            self.tells_octets = True
            self.leaves.put(rest)
        elif line.startswith("|"):
            self.prints.append(line[1:])
            if self.last and self.last not in self.why:
                self.why.append(self.last)
        elif word in ("run", "explain", "check"):
            self.words, self.last = line.split(), None
        else:
            self.count(self.comes.put(line))

    def edit(self, old, new):
        assert old in self.settings, f"{self.name}: an edit of what isn't there"
        self.settings = self.settings.replace(old, new)

    def count(self, tap):
        if tap:
            self.events[tap] = self.events.get(tap, 0) + 1
            self.last = f"{tap}:{self.events[tap]}"

    def settings_text(self):
        """The settings, migrated where that is asked for."""
        if not self.is_migrated:
            return self.settings
        return runs.ends(["migrate", "-s", "/dev/stdin"], self.settings.encode()).stdout.decode()

    def faults(self):
        """What the run does otherwise than it is told."""
        settings = self.settings_text()
        if self.is_migrated and not settings.startswith("version = 2\n"):
            yield f"migrated:\n{settings}"
        words = self.words + [word for event in self.why for word in ("--why", event)]
        run = runs.Run(settings, self.changes, self.comes, words)
        if run.stdout.splitlines() != self.prints:
            yield f"it prints:\n{run.stdout}"
        if run.status not in (0, 1) or (run.stderr.splitlines() != self.notes if run.status == 0 else run.stderr == ""):
            yield f"status {run.status}: {run.stderr}"
        elif (self.says or not self.prints) and run.said().splitlines() != self.says:
            yield f"it says:\n{run.said()}"
        if self.tells_octets:
            for tap, octets in self.leaves.of.items():
                if run.capture(tap) != octets:
                    yield f"another capture leaves: {tap}"


def rows():
    """The rows of each file."""
    for file in sorted((runs.TOP / "tests/run/rows").glob("*.txt")):
        row = None
        for line in file.read_text(encoding="utf-8").splitlines():
            if line.startswith("== "):
                if row:
                    yield row
                row = Row(f"{file.name}: {line[3:]}")
            elif line and not line.startswith("#"):
                row.put(line)
        yield row


def long_floods():
    """The rows of long flood lists."""
    for name, lines in flood_rows.rows():
        row = Row(f"flood_rows.py: {name}")
        for line in lines:
            row.put(line)
        yield row


def beyond_256():
    """254 segments of 1 entry come to two of 256 that stand, in a pool of 766. The next ones ask for 2, which the pool hasn't
    either: that they would be too many is told first."""
    row = Row("254 more segments, and then none")
    row.put("A")
    row.put("~ version = 1 => version = 1;pool = 766")
    for number in range(1, 257):
        vid, limit = 99 + number, 1 if number < 255 else 2
        row.put(f'c kind = "add_segment", at = 0, vid = {vid}, vni = {vid}, tunnel = "vxlan", limit = {limit}')
        row.put(f"> {number} 0 c {number} {vid} " + ("done" if number < 255 else "refused 13 SegmentsFull"))
    return row


def beyond_4000():
    """3,998 segments of 1 entry come to two of 256, where 4,000 are asked for, in a pool that has no more room; and then none."""
    row = Row("3998 more segments, and then none")
    row.put("A2")
    row.put("~ version = 2 => version = 3;pool = 4510;[limits];segments = 4000")
    for number, vid in enumerate((vid for vid in range(1, 4095) if vid not in (10, 20)), 1):
        if number < 4001:
            row.put(f'c kind = "add_segment", at = 0, vid = {vid}, vni = {vid}, tunnel = "vxlan", limit = 1')
            row.put(f"> {number} 0 c {number} {vid} " + ("done" if number < 3999 else "refused 13 SegmentsFull"))
    return row


def beyond_4096():
    """4,097 frames in as many microseconds: the first one leaves 100 us behind the last, when it is forgotten, and is input."""
    row = Row("4097 frames, of which 4096 are known")
    row.put("L")
    row.put("run --both")
    for number in range(4097):
        row.put(f"{10**9 + 1000 * number} p1 60 ALL M1 88B5 {number:04X}")
        row.put(f"> {number + 1} {10**9 + 1000 * number} p1 {number + 1} 10 p2=60 p3=60")
    for port, number in (2, 4096), (2, 1), (3, 0):
        row.put(f"{10**9 + 4196000} p{port} 60 ALL M1 88B5 {number:04X}")
    row.put("> 4098 1004196000 p3 1 10 p1=60 p2=60")
    row.put("! p2: left out 2 records that the switch sent")
    # For the last frame the first one goes, at 4,096 us, and for that which is input the second one, at 4,195 us.
    row.put("! both: 2 frames were forgotten before 10ms had passed: --within 4ms would fit")
    return row


def main():
    count = wrong = 0
    for row in [*rows(), *long_floods(), beyond_256(), beyond_4000(), beyond_4096()]:
        count += 1
        for fault in row.faults():
            print(f"tests/run/rows.py: {row.name}: {fault}")
            wrong += 1
    # Each row that there is has run: an empty folder would pass.
    if count < 274:
        print(f"tests/run/rows.py: {count} rows")
        wrong += 1
    return 1 if wrong else 0


if __name__ == "__main__":
    sys.exit(main())
