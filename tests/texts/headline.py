"""The definitions that two contracts are made of, and how many lines they have: `capture_run::run_bytes`, and
`stream_run::run`, which the program calls.

Prints two tables for docs/HEADLINE.md: every definition that the words of the first reach through `use` lines, by crate and
file, with the words that it takes from `std` and `toml`, which stand outside this repository; then those that the words of the
second reach beside these. Comments and empty lines aren't counted, nor what stands in `specs/` without being reached.
"""

import pathlib
import re
import subprocess
import sys

TOP = pathlib.Path(__file__).resolve().parent.parent.parent
CRATES = TOP / "crates"
KIT = pathlib.Path(subprocess.run(["rt", "doc"], capture_output=True, text=True, check=True).stdout.strip()).parent / "rattle"
USE = re.compile(r"^\s*(?:pub )?(?:ghost )?use Rattle\.([\w.]+?)(?:\.\{([^}]*)\})?(?: as (\S+?))?;?\s*$")
HEAD = re.compile(r"^\s*(?:abbrev pub|unfoldable pub|pub record|pub data|abbrev|record|data) ([^\s:(){}]+)")


class File:
    """The names of one spec file: what it defines, and where it takes the others from."""

    def __init__(self, path):
        self.lines = {}  # a name to the lines of its definition
        self.taken = {}  # a name to the module that it is taken from, and its name there
        self.modules = {}  # an alias to its module
        self.handed = []  # modules that are handed on
        name = None
        for line in path.read_text(encoding="utf-8").splitlines():
            found = USE.match(line)
            if found:
                self.take(line, *found.groups())
                continue
            head = HEAD.match(line)
            if head:
                name = head.group(1)
                self.lines.setdefault(name, [])
            elif line and not line[0].isspace() and not line.startswith(("--", name or "--")):
                name = None if line.startswith(("module", "pub mod")) else name
            if name and line.strip() and not line.strip().startswith("--"):
                self.lines[name].append(line)

    def take(self, line, module, names, alias):
        if names is None:
            self.modules[alias or module.split(".")[-1]] = module
            return
        for told in names.split(","):
            there, _, here = told.strip().partition(" as ")
            self.taken[here.strip() or there] = (module, there)


FILES = {}


def is_toml(crate):
    """One of those of the kit that say what TOML means."""
    return crate.startswith("toml")


def folder_of(crate):
    return (KIT if is_toml(crate) else CRATES) / crate


def file_of(module):
    """The spec file of a module of such a crate, if it is one."""
    parts = module.split(".")
    path = folder_of(parts[0]) / "specs" / ("/".join(parts[2:]) + ".antt")
    if len(parts) < 3 or parts[1] != "specs" or not path.exists():
        return None
    if module not in FILES:
        FILES[module] = File(path)
    return FILES[module]


def reach(roots, is_within=lambda crate: (CRATES / crate).exists()):
    """All that these (module, name) pairs reach: definitions within these crates, declared types, words from outside."""
    here, types, outside, left = set(), set(), set(), list(roots)
    while left:
        module, name = left.pop()
        if ".specs.declared." in module:
            types.add(module.split(".TheVariants")[0].replace(".specs.declared", ""))
            continue
        if not is_within(module.split(".")[0]):
            outside.add((module, name))
            continue
        file = file_of(module)
        if file is None:
            continue
        if name in file.taken and name not in file.lines:
            left.append(file.taken[name])
            continue
        if (module, name) in here or name not in file.lines:
            continue
        here.add((module, name))
        for line in file.lines[name]:
            for word in re.findall(r"[\w◌][^\s(){}\[\],;]*|[^\s\w(){}\[\],;]+", line.split(" -- ")[0]):
                first, _, rest = word.partition(".")
                if first in file.modules and rest:
                    left.append((file.modules[first], rest.split(".")[0]))
                for part in [word, first]:
                    if part in file.lines:
                        left.append((module, part))
                    elif part in file.taken:
                        left.append(file.taken[part])
    return here, types, outside


def roots(path, call):
    """The words of the contract of a call, and where they stand."""
    text = (CRATES / path).read_text(encoding="utf-8")
    taken = {}
    for line in text.splitlines():
        found = USE.match(line)
        if found and found.group(2):
            for name in found.group(2).split(","):
                taken[name.strip()] = found.group(1)
    body = text[text.index(f"pub fn {call}") :]
    contract = body[re.search("ensures|requires", body).start() : body.index("\n{\n")]
    return [(taken[word], word) for word in dict.fromkeys(re.findall(r"\w+", contract)) if word in taken]


def lines_of(rows):
    return sum(len(FILES[module].lines[name]) for module, name in rows)


def print_table(here):
    crates = {}
    for module, name in here:
        crates.setdefault(module.split(".")[0], []).append((module, name))
    order = [line.split(":")[0].strip() for line in (TOP / "crates.txt").read_text(encoding="utf-8").splitlines() if ":" in line]
    print("| Crate | Definitions | Lines | Files of `specs/` |\n|---|---|---|---|")
    for crate in sorted(crates, key=lambda name: order.index(name) if name in order else -1):
        rows = crates[crate]
        files = sorted({module.split(".specs.")[1].replace(".", "/") for module, _ in rows})
        print(f"| `{crate}` | {len(rows)} | {lines_of(rows)} | {', '.join(files)} |")
    print(f"| all | {len(here)} | {lines_of(here)} | |")


def print_words(outside):
    """The words from outside, by crate; those of TOML with what they reach."""
    for crate in sorted({module.split(".")[0] for module, _ in outside}):
        rows = {(module, name) for module, name in outside if module.split(".")[0] == crate}
        words = sorted({name for _, name in rows})
        told = f"\nFrom `{crate}`, {len(words)} words: {', '.join(f'`{word}`' for word in words)}."
        if is_toml(crate):
            behind, _, below = reach(rows, is_toml)
            of, words = (" and ".join(f"`{name}`" for name in sorted({module.split(".")[0] for module, _ in it})) for it in (behind, below))
            told += f" They stand for {len(behind)} definitions of {lines_of(behind)} lines in {of}, over words of {words}."
        print(told)


def main():
    here, types, outside = reach(roots("capture_run/src/run.rt", "run_bytes"))
    print_table(here)
    print_words(outside)
    print(f"\nTypes of the code whose values the definitions are about: {len(types)}.")
    more, more_types, _ = reach(roots("stream_run/src/runs.rt", "run"))
    print("\nBeside these, in the clauses of `stream_run::run`, which the program calls:\n")
    print_table(more - here)
    print(f"\nTypes of the code beside those: {len(more_types - types)}.")


if __name__ == "__main__":
    sys.exit(main())
