#!/usr/bin/env python3
"""What is proved of each crate: the paragraphs 'Proved' of the head of its code and of the heads of its public modules, in
the order of crates.txt. Where a crate or such a module has none, that is told, and the status is 1. Left out are the crates
of tests and of benchmarks, which promise nothing, and modules that are laws: the head of their crate names these.

    docs/proved.py [CRATE..]    prints all, or those of these crates
"""

import re
import sys
import textwrap
from pathlib import Path

TOP = Path(__file__).resolve().parent.parent


def crates():
    """The crates of crates.txt in their order, each with its floor's heading, but for those of tests and benchmarks."""
    floor = ""
    for line in (TOP / "crates.txt").read_text().splitlines():
        if line.startswith("# "):
            floor = line[2:]
        elif ":" in line and not re.match("Tests|The benchmarks", floor):
            yield floor, line.split(":")[0]


def proved_in(file):
    """The paragraphs of a file's head that say what is proved."""
    head = re.sub("^//! ?", "", "\n".join(re.findall("^//!.*", file.read_text(), re.M)), flags=re.M)
    return [re.split("\n(?=- )", part) for part in head.split("\n\n") if re.match("Proved\\b", part)]


def heads(crate):
    """Of a crate the name and the file of its head and of those of its public modules."""
    source = TOP / "crates" / crate / "src"
    root = next(file for file in (source / "lib.rt", source / "main.rt") if file.exists())
    yield crate, root
    for module in re.findall("^pub mod (\\w+);", root.read_text(), re.M):
        file = source / f"{module}.rt"
        text = file.read_text()
        if module != "laws" and (not text.startswith("//! The law") or "//! Use first" in text):
            yield f"{crate}::{module}", file


def laid(piece):
    """A paragraph or an item of a list in lines of at most 125 columns."""
    behind = "  " if piece.startswith("- ") else ""
    words = " ".join(piece.split())
    return textwrap.fill(words, 125, subsequent_indent=behind, break_long_words=False, break_on_hyphens=False)


def main():
    wanted, last, status = sys.argv[1:], "", 0
    for floor, crate in crates():
        if wanted and crate not in wanted:
            continue
        if floor != last:
            print(f"# {floor}\n")
            last = floor
        for name, file in heads(crate):
            paragraphs = proved_in(file)
            print(f"## {name}\n")
            for pieces in paragraphs:
                print("\n".join(laid(piece) for piece in pieces) + "\n")
            if not paragraphs:
                print(f"docs/proved.py: {name} says nothing of what is proved of it", file=sys.stderr)
                status = 1
    return status


sys.exit(main())
