#!/usr/bin/env python3
"""part_outputs.py FOLDER: tells in the shard.txt of a part what its outputs, and the texts that it left, are as they stand now.

Records are those that decisions.txt tells; the two sums are those of docs/formats/parts.md, taken of a whole file at
once."""
import pathlib
import re
import sys

# The greatest prime below 2^64.
PRIME = 2**64 - 59


def sums(text):
    """The sum of a text's words of 64 bits, and the sum of its words each as often as its number."""
    filled = text + bytes(-len(text) % 8)
    words = [int.from_bytes(filled[at : at + 8], "little") for at in range(0, len(filled), 8)]
    return sum(words) % PRIME, sum(number * word for number, word in enumerate(words, 1)) % PRIME


def line(name, file, records):
    """The line of an output."""
    text = file.read_bytes()
    first, second = sums(text)
    return f"output {name} {records} {len(text)} {first} {second}\n"


def text_line(name, file):
    """The line of a text that a part left; none where it left none."""
    if not file.exists():
        return ""
    text = file.read_bytes()
    first, second = sums(text)
    return f"text {name} {len(text)} {first} {second}\n"


def lines(folder):
    """The lines of a part's outputs, and of the texts that it left."""
    decisions = (folder / "decisions.txt").read_bytes().decode("latin-1")
    sent = [place if re.fullmatch(r"p\d+", place) else "u" for place in re.findall(r" ([^ =]+)=", decisions)]
    told = [line("decisions", folder / "decisions.txt", decisions.count("\n"))]
    told.append(line("u", folder / "underlay.pcap", sent.count("u")))
    port = 1
    while (folder / f"port{port}.pcap").exists():
        told.append(line(f"p{port}", folder / f"port{port}.pcap", sent.count(f"p{port}")))
        port += 1
    return told + [text_line(name, folder / f"{name}.txt") for name in ("tables", "summary")]


def main():
    folder = pathlib.Path(sys.argv[1])
    record = folder / "shard.txt"
    facts = [told for told in record.read_text(encoding="utf-8").splitlines(keepends=True) if not told.startswith(("output ", "text "))]
    record.write_text("".join(facts + lines(folder)), encoding="utf-8")


if __name__ == "__main__":
    main()
