#!/usr/bin/env python3
"""Tells each name in the pages that nothing has: `crate::item`, `Type::method`, a word with an underscore or capitals within,
a file below crates/, or one of specs/. The status is 1 where there is one."""

import re
import sys
from pathlib import Path

TOP = Path(__file__).resolve().parents[2]
PAGES = ["README.md", "docs/*.md", "docs/*/*.md", "tests/*.md", "bench/README.md", "examples/*.md", "examples/*/README.md"]
# Words that are no names of ours: of libraries, of pcapng, of Linux and of Open vSwitch.
OTHERS = set("""std core alloc toml toml_datetime toml_parser fast_float clap serde_json sha2 byteorder itoa anyhow
    epb_flags epb_packetid opt_comment shb_userappl pack_flags if_fcslen if_name if_tsoffset if_tsresol ageing_time vlan_filtering""".split())


def words(text):
    """The words of a text."""
    return set(re.findall(r"\w+", text))


def code(files):
    """What stands in files, without comments."""
    return "\n".join(re.sub(r"^\s*(//|--).*", "", file.read_text(errors="replace"), flags=re.M) for file in files)


CRATES = {line.split(":")[0] for line in (TOP / "crates.txt").read_text().splitlines() if re.match("[a-z]", line)}
FILES = {crate: [*TOP.glob(f"crates/{crate}/src/**/*.rt"), *TOP.glob(f"crates/{crate}/specs/**/*.antt")] for crate in CRATES}
WORDS = {crate: words(code(files)) | {file.stem for file in files} for crate, files in FILES.items()}
PLAIN = set().union(CRATES, *WORDS.values())
for place in ["tests/**/*", "bench/*", "examples/**/*.toml", "examples/**/*.py", "docs/HELP.txt", "share/*", "tep", "check"]:
    PLAIN |= {part for file in TOP.glob(place) if file.is_file() and file.suffix not in (".pcap", ".pcapng", ".png")
              for part in words(file.read_text(errors="replace")) | {file.stem}}


def is_there(name):
    """Whether what a name names is there."""
    if re.fullmatch(r"(crates/)?\w+/(src|specs)/[\w/]+(\.rt|\.antt)?", name):
        file = TOP / "crates" / re.sub("^crates/", "", name)
        return file.exists() or file.with_suffix(".antt").exists()
    if re.fullmatch(r"specs/\w+(\.antt)?", name):
        return any(TOP.glob("crates/*/" + re.sub("(.antt)?$", ".antt", name, count=1)))
    if re.fullmatch(r"\w+(::\w+)+", name):
        first, *rest = name.split("::")
        if first in CRATES and len(rest) > 1 and rest[-2].islower():
            module = TOP.joinpath("crates", first, "src", *rest[:-1]).with_suffix(".rt")
            return module.exists() and rest[-1] in WORDS[first]
        return first in OTHERS or any(set(rest) <= WORDS[crate] for crate in
                                      ([first] if first in CRATES else [c for c in CRATES if first in WORDS[c]]))
    if re.fullmatch(r"[a-z]\w*_\w+|[A-Z][a-z]+[A-Z]\w*", name):
        return name in PLAIN or name in OTHERS
    return True


status = 0
for page in sorted({page for pattern in PAGES for page in TOP.glob(pattern)}):
    text = re.sub(r"^```.*?^```", "", page.read_text(), flags=re.M | re.S)
    for name in sorted(set(re.findall(r"`([^`\n]+)`", text))):
        if not is_there(name):
            print(f"{page.relative_to(TOP)} names `{name}`, which isn't there")
            status = 1
sys.exit(status)
