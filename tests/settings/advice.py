"""Compares the tables of crates/text_advice/src with those of docs/formats/settings.md."""
import ast
import re
import sys

FORMATS = open("docs/formats/settings.md", encoding="utf-8").read()
ALLOWED = open("crates/text_advice/src/allowed.rt", encoding="utf-8").read()
CHANGES_ALLOWED = open("crates/text_advice/src/allowed_changes.rt", encoding="utf-8").read()
KNOWN = open("crates/text_advice/src/known.rt", encoding="utf-8").read()
STRING = r'"(?:[^"\\]|\\.)*"'
RANGES = re.compile(r"\d+ to \d+|at most \d+")
WORDS = re.compile(r'"[a-z0-9_]+"')
FAULTS = []


def complain(text):
    FAULTS.append(text)


def code_rows(source, constant):
    """The rows of a constant: strings, and lists of strings."""
    body = re.search(r"const " + constant + r": \[[^=]*=\s*(\[.*?\n\];)", source, re.S).group(1)
    return ast.literal_eval(body.rstrip(";").replace("&[", "["))


def without_numbers(path):
    return ".".join(part for part in path.split(".") if part not in ("k", "j"))


def table(heading, title):
    """The rows of the first table below a heading whose first cell is this title."""
    part = FORMATS[FORMATS.index(heading):]
    part = part[part.index("| " + title + " |"):]
    rows = part.split("\n\n")[0].splitlines()[2:]
    return [[cell.strip() for cell in row.strip("|").split(" | ")] for row in rows]


def names(text):
    return re.findall(r"`([a-z0-9_.]+)`", text)


def check_sentence(sentences, path, value):
    told = sentences.get(path)
    if told is None:
        complain(f"no sentence for {path}")
        return
    for pattern in RANGES, WORDS:
        # Addresses in quotes are examples, and no WORDS.
        in_told, in_value = set(pattern.findall(told)), set(pattern.findall(value))
        if in_told != in_value:
            complain(f"{path}: '{told}' has {sorted(in_told)}, and docs/formats/settings.md has {sorted(in_value)}")


rows = code_rows(ALLOWED, "SETTINGS_SENTENCES")
sentences = {path: text for path, variant, fault, text in rows if not fault and not variant}
sentences_3 = sentences | {path: text for path, variant, fault, text in rows if not fault and variant == "3"}
paths = {"limit"}
first = table("## Settings", "Key")
second = table("## Settings", "Key of version 2")
third = table("## Settings", "Key of version 3")
for table_of, told in (first, sentences), (second, sentences), (third, sentences_3):
    for keys, value, *_ in table_of:
        for key in names(keys):
            path = without_numbers(key)
            paths.add(path)
            if (path, keys) != ("segment.tunnel", "`segment.k.tunnel`") or '"' in value:
                check_sentence(told, path, value)
paths |= {"limits", "underlay", "underlay.hop.addr", "underlay.hop.mac"}
settings = {}
for path, variant, keys in code_rows(KNOWN, "SETTINGS_KEYS"):
    settings[path, variant] = keys
    for key in keys:
        whole = path[:-1] + key
        if whole not in paths:
            complain(f"{whole} is no key of docs/formats/settings.md")


def keys_under(rows, front):
    found = [without_numbers(key) for keys, *_ in rows for key in names(keys)]
    return {path[len(front):] for path in found if path.startswith(front) and "." not in path[len(front):]}


tunnels = {"vni", "flood"}
wanted = {
    ("*", "3"): keys_under(first, "") | {"limits", "underlay"},
    ("*", ""): keys_under(first, "") | {"underlay"},
    ("limits.*", ""): keys_under(third, "limits."),
    ("underlay.*", "3"): keys_under(first + third, "underlay."),
    ("underlay.*", ""): keys_under(first, "underlay."),
    ("underlay.hop.*", ""): {"addr", "mac"},
    ("port.*", ""): keys_under(first, "port."),
    ("segment.*", "3"): keys_under(first, "segment.") - tunnels,
    ("segment.*", "2"): keys_under(first, "segment.") - tunnels,
    ("segment.*", ""): keys_under(first, "segment."),
    ("segment.tunnel.*", ""): keys_under(second, "segment.tunnel."),
}
for row in wanted.keys() | settings.keys():
    if set(settings.get(row, [])) != wanted.get(row):
        complain(f"settings, {row}: {settings.get(row)}, and docs/formats/settings.md has {wanted.get(row)}")

# Of changes, which have sentences of their own.
of_changes = {path: text for path, variant, fault, text in code_rows(CHANGES_ALLOWED, "CHANGE_SENTENCES") if not fault and not variant}
changes = {(path, variant): keys for path, variant, keys in code_rows(KNOWN, "CHANGE_KEYS")}
wanted = {("*", ""): {"version", "change"}}
for kinds, keys in table("## Changes", "`kind`"):
    for kind in names(kinds):
        # The names in backticks, each key once; those that a key of another table is compared with stand behind 'as'.
        found = {name for name in names(keys) if name != "none"}
        wanted["change.*", kind] = found | {"kind", "at"}
for row in wanted.keys() | changes.keys():
    if set(changes.get(row, [])) != wanted.get(row):
        complain(f"changes, {row}: {changes.get(row)}, and docs/formats/settings.md has {wanted.get(row)}")
for (path, _), keys in changes.items():
    for key in keys:
        whole = path[:-1] + key
        paths.add(whole)
        if whole not in of_changes:
            complain(f"no sentence for {whole}")
for kinds, keys in table("## Changes", "`kind`"):
    for key, value in re.findall(r"`([a-z0-9_]+)` \(([^()]*\d+ to \d+[^()]*)", keys):
        check_sentence(of_changes, "change." + key, value)
    for key, value in re.findall(r"`([a-z0-9_]+)`, `[a-z]+` \((both \d+ to \d+)", keys):
        check_sentence(of_changes, "change." + key, value)
    for key, value in re.findall(r'`([a-z]+)` \((`"[^()]*)\)', keys):
        check_sentence(of_changes, "change." + key, value)
text = FORMATS[FORMATS.index("## Changes"):]
for key, value in re.findall(r"`([a-z]+)` (?:is )?(\d+ to \d+)", text) + re.findall(r'`([a-z]+)` (`"[a-z]+"` or `"[a-z]+"`)', text):
    check_sentence(of_changes, "change." + key, value)
for key in "learn", "peers", "tags":
    if of_changes.get("change." + key) != sentences_3.get("segment." + key):
        complain(f"change.{key} and segment.{key} have different sentences")
kinds = {name for kinds, _ in table("## Changes", "`kind`") for name in names(kinds)}
if {word.strip('"') for word in WORDS.findall(of_changes["change.kind"])} != kinds:
    complain(f"change.kind: '{of_changes['change.kind']}', and docs/formats/settings.md has {sorted(kinds)}")
for path in (sentences.keys() | of_changes.keys()) - paths:
    complain(f"the sentence for {path} is for no key of docs/formats/settings.md")

for fault in FAULTS:
    print(f"tests/settings/advice.py: {fault}")
sys.exit(1 if FAULTS else 0)
