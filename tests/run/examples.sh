#!/usr/bin/env bash
# The settings and changes of examples/ are taken; two of them have every key and every kind of change that
# docs/formats/settings.md tells of; a run sends what a Linux kernel sent; and a run on captures that were made for it drops a
# frame for each of the forty reasons of docs/REASONS.md.
set -u
cd "$(dirname "$0")/../.." || exit 1
folder=$(mktemp -d)
trap 'rm -rf "$folder"' EXIT
status=0

# complain TEXT: a test has failed
complain() {
    echo "tests/run/examples.sh: $*"
    status=1
}

# is_taken LINES SETTINGS [CHANGES]: the texts are taken, and this is said of them
is_taken() {
    local said
    said=$(./tep check --settings "examples/$2" ${3:+--changes "examples/$3"} 2>&1)
    [ "$said" = "$1" ] || complain "$2 ${3-}: '$said' in place of '$1'"
}

is_taken "ok: 4 ports, 3 segments, 16 changes" every_key.toml every_change.toml
is_taken "ok: 3 ports, 2 segments, 8 changes
change 7 at 7000000000: refused 12 PoolFull" a.toml segments.toml
is_taken "ok: 3 ports, 2 segments, 2 changes" two_tunnels.toml two_tunnels_changes.toml
is_taken "ok: 3 ports, 1 segments, 0 changes" linux/settings.toml
is_taken "ok: 3 ports, 2 segments, 0 changes" openvswitch.toml

# The first column of the table of settings, up to the next section, and that of the table of changes.
sed -n '/^| Key | Value/,/^No two/p' docs/formats/settings.md | grep "^|" | cut -d '|' -f 2 | grep -o '`[^`]*`' | tr -d '`' |
    sed 's/.*\.//' | sort -u >"$folder/keys"
[ "$(wc -l <"$folder/keys")" -ge 30 ] || complain "docs/formats/settings.md has few keys: $(cat "$folder/keys")"
while read -r key; do
    grep -qE "^(\[\[?([a-z]+\.)?)?$key(\]| =)" examples/every_key.toml || complain "every_key.toml lacks $key"
done <"$folder/keys"
sed -n '/^| `kind` | Keys/,/^`vid` is/p' docs/formats/settings.md | grep "^|" | cut -d '|' -f 2 | grep -o '`[a-z_]*`' |
    tr -d '`' >"$folder/kinds"
[ "$(wc -l <"$folder/kinds")" -ge 11 ] || complain "docs/formats/settings.md has few kinds of change: $(cat "$folder/kinds")"
grep -vx kind "$folder/kinds" | while read -r kind; do
    grep -q "^kind = \"$kind\"$" examples/every_change.toml || echo "tests/run/examples.sh: every_change.toml lacks $kind"
done >"$folder/lacking"
[ ! -s "$folder/lacking" ] || complain "$(cat "$folder/lacking")"

# A Linux kernel sent the same frames at its ports, and the same packets but for what a sender chooses: identification, Don't
# Fragment, source port, and the checksums over them.
mkdir "$folder/linux"
./tep run --settings examples/linux/settings.toml --underlay examples/linux/underlay.pcap --out "$folder/linux" \
    examples/linux/port[1-3].pcap || complain "the run of examples/linux ends with $?"
PYTHONPATH=examples python3 -B - "$folder/linux" <<'PYTHON' || complain "the kernel sent something else"
import pathlib
import sys

from captures import read

ours, theirs = pathlib.Path(sys.argv[1]), pathlib.Path("examples/linux")
for name in ("port1", "port2", "port3", "underlay"):
    sent = [[*read(ours / f"{name}.pcap")], [*read(theirs / f"sent_{name}.pcap")]]
    if name == "underlay":
        sent = [[it[:18] + it[22:24] + it[26:34] + it[36:40] + it[42:] for it in some] for some in sent]
    assert sent[0] and sent[0] == sent[1], name
PYTHON

# Each record is dropped, or isn't, as the program that wrote it tells.
mkdir "$folder/out"
python3 examples/reasons.py "$folder" || complain "no captures"
./tep run --settings examples/every_key.toml --changes examples/every_change.toml --underlay "$folder/underlay.pcap" \
    --out "$folder/out" "$folder"/port[1-4].pcap || complain "the run ends with $?"
grep ' c ' "$folder/out/decisions.txt" | grep -v ' done$' && complain "a change is refused"
grep -v ' c ' "$folder/out/decisions.txt" | awk '
    { reason = "-" }
    $6 == "drop" { reason = $8 }
    /!/ { reason = $NF; sub(/.*!/, "", reason) }
    { print $3, $4, reason }' | sort >"$folder/dropped"
sort "$folder/expected.txt" | diff - "$folder/dropped" || complain "records are dropped for other reasons"
sed -nE 's/^\| [0-9]+ \| ([A-Za-z0-9]+) \|.*/\1/p' docs/REASONS.md | sort >"$folder/reasons"
[ "$(wc -l <"$folder/reasons")" -eq 40 ] || complain "docs/REASONS.md has no forty reasons"
cut -d ' ' -f 3 "$folder/dropped" | grep -v '^-$' | sort -u | diff "$folder/reasons" - || complain "a reason doesn't come"

exit "$status"
