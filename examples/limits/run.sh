#!/usr/bin/env bash
# Runs the endpoint with as much of everything as there may be. What it has to decide is worked out beside the captures, in
# Python.
#
#     examples/limits/run.sh [FOLDER]    keeps all files in FOLDER
#
# With settings of version 1: 16 ports, 256 segments of 16 remotes and 256 addresses, 10,000 changes, 100,000 records in one
# capture, a record of 262,144 octets. With settings of version 3: 255 ports, 4,094 segments, 256 remotes of a segment, 4,096 next
# hops and a pool of 1,048,576 addresses, which fills up; and 2,048 segments, 512 remotes of a segment, and lists of so many that
# changes fill and empty.
set -u
cd "$(dirname "$0")/../.." || exit 1
folder=${1:-$(mktemp -d)}
[ $# -gt 0 ] || trap 'rm -rf "$folder"' EXIT

fail() {
    echo "examples/limits/run.sh: $*" >&2
    exit 1
}

# runs SCRIPT PORTS WORDS..: the run on what the script writes decides what it says, with these words besides, and a look at the texts
# prints what it says
runs() {
    local script=examples/limits/$1 in=$folder/${1%.py}/in out=$folder/${1%.py}/out last=$2 captures=() port
    shift 2
    mkdir -p "$in" "$out"
    python3 -B "$script" "$in" || fail "no captures"
    ./tep check --settings "$in/settings.toml" "${@/#FOLDER/$in}" >"$out/check.txt"
    cmp "$in/check.txt" "$out/check.txt" || fail "a look at the texts says '$(head -n 3 "$out/check.txt")'"
    for ((port = 1; port <= last; port++)); do captures+=("$in/port$port.pcap"); done
    ./tep run --settings "$in/settings.toml" "${@/#FOLDER/$in}" --underlay "$in/underlay.pcap" --out "$out" "${captures[@]}" ||
        fail "the run was refused"
    cmp "$in/decisions.txt" "$out/decisions.txt" || fail "other decisions"
    python3 -B "$script" read "$in" "$out" || fail "other captures"
}

runs make.py 16 --changes FOLDER/changes.toml
runs most.py 255
runs floods.py 255 --changes FOLDER/changes.toml
