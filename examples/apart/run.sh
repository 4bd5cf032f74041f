#!/usr/bin/env bash
# Runs the endpoint twice, on inputs that differ in one tenant's traffic only, and compares what leaves for the others
# and what is told of them.
#
#     examples/apart/run.sh [FOLDER]    keeps all files in FOLDER
set -u
cd "$(dirname "$0")/../.." || exit 1
folder=${1:-$(mktemp -d)}
[ $# -gt 0 ] || trap 'rm -rf "$folder"' EXIT

fail() {
    echo "examples/apart/run.sh: $*" >&2
    exit 1
}

mkdir -p "$folder"
python3 examples/apart/make.py "$folder" || fail "no captures"
for name in quiet storm; do
    run=$folder/$name
    "${TEP:-./tep}" run --settings "$folder/settings.toml" --changes "$run/changes.toml" \
        --underlay "$run/underlay.pcap" --out "$run/out" "$run"/port{1..3}.pcap || fail "the run of $name was refused"
done
python3 examples/apart/make.py compare "$folder" || fail "the tenants aren't apart"
