#!/usr/bin/env bash
# What a run works out of what came in at a Linux bridge, beside what the kernel sent, is told as a script without tep works it out:
# where the kernel does what it should, where it lacks a flood entry, where its link takes shorter packets, and where it sends on
# its own, too. With LAB=1 it makes the captures anew and tries those; that needs root, ip and bridge.
set -u
cd "$(dirname "$0")/../.." || exit 1
folder=$(mktemp -d)
trap 'rm -rf "$folder"' EXIT
captures=examples/compare
status=0

# complain TEXT: a test has failed
complain() {
    echo "tests/compare/compare_lab.sh: $*"
    status=1
}

# tells STATUS CASE SAID: a run on what came in and a comparison with what left end so, say that, and print the case's report
tells() {
    local wanted=$1 case=$2 said=$3 out=$folder/$2 seen=$captures/$2 got
    mkdir "$out"
    ./tep run --settings examples/compare/settings.toml --underlay "$seen/underlay.pcap" --out "$out" "$seen"/port[123].pcap ||
        complain "the run on $case ends with $?"
    ./tep compare --worked "$out" --underlay "$seen/sent_underlay.pcap" "$seen"/sent_port[123].pcap \
        >"$folder/printed" 2>"$folder/said"
    got=$?
    [ "$got" = "$wanted" ] || complain "$case: status $got in place of $wanted"
    [ "$(cat "$folder/said")" = "$said" ] || complain "$case: it says '$(cat "$folder/said")'"
    python3 -B tests/compare/compare_lab.py "$seen" | diff - "$folder/printed" || complain "$case: another report than was worked out"
    [ "$case" = own_traffic ] && [ -n "${LAB:-}" ] && return
    diff "examples/compare/$case/report.txt" "$folder/printed" || complain "$case: another report than in examples/compare"
}

if [ -n "${LAB:-}" ]; then
    captures=$folder/captures
    mkdir "$captures"
    examples/compare/lab.sh "$captures" || { complain "examples/compare/lab.sh ends with $?"; exit 1; }
fi
tells 0 same ""
for case in no_flood small_mtu own_traffic; do
    tells 1 "$case" "what was received isn't what was sent"
done
exit "$status"
