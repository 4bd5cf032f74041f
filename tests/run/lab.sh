#!/usr/bin/env bash
# The captures of examples/lab are what its README says, a run on each decides what was worked out by hand from who sent what,
# and what a run sends is what the kernel sent. With LAB=1 it makes the captures anew and tries those; that needs root, ip,
# bridge, ethtool, tcpdump and dumpcap.
set -u
cd "$(dirname "$0")/../.." || exit 1
folder=$(mktemp -d)
trap 'rm -rf "$folder"' EXIT
lab=examples/lab
captures=$lab
status=0

# complain TEXT: a test has failed
complain() {
    echo "tests/run/lab.sh: $*"
    status=1
}

# decides DECISIONS SETTINGS CAPTURES UNDERLAY PORT1 PORT2: a run on captures of a folder decides what DECISIONS says, without
# the numbers and the moments of events
decides() {
    local out=$folder/out/$3/$2
    mkdir -p "$out"
    ./tep run --settings "$lab/$2" --out "$out" --underlay "$captures/$3/$4" "$captures/$3/$5" "$captures/$3/$6" ||
        complain "the run on $3 with $2 ends with $?"
    diff <(sed -E 's/ *#.*//' "$lab/$3/$1") <(cut -d ' ' -f 3- "$out/decisions.txt") || complain "$3 with $2: other decisions"
}

if [ -n "${LAB:-}" ]; then
    captures=$folder/lab
    mkdir "$captures"
    "$lab/lab.sh" "$captures" || { complain "$lab/lab.sh ends with $?"; exit 1; }
fi
for case in come_in both offloads other_vni port_8472; do
    decides decisions.txt settings.toml "$case" underlay.pcap port1.pcap port2.pcap
done
mv "$folder/out/both/settings.toml" "$folder/out/both/apart"
decides decisions.txt settings.toml both 'all.pcapng#underlay' 'all.pcapng#swp1' 'all.pcapng#swp2'
diff -r "$folder/out/both/apart" "$folder/out/both/settings.toml" || complain "dumpcap and tcpdump tell different things"
# With --both a run on both directions decides what it decides on what came in, by the numbers of these records.
mkdir "$folder/both"
./tep run --both --settings "$lab/settings.toml" --out "$folder/both" --underlay "$captures/both/underlay.pcap" \
    "$captures/both/port1.pcap" "$captures/both/port2.pcap" 2>"$folder/left_out" || complain "the run with --both ends with $?"
diff <(sed -E 's/ *#.*//' "$lab/both/decisions_both.txt") <(cut -d ' ' -f 3- "$folder/both/decisions.txt") ||
    complain "other decisions with --both"
diff - "$folder/left_out" <<'LEFT' || complain "other records are left out with --both"
  p1: left out 5 records that the switch sent
  p2: left out 4 records that the switch sent
  u: left out 7 records that the switch sent
LEFT
# Of a cut capture lines and summary tell all ten records that are whole, and not only the six or fewer that came in.
mkdir "$folder/cut"
head -c -5 "$captures/both/port1.pcap" >"$folder/cut.pcap"
./tep run --both --summary --settings "$lab/settings.toml" --out "$folder/cut" --underlay "$captures/both/underlay.pcap" \
    "$folder/cut.pcap" "$captures/both/port2.pcap" >"$folder/counted" 2>/dev/null || complain "the run on a cut capture ends with $?"
for told in "$folder/cut/decisions.txt" "$folder/counted"; do
    grep -qx "cut p1 10" "$told" || complain "of a cut capture $told says '$(grep cut "$told")'"
done
# Parts of it are put together to the same.
for part in 1 2-4094,none; do
    mkdir "$folder/part $part"
    ./tep run --both --segments "$part" --settings "$lab/settings.toml" --out "$folder/part $part" \
        --underlay "$captures/both/underlay.pcap" "$captures/both/port1.pcap" "$captures/both/port2.pcap" 2>"$folder/left_out_part" ||
        complain "the part $part with --both ends with $?"
    diff "$folder/left_out" "$folder/left_out_part" || complain "the part $part leaves out other records"
done
mkdir "$folder/merged"
./tep merge --out "$folder/merged" "$folder/part 1" "$folder/part 2-4094,none" || complain "the merge with --both ends with $?"
diff -r "$folder/both" "$folder/merged" || complain "parts with --both aren't the whole"
# both WORDS..: what standard error says of a run on both directions with these words; its status behind it
both() {
    ./tep run "$@" --settings "$lab/settings.toml" --summary --underlay "$captures/both/underlay.pcap" \
        "$captures/both/port1.pcap" "$captures/both/port2.pcap" 2>&1 >"$folder/summary"
    echo "status $?"
}
# No frame is met again in the same nanosecond: our own packets alone are left out. Up to 584 years behind everything is.
[ "$(both --within 0ns)" = '  u: left out 7 records that the switch sent
status 0' ] || complain "--within 0ns"
[ "$(both --within 18446744073709551615ns)" = "$(cat "$folder/left_out")
status 0" ] || complain "the longest time"
# A check of both directions tells of what --both leaves out, worked out of decisions_both.txt: of 11 records at port 1 2, 4, 6,
# 8 and 9 left, of 8 at port 2 1, 3, 5 and 7, and of 10 at the underlay all but 3, 5 and 7. Of what came in it tells nothing.
# echoes FOLDER UNDERLAY PORT1 PORT2: what a check of captures of a folder says of what came in elsewhere; its status behind it
echoes() {
    local got
    ./tep check --settings "$lab/settings.toml" --underlay "$captures/$1/$2" "$captures/$1/$3" "$captures/$1/$4" \
        >"$folder/checked" 2>&1
    got=$?
    grep -e elsewhere -e "left us" "$folder/checked"
    echo "status $got"
}
question='does this capture have what left, too? run --both, or tcpdump -Q in'
told="p1: 5 of 11 records came in elsewhere within 10 ms before: $question
p2: 4 of 8 records came in elsewhere within 10 ms before: $question
u: 7 of 10 packets left us: $question
status 0"
[ "$(echoes both underlay.pcap port1.pcap port2.pcap)" = "$told" ] || complain "a check of both directions"
[ "$(echoes both 'all.pcapng#underlay' 'all.pcapng#swp1' 'all.pcapng#swp2')" = "$told" ] ||
    complain "a check of both directions in one file"
for case in come_in offloads other_vni port_8472; do
    [ "$(echoes "$case" underlay.pcap port1.pcap port2.pcap)" = "status 0" ] || complain "a check of $case"
done
# More frames come in within that time than are known: for the last of 4,097 the first one goes, which is 4,096 us old.
PYTHONPATH=tests/lib python3 -B - "$folder/many" <<'MANY' || complain "no captures of many frames"
import pathlib
import sys

import runs

folder = pathlib.Path(sys.argv[1])
folder.mkdir()
captures = runs.Captures()
for number in range(4097):
    for port, behind in (1, 0), (2, 500):
        captures.put(f"{10**9 + 1000 * number + behind} p{port} 60 ALL M1 88B5 {number:04X}")
for tap, text in captures.of.items():
    (folder / f"{tap}.pcap").write_bytes(text)
(folder / "settings.toml").write_text(runs.BRIDGE, encoding="utf-8")
MANY
[ "$(./tep check -s "$folder/many/settings.toml" -u "$folder/many/u.pcap" "$folder"/many/p?.pcap | tail -n 2)" = \
"p2: 4097 of 4097 records came in elsewhere within 10 ms before: $question
both: 1 frame was forgotten before 10ms had passed: --within 4ms would fit" ] || complain "a check of many frames"
# Nor where a capture isn't named, or can be read only once.
[ "$(./tep check --settings "$lab/settings.toml" "$captures/both/port1.pcap" "$captures/both/port2.pcap" |
    grep -c elsewhere)" = 0 ] || complain "a check without the underlay"
[ "$(./tep check --settings "$lab/settings.toml" --underlay "$captures/both/underlay.pcap" "$captures/both/port1.pcap" \
    <(cat "$captures/both/port2.pcap") | grep -c elsewhere)" = 0 ] || complain "a check of a pipe"
# A run that stops at a fault says that alone, as without it.
cp "$captures/both/underlay.pcap" "$folder/faulty.pcap"
printf '\377%.0s' {1..16} >>"$folder/faulty.pcap"
faulty() {
    ./tep run "$@" --settings "$lab/settings.toml" --summary --underlay "$folder/faulty.pcap" \
        "$captures/both/port1.pcap" "$captures/both/port2.pcap" 2>&1 >"$folder/summary"
    echo "status $?"
}
faulty | grep -qx 'status 1' || complain "the faulty capture is no fault"
diff <(faulty) <(faulty --both) || complain "a fault with --both is told otherwise"
for time in 10 10m 1h 010ms ' 10ms' 10MS +1s 1.5s ms 18446744073709551616ns 18446744074s; do
    [ "$(both --within "$time")" = "within: $time is no time, as 500us, 10ms or 1s are
status 1" ] || complain "--within '$time'"
done
decides decisions_partial.txt partial.toml offloads underlay.pcap port1.pcap port2.pcap
# Two of the three packets that the peer sent have the sum of the pseudo header; with come_in's all are whole.
./tep check --settings "$lab/settings.toml" --underlay "$captures/offloads/underlay.pcap" |
    grep -qx 'u: 2 udp checksums left to the card: ethtool -K DEV tx off' || complain "offloads: other checksums are left to the card"
! ./tep check --settings "$lab/settings.toml" --underlay "$captures/come_in/underlay.pcap" | grep -q 'left to the card' ||
    complain "come_in: checksums are left to the card"
decides decisions_vni_5001.txt vni_5001.toml other_vni underlay.pcap port1.pcap port2.pcap
decides decisions_port_8472.txt port_8472.toml port_8472 underlay.pcap port1.pcap port2.pcap
PYTHONPATH=examples python3 -B tests/run/lab.py "$captures" "$folder/out/come_in/settings.toml" ||
    complain "the captures are others"
exit "$status"
