#!/usr/bin/env bash
# What `tep run` and `tep explain` tell besides: stories of events, tables at a moment and at the end, values of headers. What is
# expected was worked out by hand from the captures of examples/ and `docs/formats/lines.md`.
set -u
cd "$(dirname "$0")/../.." || exit 1
top=$PWD
folder=$(mktemp -d)
trap 'rm -rf "$folder"' EXIT
failures=0

complain() {
    echo "tests/outputs/reports.sh: $*"
    failures=$((failures + 1))
}

# tells STATUS FAULT WORDS..: a run on the examples with these words ends so, says this line on standard error, or nothing where
# it is empty, and prints what stands on standard input
tells() {
    local status=$1 fault=$2 got
    shift 2
    cat >"$folder/expected"
    ./tep run -s examples/a.toml -c examples/changes.toml -u examples/underlay.pcap -o "$folder/out" "$@" \
        examples/port1.pcap examples/port2.pcap examples/port3.pcap >"$folder/stdout" 2>"$folder/stderr"
    got=$?
    [ "$got" -eq "$status" ] || complain "tep run $*: status $got in place of $status"
    printf '%s' "${fault:+$fault
}" | cmp -s - "$folder/stderr" || complain "tep run $*: '$(cat "$folder/stderr")' in place of '$fault'"
    cmp -s "$folder/expected" "$folder/stdout" || complain "tep run $* prints:
$(cat "$folder/stdout")"
}

./tep >/dev/null || {
    echo "tests/outputs/reports.sh: there is no program"
    exit 1
}
mkdir "$folder/out" "$folder/plain"

# Nothing is told unasked, and what is asked for changes no output.
tells 0 "" </dev/null
cp "$folder"/out/* "$folder/plain"

# A frame that is flooded: event 8, the third record of port 1. Port 2 went down before it.
cat >"$folder/eighth" <<'T'
  length 60, at most 65535
  captured 60 of 60
  ether 02:00:00:00:00:01 > ff:ff:ff:ff:ff:ff
  port p1 up
  source individual
  destination group
  no tag
  port p1 takes frames without a vid
  segment 10 by the vid of the port
  port p1 member, untagged
  source learned at p1, before at p1 seen at 6000000000
  destination a group, flooded
  p1 is where it came from
  port p2 down
  out p3 tagged
  out vxlan:192.0.2.2 vni 5000 next hop 02:00:00:00:aa:fe, packet 96 of at most 1550
8 8000000000 p1 3 10 p3=64 192.0.2.2=110
T
tells 0 "" --why 8 <"$folder/eighth"
tells 0 "" --why p1:3 <"$folder/eighth"
tells 0 "" --why 8 --why p1:3 <"$folder/eighth"

# A packet that is dropped: it carries no IP.
tells 0 "" --why u:2 <<'T'
  length 60, at most 65549
  captured 60 of 60
  ether 02:00:00:00:aa:02 > ff:ff:ff:ff:ff:ff
  neither ip4 nor ip6
9 9000000000 u 2 - drop 12 NotIp
T

# Events that aren't there, each told in the order of the words.
tells 1 "why: no event u:3" --why u:3 </dev/null
tells 1 "why: no event u:9
why: no event 10" --why u:9 --why 8 --why p1:3 --why 10 <"$folder/eighth"

# A change: port 2 goes down.
cat >"$folder/seventh" <<'T'
  port_down port 2
  port p2 of 3
  port p2 up
7 7000000000 c 1 - done
T
tells 0 "" --why 7 <"$folder/seventh"
tells 0 "" --why c:1 <"$folder/seventh"
cmp "$folder/out/decisions.txt" "$folder/plain/decisions.txt" || complain "what is told changed the decisions"
cmp "$folder/out/underlay.pcap" "$folder/plain/underlay.pcap" || complain "what is told changed a capture"

# first STATUS FAULT LINES WORDS..: a run on the examples with these words ends so, says this on standard error, and tells the
# stories of the events with these decision lines, in this order
first() {
    local status=$1 fault=$2 lines=$3 got
    shift 3
    ./tep run -s examples/a.toml -c examples/changes.toml -u examples/underlay.pcap -o "$folder/out" "$@" \
        examples/port1.pcap examples/port2.pcap examples/port3.pcap >"$folder/stdout" 2>"$folder/stderr"
    got=$?
    [ "$got" -eq "$status" ] || complain "tep run $*: status $got in place of $status"
    [ "$(cat "$folder/stderr")" = "$fault" ] || complain "tep run $*: '$(cat "$folder/stderr")' in place of '$fault'"
    [ "$(grep -v '^  ' "$folder/stdout")" = "$lines" ] || complain "tep run $* tells: $(grep -v '^  ' "$folder/stdout")"
}

# The first event of a kind: of a reason, of any, and with an address, of each place. Addresses are those of the frame at a port,
# and of the frame in a packet; the packets' own, from 02:00:00:00:aa:02, are nobody's.
first 0 "" "9 9000000000 u 2 - drop 12 NotIp" --why drop:12
first 0 "" "9 9000000000 u 2 - drop 12 NotIp" --why drop:any
first 1 "why: no event drop:30" "" --why drop:30
first 1 "why: no event drop:39" "9 9000000000 u 2 - drop 12 NotIp" --why drop:39 --why drop:12
first 0 "" "5 5000000000 u 1 10 p1=60 p2=60 p3=64
6 6000000000 p1 2 10 192.0.2.2=110" --why mac:02:00:00:00:00:05
first 0 "" "1 1000000000 p1 1 10 p2=60 p3=64 192.0.2.2=110
2 2000000000 p3 1 20 p2=64 192.0.2.2=110
3 3000000000 p2 1 10 p1=60
9 9000000000 u 2 - drop 12 NotIp" --why mac:02:00:00:00:00:01 --why drop:any
first 0 "" "1 1000000000 p1 1 10 p2=60 p3=64 192.0.2.2=110
2 2000000000 p3 1 20 p2=64 192.0.2.2=110
5 5000000000 u 1 10 p1=60 p2=60 p3=64
8 8000000000 p1 3 10 p3=64 192.0.2.2=110" --why 8 --why mac:FF:ff:FF:ff:FF:ff
first 1 "why: no event mac:02:00:00:00:aa:02" "" --why mac:02:00:00:00:aa:02
tells 0 "" --why drop:12 <<'T'
  length 60, at most 65549
  captured 60 of 60
  ether 02:00:00:00:aa:02 > ff:ff:ff:ff:ff:ff
  neither ip4 nor ip6
9 9000000000 u 2 - drop 12 NotIp
T
cmp "$folder/out/decisions.txt" "$folder/plain/decisions.txt" || complain "the first of a kind changed the decisions"

# Names that no event can have, refused before anything is touched.
for name in foo 0 01 p0:1 p256:1 p1:0 u: x:1 drop drop: drop:0 drop:41 drop:99 drop:07 drop:Any mac: mac:zz mac:02:00:00:00:00 \
    mac:02:00:00:00:00:01: 18446744073709551616; do
    tells 2 "error: no event can be called '$name': --why takes 7, p2:7, u:13, c:1, drop:30, drop:any or mac:02:00:00:00:00:01" \
        --why 8 --why "$name" </dev/null
    cmp -s "$folder/out/decisions.txt" "$folder/plain/decisions.txt" || complain "--why $name touched the outputs"
done

# Without a folder nothing is written, and the same is told.
mkdir "$folder/none"
# unwritten FILE WORDS..: a run on the examples without a folder prints this file
unwritten() {
    local expected=$1
    shift
    (cd "$folder/none" && "$top/tep" run -s "$top/examples/a.toml" -c "$top/examples/changes.toml" -u "$top/examples/underlay.pcap" \
        "$@" "$top"/examples/port[123].pcap) >"$folder/stdout" 2>"$folder/stderr" || complain "tep run $* without --out: status $?"
    cmp -s "$expected" "$folder/stdout" || complain "tep run $* without --out prints: $(cat "$folder/stdout")"
    [ -s "$folder/stderr" ] && complain "tep run $* without --out: $(cat "$folder/stderr")"
    [ -z "$(ls -A "$folder/none")" ] || complain "tep run $* without --out leaves $(ls -A "$folder/none")"
}
unwritten "$folder/eighth" --why 8
unwritten "$folder/seventh" --why c:1

# The tables behind event 4, just before 5 s, and at the last one, at 9 s: what was learned at port 2 went when it went down. An
# entry is live for less than 300 s.
tells 0 "" --tables-at 4999999999 <<'T'
segment 10 02:00:00:00:00:01 p1 seen 1000000000 age 3.999999999
segment 10 02:00:00:00:00:02 p2 seen 3000000000 age 1.999999999
segment 20 02:00:00:00:00:01 p3 seen 2000000000 age 2.999999999
segment 20 02:00:00:00:00:02 p2 seen 4000000000 age 0.999999999
T
tells 0 "" --tables-at 4000000000 <<'T'
segment 10 02:00:00:00:00:01 p1 seen 1000000000 age 3.000000000
segment 10 02:00:00:00:00:02 p2 seen 3000000000 age 1.000000000
segment 20 02:00:00:00:00:01 p3 seen 2000000000 age 2.000000000
segment 20 02:00:00:00:00:02 p2 seen 4000000000 age 0.000000000
T
tells 0 "" --tables-at 304999999999 <<'T'
segment 10 02:00:00:00:00:01 p1 seen 8000000000 age 296.999999999
segment 10 02:00:00:00:00:05 192.0.2.2 seen 5000000000 age 299.999999999
T
tells 0 "" --tables-at 305000000000 <<'T'
segment 10 02:00:00:00:00:01 p1 seen 8000000000 age 297.000000000
T
cat >"$folder/last" <<'T'
segment 10 02:00:00:00:00:01 p1 seen 8000000000 age 1.000000000
segment 10 02:00:00:00:00:05 192.0.2.2 seen 5000000000 age 4.000000000
segment 20 02:00:00:00:00:01 p3 seen 2000000000 age 7.000000000
T
tells 0 "" --tables <"$folder/last"
tells 0 "" --tables-at 9000000000 <"$folder/last"
tells 0 "" --tables-at 18446744073709551615 </dev/null
tells 0 "" --tables-at 0 </dev/null
tells 0 "" --tables --why 8 < <(cat "$folder/eighth" "$folder/last")

# What was counted: the outlets and drops of the decision lines, and the records of the captures.
cat >"$folder/counts" <<'T'
segment 10 sent 10
segment 20 sent 3
segment none dropped 12 NotIp 1
place p1 in 3 180
place p1 out 2 120
place p2 in 2 124
place p2 out 3 184
place p3 in 1 64
place p3 out 4 256
place u in 2 170
place u out 4 440
remote vxlan:192.0.2.2 in 1 110 out 3 330
remote geneve:192.0.2.2 in 0 0 out 1 110
T
tells 0 "" --summary <"$folder/counts"
tells 0 "" --summary --tables --why 8 < <(cat "$folder/eighth" "$folder/last" "$folder/counts")

# Who sent to whom: events 1 and 8 are one talk, and event 9 came to no segment.
cat >"$folder/talks" <<'T'
talk 10 02:00:00:00:00:01 p1 > ff:ff:ff:ff:ff:ff flood 2 120 first 1000000000 last 8000000000
talk 10 02:00:00:00:00:01 p1 > 02:00:00:00:00:05 vxlan:192.0.2.2 1 60 first 6000000000 last 6000000000
talk 10 02:00:00:00:00:02 p2 > 02:00:00:00:00:01 p1 1 60 first 3000000000 last 3000000000
talk 10 02:00:00:00:00:05 vxlan:192.0.2.2 > ff:ff:ff:ff:ff:ff flood 1 60 first 5000000000 last 5000000000
talk 20 02:00:00:00:00:01 p3 > ff:ff:ff:ff:ff:ff flood 1 60 first 2000000000 last 2000000000
talk 20 02:00:00:00:00:02 p2 > 02:00:00:00:00:01 p3 1 60 first 4000000000 last 4000000000
T
tells 0 "" --talkers <"$folder/talks"
tells 0 "" --summary --talkers < <(cat "$folder/counts" "$folder/talks")
unwritten "$folder/talks" --talkers
unwritten "$folder/last" --tables
unwritten "$folder/last" --tables-at 9000000000
unwritten "$folder/counts" --summary
cmp "$folder/out/decisions.txt" "$folder/plain/decisions.txt" || complain "counting changed the decisions"
cmp "$folder/out/underlay.pcap" "$folder/plain/underlay.pcap" || complain "counting changed a capture"

# Each reason comes once in these captures. What was sent and dropped is counted once more, from the decision lines.
mkdir "$folder/in" "$folder/each"
python3 examples/reasons.py "$folder/in" || complain "reasons.py fails"
./tep run -s examples/every_key.toml -c examples/every_change.toml -u "$folder/in/underlay.pcap" -o "$folder/each" --summary \
    "$folder"/in/port[1-4].pcap >"$folder/stdout" || complain "tep run --summary fails on each reason"
awk '$1 == "segment" && $3 == "sent" { print $2, "sent", $4 }
    $1 == "segment" && $3 == "dropped" { print $2, $5, $6 }' "$folder/stdout" | sort >"$folder/summed"
awk '$3 != "c" && $1 != "cut" {
        segment = $5 == "-" ? "none" : $5
        if ($6 == "drop") { n[segment " " $8]++; next }
        for (i = 6; i <= NF; i++) {
            if ($i ~ /=/) n[segment " sent"]++
            else { split($i, part, "!"); n[segment " " part[2]]++ }
        }
    }
    END { for (i in n) print i, n[i] }' "$folder/each/decisions.txt" | sort >"$folder/counted"
cmp -s "$folder/counted" "$folder/summed" || complain "tep run --summary counts otherwise: $(diff "$folder/counted" "$folder/summed")"
[ "$(awk '$2 != "sent" { print $2 }' "$folder/summed" | sort -u | wc -l)" -eq 40 ] || complain "not all reasons are counted"

# The first event of each reason, looked up in the decision lines; once more where each packet comes twice.
# firsts NUMBER: the decision lines of the first event of each reason, or of this one
firsts() {
    awk -v only="$1" 'FNR == NR { number[$3] = $2; next }
        $3 == "c" || $1 == "cut" { next }
        {
            is_new = 0
            for (i = 6; i <= NF; i++) {
                name = $6 == "drop" ? $8 : $i
                sub(/.*!/, "", name)
                if (name in number && (only == "any" || only == number[name]) && !(name in seen)) { seen[name] = 1; is_new = 1 }
            }
            if (is_new) print
        }' FS='[| ]+' docs/REASONS.md FS=' ' "$folder/each/decisions.txt"
}
for copies in 1 2; do
    [ "$copies" -eq 2 ] && tail -c +25 "$folder/in/underlay.pcap" >"$folder/again" && cat "$folder/again" >>"$folder/in/underlay.pcap"
    for number in any {1..40}; do
        ./tep run -s examples/every_key.toml -c examples/every_change.toml -u "$folder/in/underlay.pcap" -o "$folder/each" \
            --why "drop:$number" "$folder"/in/port[1-4].pcap >"$folder/stdout" || complain "tep run --why drop:$number: status $?"
        firsts "$number" >"$folder/looked_up"
        [ -s "$folder/looked_up" ] || complain "no event is dropped for $number"
        grep -v '^  ' "$folder/stdout" | cmp -s - "$folder/looked_up" ||
            complain "--why drop:$number tells: $(grep -v '^  ' "$folder/stdout")"
    done
done

# A run that stops at a fault tells what it saw: the second record of port 1 has a second in its fraction.
{
    head -c 100 examples/port1.pcap
    printf '\006\0\0\0\100\102\017\0'
    tail -c +109 examples/port1.pcap
} >"$folder/fault.pcap"
./tep run -s examples/smallest.toml -u examples/underlay.pcap -o "$folder/out" --tables-at 0 --why 1 "$folder/fault.pcap" \
    >"$folder/stdout" 2>"$folder/stderr"
[ $? -eq 1 ] || complain "a run that stops: another status"
[ "$(cat "$folder/stderr")" = "p1: BadFraction 2
  $folder/fault.pcap: record 2 is damaged: editcap -F nsecpcap -r $folder/fault.pcap OUT 1-1 keeps those before" ] ||
    complain "a run that stops: $(cat "$folder/stderr")"
[ "$(tail -n 1 "$folder/stdout")" = "1 1000000000 p1 1 10 192.0.2.2=110" ] || complain "a run that stops tells: $(cat "$folder/stdout")"

# The values of each header; without the option none.
./tep explain -s examples/a.toml --values examples/underlay.pcap >"$folder/stdout" || complain "tep explain --values fails"
cmp - "$folder/stdout" <<'T' || complain "tep explain --values prints: $(cat "$folder/stdout")"
1 5000000000 u 1 10 p1=60 p2=60 p3=64
  ether 0 12 02:00:00:00:aa:02 > 02:00:00:00:aa:01
  type 12 2 0x0800
  ip4 14 20 192.0.2.2 > 192.0.2.1 ttl 64 length 96 protocol 17
  udp 34 8 50000 > 4789 length 76 checksum 0x0000
  vxlan 42 8 vni 5000
  ether 50 12 02:00:00:00:00:05 > ff:ff:ff:ff:ff:ff
  type 62 2 0x0806
  payload 64 46
  stop 12 NotIp
2 9000000000 u 2 - drop 12 NotIp
  ether 0 12 02:00:00:00:aa:02 > ff:ff:ff:ff:ff:ff
  type 12 2 0x0806
  payload 14 46
  stop 12 NotIp
T
[ "$failures" -eq 0 ]
