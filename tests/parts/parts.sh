#!/usr/bin/env bash
# Runs of examples/ cut into parts by segments and put together again are the whole run, octet for octet: cut into each pair of
# parts that has each segment in one of them, and one of them into each segment by itself. What isn't a whole run is refused,
# and said in one line. A part to which digests are lent is the part that takes them itself.
set -u
# What stands last in a pipe runs in this shell, so that its complaints count.
shopt -s lastpipe
cd "$(dirname "$0")/../.." || exit 1
folder=$(mktemp -d)
trap 'rm -rf "$folder"' EXIT
failures=0

complain() {
    echo "tests/parts/parts.sh: $*"
    failures=$((failures + 1))
}

./tep >/dev/null || {
    echo "tests/parts/parts.sh: there is no program"
    exit 1
}

# runs OUT LIST WORDS..: a run into a folder, of these segments or, where the list is empty, of all
runs() {
    local out=$folder/$1 list=$2
    shift 2
    mkdir -p "$out"
    ./tep run --out "$out" ${list:+--segments "$list"} "$@" >"$folder/stdout" 2>"$folder/stderr" ||
        complain "tep run --segments '$list' $*: status $? and '$(cat "$folder/stderr")'"
}

# What runs and merges are asked to print besides, and what the whole run printed of it.
besides=()
: >"$folder/told"

# is_whole PARTS..: the merge of these parts, in any order, has what the whole run has, and prints what it printed, and nothing else
is_whole() {
    rm -rf "$folder/merged"
    mkdir "$folder/merged"
    ./tep merge "${besides[@]}" --out "$folder/merged" "${@/#/$folder/}" >"$folder/stdout" 2>"$folder/stderr" ||
        complain "tep merge of $*: status $? and '$(cat "$folder/stderr")'"
    diff "$folder/told" "$folder/stdout" >"$folder/differences" ||
        complain "the merge of $* prints otherwise: $(head -n 3 "$folder/differences")"
    diff -r "$folder/whole" "$folder/merged" >"$folder/differences" ||
        complain "the merge of $* isn't the run: $(head -n 3 "$folder/differences")"
}

# in_pairs WORDS..: a run cut into each pair of parts of the segments 10, 20, 30, the other VIDs, and what comes to no segment;
# its tables and its counts too
in_pairs() {
    local pair one other item names=(10 20 30 1-9,11-19,21-29,31-4094 none)
    rm -rf "$folder"/{whole,one,other,merged}
    besides=(--tables --summary)
    runs whole "" "${besides[@]}" "$@"
    cp "$folder/stdout" "$folder/told"
    for ((pair = 1; pair < 31; pair++)); do
        one=
        other=
        for item in 0 1 2 3 4; do
            if ((pair >> item & 1)); then one=${one:+$one,}${names[item]}; else other=${other:+$other,}${names[item]}; fi
        done
        runs one "$one" "${besides[@]}" "$@"
        cat "$folder"/one/{tables,summary}.txt | cmp -s - "$folder/stdout" || complain "a part leaves something else than it prints"
        runs other "$other" "${besides[@]}" "$@"
        is_whole one other
        is_whole other one
    done
    besides=()
    : >"$folder/told"
}

a=(--settings examples/a.toml --underlay examples/underlay.pcap)
ports=(examples/port1.pcap examples/port2.pcap examples/port3.pcap)
in_pairs "${a[@]}" --changes examples/changes.toml "${ports[@]}"
in_pairs "${a[@]}" --changes examples/segments.toml "${ports[@]}"
in_pairs --settings examples/two_tunnels.toml --changes examples/two_tunnels_changes.toml --underlay examples/underlay.pcap "${ports[@]}"
in_pairs --settings examples/linux/settings.toml --underlay examples/linux/underlay.pcap \
    examples/linux/port1.pcap examples/linux/port2.pcap examples/linux/port3.pcap

# A run in which a frame is dropped for each of the forty reasons, also before it comes to a segment.
mkdir "$folder/reasons"
python3 examples/reasons.py "$folder/reasons" >/dev/null || complain "examples/reasons.py: status $?"
in_pairs --settings examples/every_key.toml --changes examples/every_change.toml --underlay "$folder/reasons/underlay.pcap" \
    "$folder"/reasons/port1.pcap "$folder"/reasons/port2.pcap "$folder"/reasons/port3.pcap "$folder"/reasons/port4.pcap

# ---- 256 segments in four parts

python3 bench/many_tenants.py "$folder" 256 4 4 >/dev/null || complain "bench/many_tenants.py: status $?"
many=(--settings "$folder/settings.toml" --underlay "$folder/underlay.pcap" "$folder/port1.pcap" "$folder/port2.pcap")
rm -rf "$folder/whole"
runs whole "" "${many[@]}"
runs first 1-64 "${many[@]}"
runs second 65-128 "${many[@]}"
runs third 129-192 "${many[@]}"
runs fourth 193-4094,none "${many[@]}"
is_whole third first fourth second

# ---- captures that end with a cut rest: their lines stand once, and last

head -c -3 examples/port2.pcap >"$folder/cut.pcap"
cut=("${a[@]}" examples/port1.pcap "$folder/cut.pcap" examples/port3.pcap)
rm -rf "$folder/whole"
runs whole "" "${cut[@]}"
grep -qx "cut p2 1" "$folder/whole/decisions.txt" || complain "the cut capture has no line"
runs one 1-4094 "${cut[@]}"
runs other none "${cut[@]}"
is_whole one other

# ---- captures that hold both directions: a part tells what it left out of them, and those of one run leave out the same

both=("${a[@]}" "${ports[@]}")
rm -rf "$folder/whole"
runs whole "" --both "${both[@]}"
runs bidirectional 1-15 --both "${both[@]}"
runs beyond 16-4094,none --within 10ms "${both[@]}"
is_whole bidirectional beyond
is_whole beyond bidirectional
runs sooner 16-4094,none --both --within 2ms "${both[@]}"
runs alone 16-4094,none "${both[@]}"
[ "$(sed -n '/^capture u /{n;p}' "$folder/bidirectional/shard.txt")" = "both 10000000" ] || complain "a part with --both tells no time"
[ "$(sed -n '/^capture u /{n;p}' "$folder/sooner/shard.txt")" = "both 2000000" ] || complain "a part with --within tells another time"
[ "$(head -n 1 "$folder/bidirectional/shard.txt")" = "tep shard 5" ] || complain "a part with --both has a text of another version"
[ "$(head -n 1 "$folder/alone/shard.txt")" = "tep shard 4" ] || complain "a part without --both has a text of another version"
! grep -q "^both" "$folder/alone/shard.txt" || complain "a part without --both tells a time"

# ---- tables of a part: the lines that the whole run has of its segments, with an entry of each that is fixed

{
    for vid in 10 20; do
        printf '[[change]]\nkind = "fix"\nat = 0\nvid = %s\nmac = "02:00:00:00:00:%s"\nport = 3\n\n' "$vid" "$vid"
    done
    cat examples/changes.toml
} >"$folder/fixed.toml"
fixed=("${a[@]}" --changes "$folder/fixed.toml" "${ports[@]}")

# prints WORDS..: the whole run's tables, asked for so
prints() {
    words=("$@")
    runs whole "" "$@" "${fixed[@]}"
    cp "$folder/stdout" "$folder/tables"
}

# tells LIST PATTERN: the tables of the part with these segments are the whole run's lines that begin so
tells() {
    runs one "$1" "${words[@]}" "${fixed[@]}"
    grep "^$2" "$folder/tables" | cmp -s - "$folder/stdout" || complain "${words[*]} of the part $1: $(cat "$folder/stdout")"
    cat "$folder/stdout" >>"$folder/parts"
}

prints --tables
for vid in 10 20; do
    grep -qx "segment $vid 02:00:00:00:00:$vid p3 fixed" "$folder/tables" || complain "the whole run's tables have no fixed entry of $vid"
done

tells 10,20 "segment "
tells none,1-9 "nothing"

# Behind each event of the run, between events and at the end: the parts' lines, put together by their segments, are the run's.
for moment in 0 1000000000 2000000000 3000000000 4000000000 4999999999 5000000000 6000000000 6999999999 7000000000 8000000000 \
    18446744073709551615; do
    prints --tables-at "$moment"
    : >"$folder/parts"
    tells 20 "segment 20 "
    tells none,1-9,11-19,21-4094 "nothing"
    tells 10 "segment 10 "
    sort -s -n -k 2,2 "$folder/parts" | cmp -s - "$folder/tables" || complain "the parts' tables at $moment aren't the run's"
done

# ---- what isn't a whole run, or no part at all

rm -rf "$folder"/{whole,one,other,merged,out}
mkdir "$folder/out"
whole=("${a[@]}" --changes examples/changes.toml "${ports[@]}")
runs one 1-15 "${whole[@]}"
runs other 16-4094,none "${whole[@]}"
runs above 15-4094,none "${whole[@]}"
runs vids 16-4094 "${whole[@]}"
runs unchanged 16-4094,none "${a[@]}" "${ports[@]}"
runs second 16-4094,none --settings examples/b.toml --changes examples/changes.toml --underlay examples/underlay.pcap "${ports[@]}"
runs captured 16-4094,none "${a[@]}" --changes examples/changes.toml examples/port1.pcap examples/port3.pcap examples/port3.pcap
runs under 16-4094,none --settings examples/a.toml --changes examples/changes.toml --underlay examples/port1.pcap "${ports[@]}"

# Where fewer files may be open than a merge opens, and more if it asks, it asks.
mkdir "$folder/merged"
(ulimit -S -n 12 && exec ./tep merge --out "$folder/merged" "$folder/one" "$folder/other") >"$folder/stdout" 2>"$folder/stderr" ||
    complain "tep merge where 12 files may be open: status $? and '$(cat "$folder/stderr")'"
rm -rf "$folder/merged"

# refused STATUS FAULT WORDS..: the program ends so, and says this in its first line; where a part is named by its folder, it is
# told so
refused() {
    local status=$1 fault=$2 got
    shift 2
    (cd "$folder" && "$tep" "$@") >"$folder/stdout" 2>"$folder/stderr"
    got=$?
    [ "$got" -eq "$status" ] || complain "tep $*: status $got in place of $status"
    [ "$(head -n 1 "$folder/stderr")" = "$fault" ] || complain "tep $*: '$(cat "$folder/stderr")' in place of '$fault'"
    [ ! -s "$folder/stdout" ] || complain "tep $* prints something"
}
tep=$PWD/tep

refused 1 "no part has segment 16" merge --out out one
refused 1 "no part has segment 1" merge --out out other
refused 1 "more than one part has segment 1" merge --out out one other one
refused 1 "more than one part has segment 15" merge --out out one above
refused 1 "no part has what comes to no segment ('none')" merge --out out one vids
refused 1 "part unchanged: it was made with other changes than the first part" merge --out out one unchanged
refused 1 "part second: it was made with other settings than the first part" merge --out out one second
refused 1 "part captured: it was made from another capture p2 than the first part" merge --out out one captured
refused 1 "part under: it was made from another capture u than the first part" merge --out out one under
refused 1 "part sooner: it was made with another --both or --within than the first part" merge --out out bidirectional sooner
refused 1 "part bidirectional: it was made with another --both or --within than the first part" merge --out out sooner bidirectional
refused 1 "part bidirectional: it was made with another --both or --within than the first part" merge --out out alone bidirectional
refused 3 "read nowhere" merge --out out one nowhere
refused 3 "write decisions.txt" merge --out one one other
[ -z "$(ls "$folder/out")" ] || complain "a merge that was refused left something"

# replaced FILE: what stands on standard input stands in a file of the second part
replaced() {
    rm -rf "$folder/broken"
    cp -r "$folder/other" "$folder/broken"
    cat >"$folder/text"
    cp "$folder/text" "$folder/broken/$1"
}

# foreign FILE FAULT WORDS..: where what stands on standard input stands in a file of the second part, and its shard.txt tells
# what it told, merging with these words says this
foreign() {
    replaced "$1"
    refused 1 "part broken: $2" merge "${@:3}" --out out one broken
}

# broken FILE FAULT WORDS..: the same where the shard.txt tells of the outputs as they are now
broken() {
    replaced "$1"
    [ "$1" = shard.txt ] || tests/lib/part_outputs.py "$folder/broken"
    refused 1 "part broken: $2" merge "${@:3}" --out out one broken
}

# What shard.txt tells of its outputs is what another program finds of them.
for part in one other second vids; do
    cp -r "$folder/$part" "$folder/told_again"
    tests/lib/part_outputs.py "$folder/told_again"
    diff -r "$folder/$part" "$folder/told_again" || complain "the shard.txt of the part $part tells otherwise of its outputs"
    rm -r "$folder/told_again"
done

# turned FILE PLACE: a file of the second part in which the octet at a place is another one
turned() {
    python3 -c 'import sys
text = bytearray(open(sys.argv[1], "rb").read())
text[int(sys.argv[2])] ^= 1
sys.stdout.buffer.write(text)' "$folder/other/$1" "$2"
}

# Other outputs than the part wrote. Where their octets are as many, what was merged stands.
sed '1s/ / 0/' "$folder/other/decisions.txt" |
    foreign decisions.txt "decisions.txt has another number of octets than shard.txt says"
for output in port2.pcap underlay.pcap; do
    cat "$folder/other/$output" <(printf x) | foreign "$output" "$output has another number of octets than shard.txt says"
done
[ -z "$(ls "$folder/out")" ] || complain "a merge of outputs of another length left something"
turned port2.pcap 30 | foreign port2.pcap "port2.pcap has other octets than shard.txt says"
turned port2.pcap 45 | foreign port2.pcap "port2.pcap has other octets than shard.txt says"
turned port3.pcap 4 | foreign port3.pcap "p3 NotPcap"
turned decisions.txt 3 | foreign decisions.txt "decisions.txt has other octets than shard.txt says"
[ "$(ls "$folder/out")" = "$(printf '%s\n' decisions.txt port1.pcap port2.pcap port3.pcap underlay.pcap unfinished.txt)" ] ||
    complain "a merge of other octets leaves $(ls "$folder/out")"
rm -f "$folder"/out/*
sed 's/^\(output p2\) [0-9]*/\1 9/' "$folder/other/shard.txt" |
    foreign shard.txt "decisions.txt tells another number of records of port2.pcap than shard.txt says"
sed 's/^\(output u\) [0-9]*/\1 9/' "$folder/other/shard.txt" |
    foreign shard.txt "decisions.txt tells another number of records of underlay.pcap than shard.txt says"
sed 's/^\(output decisions\) [0-9]*/\1 9/' "$folder/other/shard.txt" |
    foreign shard.txt "decisions.txt has another number of lines than shard.txt says"

# Accidents that are even: the highest bits of two words, or of all of them, as a line leaves them that is stuck, and blocks of
# 512 octets exchanged that are 2,048 apart. The capture is long enough for that: each frame has its number in its end.
python3 tests/parts/accidents.py "$folder" || complain "tests/parts/accidents.py: status $?"

# A whole run over a part's folder leaves no shard.txt; with the part's own beside its outputs it is refused.
cp -r "$folder/other" "$folder/over"
runs over "" "${whole[@]}"
refused 3 "read over" merge --out out one over
cp "$folder/other/shard.txt" "$folder/over/shard.txt"
refused 1 "part over: decisions.txt has another number of events than shard.txt says" merge --out out one over
rm -rf "$folder/over"

# The outputs of a part of another run that is as long: the captures are the same but for a moment.
cp -r "$folder/other" "$folder/over"
for port in 1 2 3; do
    turned_capture=$folder/moved$port.pcap
    python3 -c 'import struct, sys
text = bytearray(open(sys.argv[1], "rb").read())
at = 24
while at < len(text):
    seconds, parts, captured = struct.unpack_from("<III", text, at)
    struct.pack_into("<I", text, at + 4, parts + 1)
    at += 16 + captured
open(sys.argv[2], "wb").write(text)' "examples/port$port.pcap" "$turned_capture"
done
runs over 16-4094,none "${a[@]}" --changes examples/changes.toml "$folder"/moved{1,2,3}.pcap
cp "$folder/other/shard.txt" "$folder/over/shard.txt"
refused 1 "part over: decisions.txt has other octets than shard.txt says" merge --out out one over
rm -f "$folder"/out/*

# The versions before, of which the first told nothing of its outputs, and other texts that are no such record.
for version in 1 2 3; do
    sed "1s/4$/$version/" "$folder/other/shard.txt" |
        foreign shard.txt "shard.txt: it is of an older version, whose sums tell too little of the part's outputs: run the part again"
done
sed '/^output p3 /d' "$folder/other/shard.txt" |
    foreign shard.txt "shard.txt: the line of an output is missing, out of place or has no four numbers"
sed 's/^output u /output u 0/' "$folder/other/shard.txt" |
    foreign shard.txt "shard.txt: the line of an output is missing, out of place or has no four numbers"
{ cat "$folder/other/shard.txt" && echo; } | foreign shard.txt "shard.txt: something stands behind the line of the last output"
broken shard.txt "shard.txt: the first line is not 'tep shard 4'" </dev/null
sed 's/^segments .*/segments 16-4094,nothing/' "$folder/other/shard.txt" |
    broken shard.txt "shard.txt: an item of the list is no VID of 1 to 4094, no range of them and not 'none'"
sed 's/^events .*/events 07/' "$folder/other/shard.txt" |
    broken shard.txt "shard.txt: behind the captures there is no line 'events' with a number"
head -n 1 "$folder/other/decisions.txt" | broken decisions.txt "decisions.txt has another number of events than shard.txt says"
head -c -1 "$folder/other/decisions.txt" | broken decisions.txt "line NoEnd"
sed '1s/^/x/' "$folder/other/decisions.txt" | broken decisions.txt "line Number"
sed '2s/^[0-9]* /1 /' "$folder/other/decisions.txt" | broken decisions.txt "event 1 behind a later one"
sed '2s/^[0-9]* /2 /' "$folder/other/decisions.txt" | broken decisions.txt "event 2 doubled"
sed '1s/p2=/p9=/' "$folder/other/decisions.txt" | broken decisions.txt "p9 isn't there"
{ printf '%0131072d ' 0; cat "$folder/other/decisions.txt"; } | broken decisions.txt "long line"
head -c 24 "$folder/other/port2.pcap" | broken port2.pcap "p2 Missing"
head -c -1 "$folder/other/port2.pcap" | broken port2.pcap "p2 Missing"
cat "$folder/other/port2.pcap" <(tail -c +25 "$folder/other/port2.pcap") | broken port2.pcap "p2 LeftOver"
head -c 20 "$folder/other/underlay.pcap" | broken underlay.pcap "u NotPcap"

# missing NUMBER LINES EVENTS: where these lines are gone from the second part, whose events are 2, 4, 7 and 9 and whose shard.txt
# then tells so many events, the first number that no part has is told
missing() {
    rm -rf "$folder/broken"
    cp -r "$folder/other" "$folder/broken"
    sed -i "$2d" "$folder/broken/decisions.txt"
    sed -i "s/^events .*/events $3/" "$folder/broken/shard.txt"
    tests/lib/part_outputs.py "$folder/broken"
    refused 1 "missing $1" merge --out out one broken
    rm -f "$folder"/out/*
}

missing 2 1 3
missing 7 3 3
missing 4 2,3 2
missing 2 1,3 1
rm -rf "$folder/broken"
cp -r "$folder/other" "$folder/broken"
tac "$folder/other/decisions.txt" >"$folder/broken/decisions.txt"
tests/lib/part_outputs.py "$folder/broken"
refused 1 "missing 2" merge --out out one broken
rm -f "$folder"/out/*

# What a merge doesn't notice (docs/formats/parts.md): another octet of a record, of its moment or of a line's
# second word, where shard.txt tells of the output as it is now; and lists of segments that two parts exchanged.
"$tep" merge --out "$folder/out" "$folder/one" "$folder/other" || complain "the parts aren't merged"
mkdir "$folder/sound"
mv "$folder"/out/* "$folder/sound"

# unnoticed FILE: where what stands on standard input stands in a file of the second part and its shard.txt tells of that, the
# parts are merged, and the whole has one other octet, in that file
unnoticed() {
    replaced "$1"
    tests/lib/part_outputs.py "$folder/broken"
    "$tep" merge --out "$folder/out" "$folder/one" "$folder/broken" || complain "another octet in $1 is noticed"
    [ "$(cmp -l "$folder/sound/$1" "$folder/out/$1" | wc -l)" -eq 1 ] || complain "another octet in $1 isn't merged as it is"
    cp "$folder/sound/$1" "$folder/out/$1"
    diff -r "$folder/sound" "$folder/out" || complain "another octet in $1 changes another output"
    rm -f "$folder"/out/*
}

turned port2.pcap 28 | unnoticed port2.pcap
turned port2.pcap 45 | unnoticed port2.pcap
turned decisions.txt 3 | unnoticed decisions.txt
cp -r "$folder/one" "$folder/exchanged"
sed -i 's/^segments .*/segments 16-4094,none/' "$folder/exchanged/shard.txt"
sed 's/^segments .*/segments 1-15/' "$folder/other/shard.txt" | replaced shard.txt
"$tep" merge --out "$folder/out" "$folder/exchanged" "$folder/broken" || complain "exchanged lists of segments are noticed"
diff -r "$folder/sound" "$folder/out" || complain "exchanged lists of segments change the whole"
rm -f "$folder"/out/*
rm -r "$folder/sound" "$folder/exchanged"

# ---- tables and counts of parts

# A part that wasn't asked for them has none.
refused 1 "part one: it has no summary.txt" merge --summary --out out one other
refused 1 "part one: it has no tables.txt" merge --tables --summary --out out one other
runs one 1-15 --tables --summary "${whole[@]}"
refused 1 "part other: it has no tables.txt" merge --tables --out out one other
runs other 16-4094,none --tables --summary "${whole[@]}"

# Texts that are none, or of other segments.
sed 's/^segment 20 sent 3$/segment 20 sent 03/' "$folder/other/summary.txt" | broken summary.txt "summary.txt: line 1" --summary
sed 's/^segment 20 /segment 4095 /' "$folder/other/summary.txt" | broken summary.txt "summary.txt: line 1" --summary
sed '3{h;d};4G' "$folder/other/summary.txt" | broken summary.txt "summary.txt: line 3" --summary
sed '/^place u out /d' "$folder/other/summary.txt" | broken summary.txt "summary.txt: line 10" --summary
sed 's/^remote geneve:192.0.2.2 /remote geneve:192.0.2.02 /' "$folder/other/summary.txt" |
    broken summary.txt "summary.txt: line 11" --summary
sed '$s/ out 1 110$/ out 1/' "$folder/other/summary.txt" | broken summary.txt "summary.txt: line 11" --summary
sed '$p' "$folder/other/summary.txt" | broken summary.txt "summary.txt: line 11" --summary
sed 's/^segment 20 /segment 10 /' "$folder/other/tables.txt" | broken tables.txt "tables.txt: line 1" --tables
sed 's/^segment 20 /segment 4095 /' "$folder/other/tables.txt" | broken tables.txt "tables.txt: line 1" --tables
sed 's/^segment 20 /segment 020 /' "$folder/other/tables.txt" | broken tables.txt "tables.txt: line 1" --tables
{ cat "$folder/other/tables.txt" && echo; } | broken tables.txt "tables.txt: line 2" --tables
head -c -1 "$folder/other/tables.txt" | broken tables.txt "tables.txt: line 1" --tables

# Texts that the part didn't leave: emptied or cut at a line they are such texts, and have other sums.
: | foreign tables.txt "tables.txt has other octets than shard.txt says" --tables
: | foreign summary.txt "summary.txt has other octets than shard.txt says" --summary
head -n 3 "$folder/other/summary.txt" | foreign summary.txt "summary.txt has other octets than shard.txt says" --summary
rm -rf "$folder/broken"
cp -r "$folder/other" "$folder/broken"
rm "$folder/broken/tables.txt"
refused 1 "part broken: it has no tables.txt" merge --tables --out out one broken
cp "$folder/other/tables.txt" "$folder/broken"
sed -i '/^text tables /d' "$folder/broken/shard.txt"
refused 1 "part broken: it has no tables.txt" merge --tables --out out one broken

# Counts are added up also where they are as great as they can be.
mkdir "$folder/added"
rm -rf "$folder/broken"
cp -r "$folder/other" "$folder/broken"
sed -i 's/^place p1 in .*/place p1 in 18446744073709551615 18446744073709551614/' "$folder/broken/summary.txt"
tests/lib/part_outputs.py "$folder/broken"
./tep merge --summary --out "$folder/added" "$folder/one" "$folder/broken" |
    grep -qx "place p1 in 18446744073709551615 18446744073709551615" ||
    complain "counts aren't added up to the greatest"

# A part that runs again leaves nothing of the run before, and none of these files may be a capture that it reads.
runs one 1-15 "${whole[@]}"
runs other 16-4094,none "${whole[@]}"
[ ! -e "$folder/one/tables.txt" ] && [ ! -e "$folder/one/summary.txt" ] || complain "a part has tables and counts of another run"
cp examples/port1.pcap "$folder/vids/summary.txt"
refused 3 "write summary.txt" run --out vids --segments 10 --settings "$PWD/examples/a.toml" --underlay "$PWD/examples/underlay.pcap" \
    vids/summary.txt "$PWD/examples/port2.pcap" "$PWD/examples/port3.pcap"

# ---- digests that are lent

# digest_line NAME CAPTURE: the line of a capture by other programs
digest_line() {
    echo "capture $1 $(stat -c %s "$2") $(sha256sum <"$2" | cut -d ' ' -f 1)"
}

# digests FILE WORDS..: the digests of captures, into a file
digests() {
    local file=$folder/$1
    shift
    ./tep digest "$@" >"$file" 2>"$folder/stderr" || complain "tep digest $*: status $? and '$(cat "$folder/stderr")'"
}

# is_other: a part by lent digests has what the part by its own digests has, and nothing else
is_other() {
    diff -r "$folder/other" "$folder/lent" >"$folder/differences" || complain "$1: $(head -n 3 "$folder/differences")"
    rm -rf "$folder/lent"
}

digests digests --underlay examples/underlay.pcap "${ports[@]}"
{
    echo "tep digests 1"
    digest_line p1 examples/port1.pcap
    digest_line p2 examples/port2.pcap
    digest_line p3 examples/port3.pcap
    digest_line u examples/underlay.pcap
} | cmp -s - "$folder/digests" || complain "tep digest prints $(cat "$folder/digests")"
digests again -u - "${ports[@]}" <examples/underlay.pcap
cmp -s "$folder/digests" "$folder/again" || complain "tep digest of standard input prints $(cat "$folder/again")"
lent=(--digests "$folder/digests")
runs lent 16-4094,none "${lent[@]}" "${whole[@]}"
is_other "a part by lent digests"

# A pipe and standard input, which can be read only once, are captures of a part too, by lent digests and by its own.
with_changes=(--settings examples/a.toml --changes examples/changes.toml)
for words in "${lent[*]}" ""; do
    # shellcheck disable=SC2086
    runs lent 16-4094,none $words "${with_changes[@]}" --underlay - "${ports[@]}" <examples/underlay.pcap
    is_other "a part of standard input, with words '$words'"
    # shellcheck disable=SC2086
    runs lent 16-4094,none $words "${with_changes[@]}" --underlay examples/underlay.pcap <(cat examples/port1.pcap) "${ports[@]:1}"
    is_other "a part of a pipe, with words '$words'"
done
runs lent 16-4094,none "${with_changes[@]}" --underlay /dev/stdin "${ports[@]}" <examples/underlay.pcap
is_other "a part of /dev/stdin, which is opened anew"

# Interfaces of a pcapng capture: parts by digests of their own and by lent ones are of one run, and the same.
tests/lib/pcapng.py "$folder/all.pcapng" eth0=examples/underlay.pcap eth1="${ports[0]}" eth2="${ports[1]}" eth3="${ports[2]}" ||
    complain "no pcapng capture"
all=$folder/all.pcapng
interfaces=("$all#eth1" "$all#eth2" "$all#3")
digests interfaces -u "$all#eth0" "${interfaces[@]}"
rm -rf "$folder"/{whole,first,second}
runs whole "" "${with_changes[@]}" -u "$all#eth0" "${interfaces[@]}"
runs first 1-15 "${with_changes[@]}" -u "$all#eth0" "${interfaces[@]}"
runs second 16-4094,none --digests "$folder/interfaces" "${with_changes[@]}" -u "$all#eth0" "${interfaces[@]}"
is_whole first second
runs lent 1-15 --digests "$folder/interfaces" "${with_changes[@]}" -u "$all#eth0" "${interfaces[@]}"
diff -r "$folder/first" "$folder/lent" || complain "a part of interfaces by lent digests"

# lends TEXT FAULT NEXT WORDS..: a part to which this text is lent is refused for this, with what to do next below it, and its
# shard.txt tells nothing
lends() {
    local text=$1 fault=$2 next=$3 got
    shift 3
    rm -rf "$folder/lent"
    cp -r "$folder/other" "$folder/lent"
    (cd "$folder" && "$tep" run --out lent --segments 16-4094,none --digests "$text" "$@") >"$folder/stdout" 2>"$folder/stderr"
    got=$?
    [ "$got" -eq 1 ] || complain "$text is lent: status $got"
    [ "$(cat "$folder/stderr")" = "$text: $fault
  $next" ] || complain "$text is lent: '$(cat "$folder/stderr")'"
}

made="tep digest makes such a text"
anew="take the digests of these captures anew with tep digest, and run each part again with them"

# Words with whole paths, since a part that is refused runs in another folder.
here=(--settings "$PWD/examples/a.toml" --changes "$PWD/examples/changes.toml")
captures=(--underlay "$PWD/examples/underlay.pcap" "$PWD/examples/port1.pcap" "$PWD/examples/port2.pcap" "$PWD/examples/port3.pcap")

# untouched: what stood in the folder of the part that was refused is still there
untouched() {
    diff -r "$folder/other" "$folder/lent" >"$folder/differences" || complain "$1: $(head -n 3 "$folder/differences")"
}

sed 1d "$folder/digests" >"$folder/headless"
lends headless "the first line is not 'tep digests 1'" "$made" "${here[@]}" "${captures[@]}"
untouched "a text without its first line"
sed 's/^capture p2 [0-9]* /capture p2 /' "$folder/digests" >"$folder/unnumbered"
lends unnumbered "the line of a capture is missing, out of place or has no number and digest" "$made" "${here[@]}" "${captures[@]}"
untouched "a text without a number"
{ cat "$folder/digests" && echo; } >"$folder/longer"
lends longer "something stands behind the line of 'capture u'" "$made" "${here[@]}" "${captures[@]}"
printf '\377' >"$folder/nothing"
lends nothing "the first line is not 'tep digests 1'" "$made" "${here[@]}" "${captures[@]}"
sed '/^capture p3/d' "$folder/digests" >"$folder/fewer"
lends fewer "it has the digests of more or fewer ports" "$anew" "${here[@]}" "${captures[@]}"
untouched "digests of two ports"
refused 3 "read nowhere" run --out out --segments 16-4094,none --digests nowhere "${here[@]}" "${captures[@]}"
refused 2 "error: --digests lends digests to a part of a run, and there is no --segments" \
    run --out out --digests digests "${here[@]}" "${captures[@]}"

# A capture with an octet more than when its digest was taken.
{ cat examples/port2.pcap && printf x; } >"$folder/more.pcap"
longer=("${captures[@]}")
longer[3]=$folder/more.pcap
lends digests "it tells another number of octets of capture p2" "$anew" "${here[@]}" "${longer[@]}"
[ -e "$folder/lent/shard.txt" ] && [ ! -s "$folder/lent/shard.txt" ] ||
    complain "the shard.txt of a part that was refused tells $(cat "$folder/lent/shard.txt")"
rm -rf "$folder/lent"

# reads CAPTURE PART: the part says that it read this capture of port 2
reads() {
    grep -qx "capture p2 $(sha256sum <"$1" | cut -d ' ' -f 1)" "$folder/$2/shard.txt" || complain "$2 says it read another capture than $1"
}

# What stands behind its last record is read, and so it is in the digest: an octet, and a record that is cut.
runs behind 16-4094,none "${here[@]}" "${longer[@]}"
reads "$folder/more.pcap" behind
longer[3]=$folder/cut.pcap
runs without 16-4094,none "${here[@]}" "${longer[@]}"
reads "$folder/cut.pcap" without

# The digest of another capture with as many octets isn't noticed by the run, but by the merge with a part that took its own.
sed "s/^\(capture p2 [0-9]*\) .*/\1 $(sha256sum </dev/null | cut -d ' ' -f 1)/" "$folder/digests" >"$folder/others"
runs lent 16-4094,none --digests "$folder/others" "${whole[@]}"
refused 1 "part lent: it was made from another capture p2 than the first part" merge --out out one lent

# ---- a capture that grows while a part runs

# The capture of port 1 ends behind its first record, at one second. That of port 3 goes on for ten times as many octets as a
# pipe and the run's blocks hold, and port 2's output is a pipe: so port 1's capture was read to its end before the first
# octet of records comes out of the pipe, and the run waits for its reader before its own end. What it says is of what it read.
head -c 100 examples/port1.pcap >"$folder/short.pcap"
tail -c +25 examples/port3.pcap >"$folder/records"
for _ in {1..14}; do
    cat "$folder/records" "$folder/records" >"$folder/doubled"
    mv "$folder/doubled" "$folder/records"
done
cat <(head -c 24 examples/port3.pcap) "$folder/records" >"$folder/long.pcap"
growing=("${a[@]}" "$folder/short.pcap" examples/port2.pcap "$folder/long.pcap")
short=$(sha256sum <"$folder/short.pcap" | cut -d ' ' -f 1)
mkdir "$folder/growing"
mkfifo "$folder/growing/port2.pcap"
./tep run --out "$folder/growing" --segments 16-4094,none "${growing[@]}" 2>"$folder/stderr" &
# shellcheck disable=SC2016
timeout 60 sh -c '{ head -c 1000 && tail -c 76 examples/port1.pcap >>"$1" && cat; } <"$2" >/dev/null' \
    sh "$folder/short.pcap" "$folder/growing/port2.pcap" || complain "nothing came out of the run of a growing capture"
wait $! || complain "a part of a capture that grew: '$(cat "$folder/stderr")'"
grep -qx "capture p1 $short" "$folder/growing/shard.txt" || complain "a part says that it read what it didn't"
runs grown 1-15 "${growing[@]}"
refused 1 "part grown: it was made from another capture p1 than the first part" merge --out out growing grown

# ---- what an earlier part left of itself goes before its outputs change

outputs=(decisions.txt port1.pcap port2.pcap port3.pcap underlay.pcap)
texts=(shard.txt summary.txt tables.txt)
merged_files=$(printf '%s\n' "${outputs[@]}")

# was_part: the folder old holds a part, with its tables and its counts
was_part() {
    rm -rf "$folder/old"
    runs old 1-15 --tables --summary "${whole[@]}"
    [ "$(ls "$folder/old")" = "$(printf '%s\n' "${outputs[@]}" "${texts[@]}" | LC_ALL=C sort)" ] ||
        complain "a part leaves $(ls "$folder/old")"
}

rm -rf "$folder/whole"
runs whole "" "${whole[@]}"
was_part
runs old "" "${whole[@]}"
[ "$(ls "$folder/old")" = "$merged_files" ] || complain "a whole run leaves of a part: $(ls "$folder/old")"
was_part
./tep merge --out "$folder/old" "$folder/one" "$folder/other" || complain "a merge into a part's folder"
diff -r "$folder/whole" "$folder/old" || complain "a merge leaves something of a part"
was_part
runs old 16-4094,none "${whole[@]}"
diff -r "$folder/other" "$folder/old" || complain "a part leaves something of an earlier one"

# What can't be taken away is told, and no output was touched.
for word in "${texts[@]}"; do
    for how in "run ${whole[*]}" "run --segments 16-4094,none ${whole[*]}" "merge $folder/one $folder/other"; do
        was_part
        rm "$folder/old/$word"
        mkdir "$folder/old/$word"
        rm -rf "$folder/before"
        cp -r "$folder/old" "$folder/before"
        # shellcheck disable=SC2086
        ./tep $how --out "$folder/old" 2>"$folder/stderr"
        [ $? -eq 3 ] && [ "$(head -n 1 "$folder/stderr")" = "write $word" ] ||
            complain "$how where $word is a folder: $(cat "$folder/stderr")"
        for output in "${outputs[@]}"; do
            cmp "$folder/before/$output" "$folder/old/$output" || complain "$how where $word is a folder changes $output"
        done
    done
done

# None of these files may be read by a whole run, nor be a part's that is merged; and what is printed into one of them stays.
cp examples/port1.pcap "$folder/vids/tables.txt"
refused 3 "write tables.txt" run --out vids --settings "$PWD/examples/a.toml" --underlay "$PWD/examples/underlay.pcap" vids/tables.txt \
    "$PWD/examples/port2.pcap" "$PWD/examples/port3.pcap"
cmp examples/port1.pcap "$folder/vids/tables.txt" || complain "a capture is gone"
mkdir "$folder/linked"
ln "$folder/other/shard.txt" "$folder/linked/tables.txt"
refused 3 "write tables.txt" merge --out linked one other
[ "$(ls "$folder/linked")" = tables.txt ] || complain "a merge that was refused left $(ls "$folder/linked")"
was_part
./tep run --summary --out "$folder/old" "${whole[@]}" >"$folder/old/summary.txt" || complain "a run that prints beside its outputs"
runs whole "" --summary "${whole[@]}"
cmp "$folder/stdout" "$folder/old/summary.txt" || complain "what a run prints beside its outputs: $(cat "$folder/old/summary.txt")"

# ---- all segments as a part

rm -rf "$folder/whole"
runs whole "" "${whole[@]}"
runs all all "${whole[@]}"
grep -qx 'segments all' "$folder/all/shard.txt" || complain "the part of all segments: $(cat "$folder/all/shard.txt")"
is_whole all
refused 1 "more than one part has segment 1" merge --out out all one

# ---- lists of segments that are none

for list in "1,,2|an item of the list is empty" "0|an item of the list is no VID of 1 to 4094, no range of them and not 'none'" \
    "9-3|a range of the list ends below its begin" "1-3,2|two items of the list ask for the same" \
    "all,none|an item of the list is no VID of 1 to 4094, no range of them and not 'none'"; do
    (
        ./tep run --out "$folder/out" --segments "${list%|*}" "${whole[@]}" >/dev/null 2>"$folder/stderr"
        [ $? -eq 1 ] && [ "$(cat "$folder/stderr")" = "segments: ${list#*|}" ]
    ) || complain "segments ${list%|*}: '$(cat "$folder/stderr")'"
done
[ "$failures" -eq 0 ]
