#!/usr/bin/env bash
# The program from its words to its status, its texts and its files: what a test within the program can't reach, such as
# standard error, files that can't be read, and a device that is full.
set -u
# What stands last in a pipe runs in this shell, so that its complaints count.
shopt -s lastpipe
cd "$(dirname "$0")/../.." || exit 1
folder=$(mktemp -d)
trap 'rm -rf "$folder"' EXIT
failures=0

complain() {
    echo "tests/files/cli.sh: $*"
    failures=$((failures + 1))
}

# ends STATUS LINE WORDS..: tep ends with this status, and says this line first on standard error, or nothing where it is empty;
# lines below it tell why, and begin with two spaces (tests/files/causes.sh has them)
ends() {
    local status=$1 line=$2 got
    shift 2
    ./tep "$@" >"$folder/stdout" 2>"$folder/stderr"
    got=$?
    [ "$got" -eq "$status" ] || complain "tep $*: status $got in place of $status"
    [ "$(sed '2,$ { /^  /d }' "$folder/stderr")" = "$line" ] || complain "tep $*: '$(cat "$folder/stderr")' in place of '$line'"
    [ -n "$line" ] || [ ! -s "$folder/stderr" ] || complain "tep $*: '$(cat "$folder/stderr")' though it is done"
}

# prints FILE: what the last line printed is this file
prints() {
    cmp -s "$1" "$folder/stdout" || complain "$1 isn't what was printed: $(cat "$folder/stdout")"
}

# says LINE: what the last line printed is this line
says() {
    [ "$(cat "$folder/stdout")" = "$1" ] || complain "'$(cat "$folder/stdout")' in place of '$1'"
}

# runs STATUS LINE SETTINGS CHANGES UNDERLAY PORT..: a run into the folder out ends so; files are named as in examples/
runs() {
    local status=$1 line=$2 settings=$3 changes=$4 underlay=$5
    shift 5
    ends "$status" "$line" run --settings "$settings" --changes "$changes" --underlay "$underlay" --out "$folder/out" "$@"
}

# holds NAME..: these files, and no others, stand in the folder out
holds() {
    [ "$(ls "$folder/out" 2>&1)" = "$(printf '%s\n' "$@")" ] || complain "out holds: $(ls "$folder/out" 2>&1)"
}

# sizes OCTETS..: so many octets stand in decisions.txt, port1.pcap, port2.pcap, port3.pcap and underlay.pcap
sizes() {
    [ "$(stat -c %s "$folder"/out/{decisions.txt,*.pcap} | tr '\n' ' ')" = "$* " ] || complain "sizes in out: $(stat -c '%n %s' "$folder"/out/*)"
}

./tep >/dev/null || {
    echo "tests/files/cli.sh: there is no program"
    exit 1
}
mkdir "$folder/out"
a=examples/a.toml
changes=examples/changes.toml
underlay=examples/underlay.pcap
ports=(examples/port1.pcap examples/port2.pcap examples/port3.pcap)

# What is done.
ends 0 ""
prints crates/tep/stdout
ends 0 "" check --settings $a --changes $changes
says "ok: 3 ports, 2 segments, 1 changes"
ends 0 "" check --settings examples/b.toml
says "ok: 3 ports, 2 segments, 0 changes"
ends 0 "" check --settings examples/local.toml
says "ok: 3 ports, 1 segments, 0 changes"
runs 0 "" $a $changes $underlay "${ports[@]}"
says ""
holds decisions.txt port1.pcap port2.pcap port3.pcap underlay.pcap
cmp examples/decisions.txt "$folder/out/decisions.txt" || complain "the decisions differ"
ends 0 "" --help
sed -n '/^\$ tep --help$/,/^\$ tep --version$/ { /^\$ tep/d; p }' docs/HELP.txt >"$folder/help"
prints "$folder/help"
ends 0 "" run --help
grep -q 'Usage: tep run' "$folder/stdout" || complain "no help on run"
cat >"$folder/explained" <<'TEXT'
1 5000000000 u 1 10 p1=60 p2=60 p3=64
  ether 0 12
  type 12 2
  ip4 14 20
  udp 34 8
  vxlan 42 8
  ether 50 12
  type 62 2
  payload 64 46
  stop 12 NotIp
2 9000000000 u 2 - drop 12 NotIp
  ether 0 12
  type 12 2
  payload 14 46
  stop 12 NotIp
TEXT
ends 0 "" explain --settings $a $underlay
prints "$folder/explained"
ends 0 "" explain --settings $a --depth 1 $underlay
prints "$folder/explained"
# A packet whose frame is a packet in a tunnel itself: with a depth of 1 the second tunnel stays shut.
{
    head -c 24 $underlay
    printf '\5\0\0\0\0\0\0\0\240\0\0\0\240\0\0\0'
    tail -c +41 $underlay | head -c 16
    printf '\0\222'
    tail -c +59 $underlay | head -c 6
    printf '\266\127'
    tail -c +67 $underlay | head -c 12
    printf '\0\176'
    tail -c +81 $underlay | head -c 10
    tail -c +41 $underlay | head -c 110
} >"$folder/nested.pcap"
ends 0 "" explain --settings $a --depth 1 "$folder/nested.pcap"
[ "$(tail -n 4 "$folder/stdout")" = "  ip4 64 20
  udp 84 8
  payload 92 68
  stop Deep" ] || complain "one tunnel deep: $(cat "$folder/stdout")"
ends 0 "" explain --settings $a --depth 2 "$folder/nested.pcap"
[ "$(tail -n 7 "$folder/stdout")" = "  ip4 64 20
  udp 84 8
  vxlan 92 8
  ether 100 12
  type 112 2
  payload 114 46
  stop 12 NotIp" ] || complain "two tunnels deep: $(cat "$folder/stdout")"
ends 0 "" --version
grep -q '^tep ' "$folder/stdout" || complain "no version"
for command in run check explain migrate; do
    ends 0 "" $command --version
    grep -q "^tep-$command " "$folder/stdout" || complain "no version of tep $command"
    ends 0 "" $command --help
    grep -q "^  tep $command -s" "$folder/stdout" || complain "no example in the help of tep $command"
done

# The short forms are the long ones.
ends 0 "" check -s $a -c $changes
says "ok: 3 ports, 2 segments, 1 changes"
ends 0 "" explain -s $a -d 1 $underlay
prints "$folder/explained"
ends 0 "" run -s $a -c $changes -u $underlay -o "$folder/out" "${ports[@]}"
cmp examples/decisions.txt "$folder/out/decisions.txt" || complain "the decisions by short forms differ"

# A capture by the name '-' is standard input, from where it stands; '-' as a settings text is a file.
ends 0 "" explain -s $a - <$underlay
prints "$folder/explained"
{ printf 'a line\n' && cat $underlay; } >"$folder/behind.pcap"
{ read -r _ && ends 0 "" explain -s $a -; } <"$folder/behind.pcap"
prints "$folder/explained"
for n in 0 1 2; do
    named=("${ports[@]}")
    named[n]=-
    runs 0 "" $a $changes $underlay "${named[@]}" <"${ports[n]}"
    cmp examples/decisions.txt "$folder/out/decisions.txt" || complain "the decisions where port $((n + 1)) is standard input"
    cat "${ports[n]}" | runs 0 "" $a $changes $underlay "${named[@]}"
    cmp examples/decisions.txt "$folder/out/decisions.txt" || complain "the decisions where port $((n + 1)) is a pipe"
done
runs 0 "" $a $changes - "${ports[@]}" <$underlay
cmp examples/decisions.txt "$folder/out/decisions.txt" || complain "the decisions where the underlay is standard input"
ends 3 "read -" check -s - <$a
ends 3 "read -" explain -s $a - <&-

# pcapng: the captures as interfaces of one file, by name and by number; what comes out is the same, octet for octet.
all=$folder/all.pcapng
tests/lib/pcapng.py "$all" eth0=$underlay eth1="${ports[0]}" eth2="${ports[1]}" eth3="${ports[2]}" || complain "no pcapng capture"
runs 0 "" $a $changes $underlay "${ports[@]}"
mkdir "$folder/classic"
cp "$folder"/out/* "$folder/classic"
for interfaces in "eth0 eth1 eth2 eth3" "0 1 2 3"; do
    # shellcheck disable=SC2086
    set -- $interfaces
    runs 0 "" $a $changes "$all#$1" "$all#$2" "$all#$3" "$all#$4"
    diff -r "$folder/classic" "$folder/out" || complain "the run over the interfaces $interfaces of one capture differs"
    runs 0 "" $a $changes "/dev/stdin#$1" "$all#$2" "${ports[1]}" "$all#$4" <"$all"
    diff -r "$folder/classic" "$folder/out" || complain "the run over captures in both formats differs"
    ends 0 "" explain -s $a "$all#$1"
    prints "$folder/explained"
done
ends 0 "  $all has no interface none, but 0 eth0, 1 eth1, 2 eth2, 3 eth3" explain -s $a "$all#none"
prints /dev/null
tests/lib/pcapng.py "$folder/underlay.pcapng" eth0=$underlay
ends 0 "" explain -s $a "$folder/underlay.pcapng"
prints "$folder/explained"
ends 0 "" explain -s $a - <"$folder/underlay.pcapng"
prints "$folder/explained"
# The same with a length of the frame check sequence, 4, among the interface's options: it is passed over.
{
    head -c 28 "$folder/underlay.pcapng"
    printf '\0\0\0\1\0\0\0\60\0\1\0\0\0\0\0\0\0\2\0\4eth0\0\11\0\1\11\0\0\0\0\15\0\1\4\0\0\0\0\0\0\0\0\0\0\60'
    tail -c +69 "$folder/underlay.pcapng"
} >"$folder/checked.pcapng"
ends 0 "" explain -s $a "$folder/checked.pcapng"
prints "$folder/explained"
if command -v editcap >/dev/null; then
    editcap -F pcapng $underlay "$folder/underlay.pcapng"
    ends 0 "" explain -s $a "$folder/underlay.pcapng"
    prints "$folder/explained"
fi
# An outbound packet is no input of the underlay: it is left out, and a check counts it.
mkdir "$folder/directions"
tests/lib/pcapng.py --directions "$folder/directions" $underlay >"$folder/rows" || complain "no captures with directions"
packets=$(grep -c '^[0-9]' "$folder/explained")
[ "$(wc -l <"$folder/rows")" = 44 ] || complain "$(wc -l <"$folder/rows") captures with directions"
while IFS=$'\t' read -r file is_taken what; do
    ends 0 "" explain -s $a "$folder/directions/$file"
    if [ "$is_taken" = taken ]; then
        prints "$folder/explained" && told=""
    else
        prints /dev/null && told="u: left out $packets outbound packets"
    fi
    ends 0 "" check -s $a -u "$folder/directions/$file"
    [ "$(grep "outbound" "$folder/stdout")" = "$told" ] || complain "a check of $what: $(cat "$folder/stdout")"
    # A run that is done says the same behind it.
    ends 0 "${told:+  $told}" run -s $a --tables -u "$folder/directions/$file" "${ports[@]}"
done <"$folder/rows"
# At each capture that has some, ports first, in front of what --both leaves out; behind a run that stops at a fault nothing.
file=$(awk -F '\t' '$2 == "left" { print $1; exit }' "$folder/rows")
for words in --both "--segments 10"; do
    # shellcheck disable=SC2086
    ./tep run -s $a $words -o "$folder/out" -u "$folder/directions/$file" "${ports[0]}" "$folder/directions/$file" "${ports[2]}" \
        2>"$folder/stderr" || complain "a run $words ends with $?"
    [ "$(cat "$folder/stderr")" = "  p2: left out $packets outbound packets
  u: left out $packets outbound packets" ] || complain "outbound packets, $words: $(cat "$folder/stderr")"
done
{ cat "$folder/directions/$file" && printf '\0\0\0\6\0\0\0\10\0\0\0\10'; } >"$folder/bad.pcapng"
./tep run -s $a --tables -u "$folder/bad.pcapng" "${ports[@]}" >"$folder/stdout" 2>"$folder/stderr"
[ $? -eq 1 ] && ! grep -q outbound "$folder/stderr" || complain "a fault and outbound packets: $(cat "$folder/stderr")"
rm -f "$folder"/out/*
# A name of more than digits is one, whatever number it could be.
tests/lib/pcapng.py "$folder/signed.pcapng" eth0="${ports[0]}" +0=$underlay
ends 0 "" explain -s $a "$folder/signed.pcapng#+0"
prints "$folder/explained"
# A text that ends within a block is a cut capture.
head -c $(($(stat -c %s "$folder/underlay.pcapng") - 1)) "$folder/underlay.pcapng" >"$folder/cut.pcapng"
ends 0 "" explain -s $a "$folder/cut.pcapng"
[ "$(tail -n 1 "$folder/stdout")" = "cut u 1" ] || complain "a cut pcapng capture: $(cat "$folder/stdout")"
# A block of 8 octets behind the section's header of 28.
{ head -c 28 "$all" && printf '\0\0\0\6\0\0\0\10\0\0\0\10'; } >"$folder/bad.pcapng"
ends 1 "u: block 2 at octet 28: BadLength" explain -s $a "$folder/bad.pcapng"
runs 1 "u: block 2 at octet 28: BadLength" $a $changes "$folder/bad.pcapng" "${ports[@]}"
runs 1 "p2: block 2 at octet 28: BadLength" $a $changes $underlay "${ports[0]}" "$folder/bad.pcapng" "${ports[2]}"
# A classic capture has no interfaces.
ends 1 "u: block 1 at octet 0: NoSection" explain -s $a "$underlay#eth0"
runs 1 "p3: block 1 at octet 0: NoSection" $a $changes $underlay "${ports[@]:0:2}" "${ports[2]}#0"
# A '#' in the name of a file is no interface where one more stands behind it.
cp $underlay "$folder/a#b.pcap"
ends 3 "read $folder/a#b.pcap" explain -s $a "$folder/a#b.pcap"
ends 0 "" explain -s $a "$folder/a#b.pcap#"
prints "$folder/explained"
rm -r "$folder/classic"

# Settings of version 1 as settings of version 2, which mean the same; those of version 2 stay.
ends 0 "" migrate --settings $a
cp "$folder/stdout" "$folder/migrated.toml"
grep -q '^version = 2$' "$folder/migrated.toml" || complain "no version 2: $(cat "$folder/migrated.toml")"
ends 0 "" check -s "$folder/migrated.toml" -c $changes
says "ok: 3 ports, 2 segments, 1 changes"
runs 0 "" "$folder/migrated.toml" $changes $underlay "${ports[@]}"
cmp examples/decisions.txt "$folder/out/decisions.txt" || complain "the decisions with migrated settings"
ends 0 "" migrate -s "$folder/migrated.toml"
prints "$folder/migrated.toml"

# Each output is written anew: what stood there before is gone.
head -c 100000 /dev/zero >"$folder/out/decisions.txt"
runs 0 "" $a $changes $underlay "${ports[@]}"
cmp examples/decisions.txt "$folder/out/decisions.txt" || complain "decisions behind older ones"
rm "$folder"/out/*

# What is refused: status 1. Where it's the settings, the changes or the number of captures, no output is touched.
grep -v '^vni = 5000' $a >"$folder/no_vni.toml"
ends 1 "settings: Missing segment.1.vni" check --settings "$folder/no_vni.toml"
sed 's/^vid = 20/vid = 10/' $a >"$folder/twice.toml"
ends 1 "settings: TwoSegments segment.2" check --settings "$folder/twice.toml"
ends 1 "settings: NotToml" check --settings "${ports[0]}"
ends 1 "settings: NotToml" migrate --settings "${ports[0]}"
ends 1 "settings: Missing segment.1.vni" migrate --settings "$folder/no_vni.toml"
echo 'x = 1' >"$folder/x.toml"
ends 1 "changes: BadValue *" check --settings $a --changes "$folder/x.toml"
runs 1 "settings: BadValue *" "$folder/x.toml" "$folder/x.toml" /dev/null /dev/null
runs 1 "changes: BadValue *" $a "$folder/x.toml" /dev/null /dev/null
runs 1 "captures: PortCount" $a $changes /dev/null "${ports[@]:1}"
ends 1 "settings: BadValue *" explain --settings "$folder/x.toml" /dev/null
ends 1 "u: NotPcap" explain --settings $a /dev/null
holds

# Where it's a capture's header, the outputs are empty, and where it's a record, what came before it stands.
runs 1 "p2: NotPcap" $a $changes /dev/null "${ports[0]}" $a "${ports[2]}"
runs 1 "u: NotPcap" $a $changes /dev/null "${ports[@]}"
{ head -c 20 $underlay && printf '\145\0\0\0'; } >"$folder/raw.pcap"
runs 1 "u: BadLink" $a $changes "$folder/raw.pcap" "${ports[@]}"
sizes 0 0 0 0 0
{ head -c 32 "${ports[0]}" && printf '\1\0\4\0\0\0\0\0'; } >"$folder/large.pcap"
ends 1 "u: BadLink" explain --settings $a "$folder/raw.pcap"
runs 1 "p1: TooLarge 1" $a $changes $underlay "$folder/large.pcap" "${ports[@]:1}"
sizes 0 24 24 24 24
{ cat "${ports[1]}" && printf '\1\0\0\0\100\102\17\0\0\0\0\0\0\0\0\0'; } >"$folder/fraction.pcap"
runs 1 "p2: BadFraction 3" $a $changes $underlay "${ports[0]}" "$folder/fraction.pcap" "${ports[2]}"
head -n 4 examples/decisions.txt | cmp - "$folder/out/decisions.txt" || complain "the decisions before a fault"
rm "$folder"/out/*

# Captures without records, and one whose last record is cut.
head -c 24 $underlay >"$folder/empty.pcap"
runs 0 "" $a /dev/null "$folder/empty.pcap" "$folder/empty.pcap" "$folder/empty.pcap" "$folder/empty.pcap"
[ -s "$folder/out/decisions.txt" ] && complain "decisions of no events"
[ "$(stat -c %s "$folder/out/underlay.pcap")" -eq 24 ] || complain "a capture of no emissions isn't its header"
head -c 103 "${ports[0]}" >"$folder/cut.pcap"
runs 0 "" $a /dev/null "$folder/empty.pcap" "$folder/cut.pcap" "$folder/empty.pcap" "$folder/empty.pcap"
[ "$(cat "$folder/out/decisions.txt")" = "1 1000000000 p1 1 10 p2=60 p3=64 192.0.2.2=110
cut p1 1" ] || complain "a cut capture: $(cat "$folder/out/decisions.txt")"
rm "$folder"/out/*

head -c 160 $underlay >"$folder/cut.pcap"
head -n 10 "$folder/explained" >"$folder/cut_explained"
echo "cut u 1" >>"$folder/cut_explained"
ends 0 "" explain --settings $a "$folder/cut.pcap"
prints "$folder/cut_explained"
ends 0 "" explain --settings $a "$folder/empty.pcap"
prints /dev/null

# The words: status 2.
for words in "nothing" "run" "check" "check --depth 1" "run --settings s --underlay u --out o" \
    "explain c" "explain --settings s" "explain --settings s --depth 0 c" "explain --settings s --depth 5 c" \
    "run -s s -u - -o o -" "run -s s -u u -o o - -" "run -s s -u=-#0 -o o -" "migrate" "migrate -s s c" "chek -s s"; do
    # shellcheck disable=SC2086
    ./tep $words >"$folder/stdout" 2>"$folder/stderr"
    got=$?
    [ $got -eq 2 ] || complain "tep $words: status $got"
    [ -s "$folder/stderr" ] && [ ! -s "$folder/stdout" ] || complain "tep $words: its text isn't on standard error"
done
for words in "check -s=" "check -s=s -c=" "run -s= -u=u -o=o p" "run -s=s -u= -o=o p" "run -s=s -u=u -o= p" "explain -s= c"; do
    # shellcheck disable=SC2086
    ./tep $words >"$folder/stdout" 2>"$folder/stderr"
    got=$?
    [ $got -eq 2 ] && grep -q 'a value is required' "$folder/stderr" || complain "tep $words: status $got, $(cat "$folder/stderr")"
done
for words in "run -s=s -u=u -o=o p" "explain -s=s"; do
    # shellcheck disable=SC2086
    ./tep $words "" >"$folder/stdout" 2>"$folder/stderr"
    got=$?
    [ $got -eq 2 ] || complain "tep $words with an empty name behind it: status $got"
done
ends 2 "error: standard input '-' can be one capture only" run -s "$folder/none" -u - -o "$folder/out" -
ends 2 "words" check --settings $'\xff'
# A run has to write or to tell something.
./tep run -s s -u u p1 2>"$folder/stderr"
[ $? -eq 2 ] || complain "a run that neither writes nor tells: another status"
cmp -s - "$folder/stderr" <<'T' || complain "a run that neither writes nor tells: $(cat "$folder/stderr")"
error: the following required arguments were not provided:
  --out <DIR>

Usage: tep run --settings <FILE> --underlay <FILE> --out <DIR> <FILE>...

For more information, try '--help'.
T
ends 2 "error: standard input '-' can be one capture only" run -s s -u - --tables -
ends 2 "error: --digests lends digests to a part of a run, and there is no --segments" run -s s -u u --digests d --summary p1
./tep chek -s s 2>&1 | grep -q "'check'" || complain "no suggestion for a command that is mistyped"
./tep check --setings s 2>&1 | grep -q "'--settings'" || complain "no suggestion for an option that is mistyped"
./tep nothing 2>/dev/full
[ $? -eq 2 ] || complain "refused words that can't be told: status $?"

# Files that can't be read: status 3, the first in the order of settings, changes, underlay, ports.
no=$folder/no
ends 3 "read $no" check --settings "$no" --changes "$folder"
ends 3 "read $folder" check --settings $a --changes "$folder"
ends 3 "read $no" migrate --settings "$no"
ends 3 "read $no.s" explain --settings "$no.s" "$no.u"
ends 3 "read $no.u" explain --settings "$folder/x.toml" "$no.u"
runs 3 "read $no.s" "$no.s" "$no.c" "$no.u" "$no.1" "$no.2"
runs 3 "read $no.c" "$folder/x.toml" "$no.c" "$no.u" "$no.1" "$no.2"
runs 3 "read $no.u" "$folder/x.toml" "$folder/x.toml" "$no.u" "$no.1" "$no.2"
runs 3 "read $no.1" "$folder/x.toml" "$folder/x.toml" "$folder/x.toml" "$no.1" "$no.2"
runs 3 "read $no.2" "$folder/x.toml" "$folder/x.toml" "$folder/x.toml" "$folder/x.toml" "$no.2"
holds

# One that can be opened, and not read: no output is made for it.
runs 3 "read $folder" $a $changes $underlay "${ports[0]}" "$folder" "${ports[2]}"
runs 3 "read $folder/out" $a $changes "$folder/out" "${ports[@]}"
holds

# Memory that is refused: status 3. A file of 1 GiB, with room for a part of it.
truncate -s 1G "$folder/large.toml"
(
    ulimit -v 200000
    ends 3 "memory" check --settings "$folder/large.toml"
    [ "$failures" -eq 0 ]
) || failures=$((failures + 1))
rm "$folder/large.toml"

# What can't be written: status 3.
ends 3 "write port1.pcap" run --settings $a --underlay $underlay --out "$no" "${ports[@]}"
[ -e "$no" ] && complain "a run made a folder"

# An output that is a file that is read: status 3, and nothing is touched, whatever the file is called.
state() {
    (cd "$folder/out" && ls -l --time-style=full-iso && cat ./*) | cksum
}
# spares NAME SETTINGS CHANGES UNDERLAY PORT..: a run is refused for this output, and leaves all outputs as they were
spares() {
    local name=$1 before
    shift
    before=$(state)
    runs 3 "write $name" "$@"
    [ "$(state)" = "$before" ] || complain "a run that is refused for $name touched an output"
}
cp $a "$folder/out/decisions.txt"
cp $changes "$folder/out/port3.pcap"
cp $underlay "$folder/out/underlay.pcap"
cp "${ports[0]}" "$folder/out/port1.pcap"
spares decisions.txt "$folder/out/decisions.txt" $changes $underlay "${ports[@]}"
spares port3.pcap $a "$folder/out/port3.pcap" $underlay "${ports[@]}"
spares underlay.pcap $a $changes "$folder/out/underlay.pcap" "${ports[@]}"
spares port1.pcap $a $changes $underlay "$folder/out/port1.pcap" "${ports[@]:1}"
spares port1.pcap $a $changes $underlay "${ports[@]:0:2}" "$folder/out/port1.pcap"
spares port1.pcap $a $changes $underlay "$folder/out/../out/./port1.pcap" "${ports[@]:1}"
spares port1.pcap $a $changes $underlay "${ports[@]:0:2}" - <"$folder/out/port1.pcap"
ln "$folder/out/port1.pcap" "$folder/hard.pcap"
spares port1.pcap $a $changes $underlay "${ports[@]:0:2}" "$folder/hard.pcap"
ln -s out/underlay.pcap "$folder/soft.pcap"
spares underlay.pcap $a $changes "$folder/soft.pcap" "${ports[@]}"
rm -f "$folder"/out/*
cp "${ports[1]}" "$folder/mine.pcap"
ln -s ../mine.pcap "$folder/out/port2.pcap"
spares port2.pcap $a $changes $underlay "${ports[0]}" "$folder/mine.pcap" "${ports[2]}"
cmp "${ports[1]}" "$folder/mine.pcap" || complain "a run cut its capture"
rm -f "$folder"/out/*
mkfifo "$folder/out/port2.pcap"
sleep 30 <>"$folder/out/port2.pcap" &
runs 3 "write port2.pcap" $a $changes $underlay "${ports[0]}" "$folder/out/port2.pcap" "${ports[2]}"
kill $!
holds port2.pcap
rm -f "$folder"/out/*
# A device is no such file: what is written into it isn't what is read.
ln -s /dev/null "$folder/out/port1.pcap"
runs 0 "" $a /dev/null $underlay "${ports[@]}"
[ "$(wc -l <"$folder/out/decisions.txt")" -eq 8 ] || complain "a run that reads and writes a device"
rm -f "$folder"/out/*

# A folder that can't be written into: status 3, before a capture is read, and what stands in other outputs is kept.
ends 3 "write port1.pcap" run -s $a -u $a -o "$no" "${ports[@]}"
ends 3 "write port1.pcap" run -s $a -u $a -o $underlay "${ports[@]}"
cp "${ports[0]}" "$folder/out/port1.pcap"
mkdir "$folder/out/decisions.txt"
runs 3 "write decisions.txt" $a $changes $a "${ports[@]}"
cmp "${ports[0]}" "$folder/out/port1.pcap" || complain "an output was emptied though another can't be opened"
rm -rf "$folder"/out/*
if [ "$(id -u)" -ne 0 ]; then
    chmod a-w "$folder/out"
    runs 3 "write port1.pcap" $a $changes $a "${ports[@]}"
    chmod u+w "$folder/out"
fi
holds

# A reader that goes away ends the program quietly: what it was asked for is done.
for words in "" "--help" "--version" "check --settings $a" "explain --settings $a $underlay"; do
    # shellcheck disable=SC2086
    { sleep 0.2 && ./tep $words 2>"$folder/stderr"; echo $? >"$folder/status"; } | :
    [ "$(cat "$folder/status")" -eq 0 ] && [ ! -s "$folder/stderr" ] ||
        complain "tep $words without a reader: status $(cat "$folder/status"), '$(cat "$folder/stderr")'"
done

for name in port1.pcap port3.pcap underlay.pcap decisions.txt; do
    ln -s /dev/full "$folder/out/$name"
    runs 3 "write $name" $a $changes $underlay "${ports[@]}"
    rm -f "$folder"/out/*
done
for words in "" "--help" "--version" "check --settings $a" "explain --settings $a $underlay"; do
    # shellcheck disable=SC2086
    ./tep $words >/dev/full 2>"$folder/stderr"
    got=$?
    [ $got -eq 3 ] && [ "$(head -n 1 "$folder/stderr")" = "write stdout" ] ||
        complain "tep $words on a full device: status $got, '$(cat "$folder/stderr")'"
done

# looks STATUS LINE WORDS..: a look that can't be printed ends so, on a full device and where standard output is closed
looks() {
    local status=$1 line=$2 got
    shift 2
    ./tep check "$@" >/dev/full 2>"$folder/stderr"
    got=$?
    [ $got -eq "$status" ] && [ "$(head -n 1 "$folder/stderr")" = "$line" ] ||
        complain "tep check $* on a full device: status $got, '$(cat "$folder/stderr")'"
    ./tep check "$@" >&- 2>"$folder/stderr"
    got=$?
    [ $got -eq "$status" ] && [ "$(head -n 1 "$folder/stderr")" = "$line" ] ||
        complain "tep check $* without standard output: status $got, '$(cat "$folder/stderr")'"
}

# What is refused is told in front of that it can't be printed, and at the end stands that.
looks 3 "write stdout" --settings $a --changes $changes "${ports[@]}"
looks 1 "settings: Missing segment.1.vni" --settings "$folder/no_vni.toml"
looks 1 "changes: NotToml" --settings $a --changes "${ports[0]}"
looks 1 "captures: PortCount" --settings $a "${ports[0]}"
looks 1 "p2: NotPcap" --settings $a "${ports[0]}" $a "${ports[2]}"
looks 3 "read $folder/nowhere" --settings $a "${ports[0]}" "$folder/nowhere" "${ports[2]}"

[ "$failures" -eq 0 ]
