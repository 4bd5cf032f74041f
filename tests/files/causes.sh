#!/usr/bin/env bash
# Why the program gave up: what stands on standard error below a fault, each line begun by two spaces. And what it says there of a
# line that is done: names of interfaces that aren't there, and outputs of an earlier run. `docs/OPERATING.md` has the wording.
set -u
cd "$(dirname "$0")/../.." || exit 1
top=$PWD
folder=$(mktemp -d)
trap 'rm -rf "$folder"' EXIT
failures=0

complain() {
    echo "tests/files/causes.sh: $*"
    failures=$((failures + 1))
}

# ends STATUS WORDS..: tep, in the folder, ends so, and says on standard error what stands on standard input
ends() {
    local status=$1 got
    shift
    cat >"$folder/expected"
    (cd "$folder" && "$top/tep" "$@" >"$folder/stdout" 2>"$folder/stderr" </dev/null)
    got=$?
    [ "$got" -eq "$status" ] || complain "tep $*: status $got in place of $status"
    cmp -s "$folder/expected" "$folder/stderr" || complain "tep $* says:
$(cat "$folder/stderr")"
}

# runs STATUS WORDS..: the same of a run with the settings of two ports without changes, into the folder out
runs() {
    local status=$1
    shift
    ends "$status" run -s two.toml -u u.pcap -o out "$@"
}

# state: what stands in the folder out
state() {
    (cd "$folder/out" && ls && cat ./*) | cksum
}

./tep >/dev/null || {
    echo "tests/files/causes.sh: there is no program"
    exit 1
}
mkdir "$folder/out"
cp examples/port1.pcap "$folder/1.pcap"
cp examples/port2.pcap "$folder/2.pcap"
cp examples/underlay.pcap "$folder/u.pcap"
cat >"$folder/two.toml" <<'T'
version = 1
[underlay]
mac = "02:00:00:00:aa:01"
next_hop = "02:00:00:00:aa:fe"
ip4 = "192.0.2.1"
[[port]]
pvid = 10
[[port]]
pvid = 10
[[segment]]
vid = 10
vni = 5000
tunnel = "vxlan"
untagged = [1, 2]
T

# What can't be read.
ends 3 check -s absent.toml <<'T'
read absent.toml
  absent.toml: no such file
T
ends 3 check -s out <<'T'
read out
  out: a folder
T
ends 3 check -s two.toml/none <<'T'
read two.toml/none
  two.toml/none: a part of the name is no folder
T
runs 3 1.pcap absent.pcap <<'T'
read absent.pcap
  absent.pcap: no such file
T
runs 3 1.pcap out <<'T'
read out
  out: a folder
T
rm -f "$folder"/out/*
cp "$folder/2.pcap" "$folder/a#b.pcap"
runs 3 1.pcap 'a#b.pcap' <<'T'
read a#b.pcap
  a: no such file
  a#b.pcap is a file: a#b.pcap# names it
T
ends 3 explain -s two.toml $'two\nlines\t.pcap' <<'T'
read two\nlines\t.pcap
  two\nlines\t.pcap: no such file
T
(cd "$folder" && "$top/tep" explain -s two.toml - <&- 2>"$folder/stderr")
[ $? -eq 3 ] && [ "$(cat "$folder/stderr")" = "read -
  standard input is closed" ] || complain "closed standard input: $(cat "$folder/stderr")"
if [ "$(id -u)" -ne 0 ]; then
    cp "$folder/2.pcap" "$folder/locked.pcap"
    chmod a-r "$folder/locked.pcap"
    runs 3 1.pcap locked.pcap <<'T'
read locked.pcap
  locked.pcap: no rights
T
fi

# What can't be written: before a capture is read, and nothing is touched.
ends 3 run -s two.toml -u u.pcap -o none 1.pcap 2.pcap <<'T'
write port1.pcap
  none/port1.pcap: no such folder
  mkdir none
T
ends 3 run -s two.toml -u u.pcap -o two.toml 1.pcap 2.pcap <<'T'
write port1.pcap
  two.toml/port1.pcap: a part of the name is no folder
T
mkdir "$folder/out/underlay.pcap"
runs 3 1.pcap 2.pcap <<'T'
write underlay.pcap
  out/underlay.pcap: a folder
T
rm -r "$folder"/out/*
cp "$folder/1.pcap" "$folder/out/port1.pcap"
runs 3 out/port1.pcap 2.pcap <<'T'
write port1.pcap
  out/port1.pcap is the capture of port 1 itself
  give the outputs a folder of their own
T
runs 3 1.pcap out/port1.pcap <<'T'
write port1.pcap
  out/port1.pcap is the capture of port 2 itself
  give the outputs a folder of their own
T
ends 3 run -s two.toml -u out/port1.pcap -o out 1.pcap 2.pcap <<'T'
write port1.pcap
  out/port1.pcap is the capture of the underlay itself
  give the outputs a folder of their own
T
cp "$folder/two.toml" "$folder/out/decisions.txt"
ends 3 run -s out/decisions.txt -u u.pcap -o out 1.pcap 2.pcap <<'T'
write decisions.txt
  out/decisions.txt is the settings itself
  give the outputs a folder of their own
T
rm "$folder"/out/*

# A device that is full, a reader that goes away, and the limit of a file's size.
ln -s /dev/full "$folder/out/port2.pcap"
runs 3 1.pcap 2.pcap <<'T'
write port2.pcap
  out/port2.pcap: no space left
T
rm "$folder"/out/*
ln -s /dev/full "$folder/out/decisions.txt"
runs 3 1.pcap 2.pcap <<'T'
write decisions.txt
  out/decisions.txt: no space left
T
rm "$folder"/out/*
(cd "$folder" && "$top/tep" explain -s two.toml u.pcap >/dev/full 2>"$folder/stderr")
[ $? -eq 3 ] && [ "$(cat "$folder/stderr")" = "write stdout
  standard output: no space left" ] || complain "a full standard output: $(cat "$folder/stderr")"
mkfifo "$folder/out/port1.pcap" "$folder/slow"
head -c 1 "$folder/out/port1.pcap" >/dev/null &
{ head -c 24 "$folder/1.pcap" && sleep 1 && tail -c +25 "$folder/1.pcap"; } >"$folder/slow" 2>/dev/null &
runs 3 slow 2.pcap <<'T'
write port1.pcap
  out/port1.pcap: a closed pipe
T
wait
rm "$folder"/out/*
head -c 24 "$folder/1.pcap" >"$folder/many.pcap"
for _ in {1..20}; do
    tail -c +25 "$folder/1.pcap" >>"$folder/many.pcap"
done
(
    # In blocks of 1,024 octets.
    ulimit -f 1
    cd "$folder" && "$top/tep" run -s two.toml -u u.pcap -o out many.pcap 2.pcap 2>&1 | cat >&3
    exit "${PIPESTATUS[0]}"
) 3>"$folder/stderr"
[ $? -eq 3 ] && [ "$(cat "$folder/stderr")" = "write port2.pcap
  out/port2.pcap: the limit of a file's size is reached
  out/underlay.pcap: the limit of a file's size is reached" ] || complain "a size limit: $(cat "$folder/stderr")"
rm "$folder"/out/*

# Texts that are refused, as check tells it.
sed 's/^next_hop/nexthop/' "$folder/two.toml" >"$folder/own.toml"
for words in "run -u u.pcap -o out 1.pcap" "explain u.pcap" "migrate"; do
    # shellcheck disable=SC2086
    ends 1 $words -s own.toml <<'T'
settings: BadValue underlay.*
  own.toml:4:1: BadValue underlay.*
    found: nexthop
    did you mean: next_hop
    keys: mac next_hop ip4 ip6 mtu ttl vxlan_port geneve_port sum4 sum6 zero6 known hop
T
done
printf '[[change]]\nkind = "flush"\nat = 1\nvid = 4095\n' >"$folder/vid.toml"
runs 1 -c vid.toml 1.pcap 2.pcap <<'T'
changes: BadValue change.1.vid
  vid.toml:4:1: BadValue change.1.vid
    found: 4095
    allowed: a number, 1 to 4094
T

# Files that are no captures. Regular files are looked at before an output is emptied.
echo kept >"$folder/out/port1.pcap"
before=$(state)
gzip -nc "$folder/2.pcap" >"$folder/2.pcap.gz"
runs 1 1.pcap 2.pcap.gz <<'T'
p2: NotPcap
  2.pcap.gz: it is compressed with gzip: editcap -F nsecpcap IN OUT converts it, or <(zcat IN) in its place
T
runs 1 1.pcap two.toml <<'T'
p2: NotPcap
  two.toml: it is a text, as -s and -c take
T
: >"$folder/empty"
runs 1 1.pcap empty <<'T'
p2: NotPcap
  empty: the file is empty: a capture without records is a header, head -c 24 OTHER.pcap
T
{ head -c 20 "$folder/1.pcap" && printf '\161\0\0\0'; } >"$folder/any.pcap"
runs 1 any.pcap 2.pcap <<'T'
p1: BadLink
  any.pcap: link type 113, Linux cooked: capture at each port
T
{ head -c 20 "$folder/1.pcap" && printf '\145\0\0\0'; } >"$folder/raw.pcap"
ends 1 check -s two.toml -u raw.pcap <<'T'
u: BadLink
  raw.pcap: link type 101, raw IP: Ethernet alone is read
T
runs 1 1.pcap 2.pcap#eth0 <<'T'
p2: block 1 at octet 0: NoSection
  2.pcap: classic pcap tells no interface: leave #eth0 out
T
runs 1 1.pcap 2.pcap.gz#eth0 <<'T'
p2: block 1 at octet 0: NoSection
  2.pcap.gz: it is compressed with gzip: editcap -F nsecpcap IN OUT converts it, or <(zcat IN) in its place
T
left=$(cd "$folder/out" && cat port1.pcap && cat decisions.txt port2.pcap underlay.pcap | wc -c)
[ "$left" = "kept
0" ] || complain "a run that is refused for a capture's header touched an output: $before, $(state)"
rm "$folder"/out/*
# pcapng with an interface that isn't Ethernet.
tests/lib/pcapng.py "$folder/all.pcapng" eth0=examples/underlay.pcap swp1=examples/port1.pcap swp2=examples/port2.pcap
# The interfaces' blocks have 40 octets each and begin at 28, 68 and 108; a link type stands 8 octets behind.
{ head -c 76 "$folder/all.pcapng" && printf '\0\161' && tail -c +79 "$folder/all.pcapng"; } >"$folder/cooked.pcapng"
ends 1 explain -s two.toml cooked.pcapng <<'T'
u: block 5 at octet 148: BadLink
  cooked.pcapng: interface 1 swp1: link type 113, Linux cooked: capture at each port
T

# Interfaces that aren't there, and several where one was meant.
ends 0 run -s two.toml -u all.pcapng#eth0 -o out all.pcapng#swp1 all.pcapng#swp3 <<'T'
  all.pcapng has no interface swp3, but 0 eth0, 1 swp1, 2 swp2
T
ends 0 run -s two.toml -u all.pcapng#0 -o out all.pcapng#1 all.pcapng#3 <<'T'
  all.pcapng has no interface 3, but 0 eth0, 1 swp1, 2 swp2
T
ends 0 run -s two.toml -u all.pcapng#0 -o out all.pcapng#swp1 all.pcapng#swp2 </dev/null
ends 0 explain -s two.toml all.pcapng <<'T'
  all.pcapng has several interfaces, all are taken: 0 eth0, 1 swp1, 2 swp2; all.pcapng#NAME takes one
T
ends 0 explain -s two.toml all.pcapng#eth0 </dev/null
ends 0 check -s two.toml all.pcapng#swp1 all.pcapng#swp3 </dev/null
[ "$(tail -n 2 "$folder/stdout")" = "p2: pcapng ethernet, 0 records
  all.pcapng has no interface swp3, but 0 eth0, 1 swp1, 2 swp2" ] || complain "check tells of no interface: $(cat "$folder/stdout")"

# Captures that were named the wrong way round: the underlay's packets are two, in tunnels to this endpoint or not, as
# tests/files/cli.sh explains them, so of those that look so a capture is made that has the first of them twice.
{ head -c 24 "$folder/u.pcap" && tail -c +25 "$folder/u.pcap" | head -c 126 && tail -c +25 "$folder/u.pcap" | head -c 126; } \
    >"$folder/tunnel.pcap"
ends 0 check -s two.toml -u 1.pcap tunnel.pcap 2.pcap </dev/null
[ "$(tail -n 1 "$folder/stdout")" = "  p1 and u look swapped: 2 of 2 packets of p1 are in a tunnel to this endpoint, 0 of 3 of u" ] ||
    complain "check tells of no swap: $(cat "$folder/stdout")"
ends 0 check -s two.toml -u tunnel.pcap 1.pcap 2.pcap </dev/null
grep -q swapped "$folder/stdout" && complain "check tells of a swap: $(cat "$folder/stdout")"

# Outputs of an earlier run. What a part left besides is gone behind a whole run.
touch "$folder/out/port3.pcap" "$folder/out/port16.pcap" "$folder/out/shard.txt"
runs 0 1.pcap 2.pcap <<'T'
  out/port3.pcap: of an earlier run, not of this one
  out/port16.pcap: of an earlier run, not of this one
T
[ -e "$folder/out/shard.txt" ] && complain "a whole run leaves the shard.txt of an earlier part"
runs 0 --segments 1-4094,none 1.pcap 2.pcap <<'T'
  out/port3.pcap: of an earlier run, not of this one
  out/port16.pcap: of an earlier run, not of this one
T
rm "$folder/out/port3.pcap" "$folder/out/port16.pcap"

# Parts.
mkdir "$folder/whole"
touch "$folder/whole/port3.pcap"
ends 0 merge -o whole out <<'T'
  whole/port3.pcap: of an earlier run, not of this one
T
ends 3 merge -o whole absent <<'T'
read absent
  absent: no such folder
T
mkdir "$folder/bare"
ends 3 merge -o whole bare <<'T'
read bare
  bare/shard.txt: no such file
  a part has one: tep run --segments makes parts
T
ends 3 merge -o out out <<'T'
write decisions.txt
  out/decisions.txt is out/decisions.txt itself
  give the outputs a folder of their own
T
ends 3 merge -o none out <<'T'
write port1.pcap
  none/port1.pcap: no such folder
  mkdir none
T
gzip -nc "$folder/out/port2.pcap" >"$folder/port2.gz"
cp "$folder/port2.gz" "$folder/out/port2.pcap"
ends 1 merge -o whole out <<'T'
part out: port2.pcap has another number of octets than shard.txt says
  run the part again
T
tests/lib/part_outputs.py "$folder/out"
ends 1 merge -o whole out <<'T'
part out: p2 NotPcap
  out/port2.pcap: it is compressed with gzip: editcap -F nsecpcap IN OUT converts it, or <(zcat IN) in its place
  run the part again
T
rm "$folder/out/port2.pcap"
ends 3 merge -o whole out <<'T'
read out
T

[ "$failures" -eq 0 ]
