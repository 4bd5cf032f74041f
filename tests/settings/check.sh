#!/usr/bin/env bash
# What `tep check` tells before a run: where and why a text is refused, which changes will be refused, and what captures hold.
# Expected lines are worked out by hand; `docs/formats/` has their form.
set -u
cd "$(dirname "$0")/../.." || exit 1
top=$PWD
folder=$(mktemp -d)
trap 'rm -rf "$folder"' EXIT
failures=0

complain() {
    echo "tests/settings/check.sh: $*"
    failures=$((failures + 1))
}

# checks STATUS FAULT WORDS..: `tep check` with these words, in the folder, ends so, says this on standard error, or nothing
# where it is empty, and prints what stands on standard input
checks() {
    local status=$1 fault=$2 got
    shift 2
    cat >"$folder/expected"
    (cd "$folder" && "$top/tep" check "$@" >stdout 2>stderr </dev/null)
    got=$?
    [ "$got" -eq "$status" ] || complain "tep check $*: status $got in place of $status"
    printf '%s' "${fault:+$fault
}" | cmp -s - "$folder/stderr" || complain "tep check $*: '$(cat "$folder/stderr")' in place of '$fault'"
    cmp -s "$folder/expected" "$folder/stdout" || complain "tep check $* prints:
$(cat "$folder/stdout")"
}

./tep >/dev/null || {
    echo "tests/settings/check.sh: there is no program"
    exit 1
}
cp examples/*.toml examples/*.pcap "$folder"

# A key that was meant otherwise; a quote that isn't closed; a value out of range; a key that isn't there.
sed 's/^next_hop/nexthop/' examples/a.toml >"$folder/own.toml"
checks 1 "settings: BadValue underlay.*" -s own.toml <<'T'
own.toml:6:1: BadValue underlay.*
  found: nexthop
  did you mean: next_hop
  keys: mac next_hop ip4 ip6 mtu ttl vxlan_port geneve_port sum4 sum6 zero6 known hop
T
printf 'version = 1\n[underlay]\nmac = "02:00:00:00:00:01\n' >"$folder/open.toml"
checks 1 "settings: NotToml" -s open.toml <<'T'
open.toml:3:25: NotToml
  found: mac = "02:00:00:00:00:01
  reason: invalid string
T
printf '[[change]]\nkind = "flush"\nat = 1\nvid = 4095\n' >"$folder/vid.toml"
checks 1 "changes: BadValue change.1.vid" -s a.toml -c vid.toml <<'T'
vid.toml:4:1: BadValue change.1.vid
  found: 4095
  allowed: a number, 1 to 4094
T
sed '/^mac/d' examples/a.toml >"$folder/less.toml"
checks 1 "settings: Missing underlay.mac" -s less.toml <<'T'
less.toml:4:1: Missing underlay.mac
  allowed: a MAC address in quotes that is no group's, as "02:00:00:00:00:01"
T

# Changes that the settings refuse at their moments, as those before left them: port 9 isn't there; segment 10 goes twice.
cat >"$folder/twice.toml" <<'T'
[[change]]
kind = "port_down"
at = 5
port = 9
[[change]]
kind = "remove_segment"
at = 6
vid = 10
[[change]]
kind = "remove_segment"
at = 7
vid = 10
T
checks 0 "" -s a.toml -c twice.toml <<'T'
ok: 3 ports, 2 segments, 3 changes
change 1 at 5: refused 2 NoPort
change 3 at 7: refused 1 NoSegment
T

# Captures: whole ones; one that ends in a record; others of another kind; fewer than there are ports.
checks 0 "" -s a.toml -u underlay.pcap port1.pcap port2.pcap port3.pcap <<'T'
ok: 3 ports, 2 segments, 0 changes
p1: pcap little-endian microseconds ethernet, 3 records, first 1.000000000, last 8.000000000
p2: pcap little-endian microseconds ethernet, 2 records, first 3.000000000, last 4.000000000
p3: pcap little-endian microseconds ethernet, 1 record, first 2.000000000, last 2.000000000
u: pcap little-endian microseconds ethernet, 2 records, first 5.000000000, last 9.000000000
T
head -c 120 examples/port1.pcap >"$folder/cut.pcap"
checks 0 "" -s smallest.toml cut.pcap <<'T'
ok: 1 ports, 1 segments, 0 changes
p1: pcap little-endian microseconds ethernet, 1 record, first 1.000000000, last 1.000000000
p1: ends in the middle of a record
T
gzip -nc examples/port1.pcap >"$folder/port1.gz"
checks 1 "p1: NotPcap" -s smallest.toml port1.gz <<'T'
ok: 1 ports, 1 segments, 0 changes
p1: it is compressed with gzip: editcap -F nsecpcap IN OUT converts it
T
: >"$folder/empty"
checks 1 "u: NotPcap" -s smallest.toml -u empty <<'T'
ok: 1 ports, 1 segments, 0 changes
u: the file is empty
T
checks 1 "p1: NotPcap" -s smallest.toml a.toml <<'T'
ok: 1 ports, 1 segments, 0 changes
p1: it is a text
T
checks 1 "captures: PortCount
  captures of ports: 1; one for each port of the settings is wanted, and of one without traffic a header will do: head -c 24 CAPTURE" \
    -s a.toml cut.pcap <<'T'
ok: 3 ports, 2 segments, 0 changes
p1: pcap little-endian microseconds ethernet, 1 record, first 1.000000000, last 1.000000000
p1: ends in the middle of a record
T
checks 3 "read absent.pcap
  absent.pcap: no such file" -s smallest.toml absent.pcap <<'T'
ok: 1 ports, 1 segments, 0 changes
T
[ "$failures" -eq 0 ]
