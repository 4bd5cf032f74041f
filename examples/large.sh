#!/usr/bin/env bash
# Runs the endpoint on 6,000 records that another program wrote, which then reads what comes out to the underlay: every
# packet, length and checksum, and the frames within. tcpdump (or the program that TCPDUMP names) reads it too, where it is
# there: it has to know every packet and find no wrong checksum in it.
#
#     examples/large.sh [FOLDER]    keeps the captures in FOLDER
set -u
cd "$(dirname "$0")/.." || exit 1
folder=${1:-$(mktemp -d)}
[ $# -gt 0 ] || trap 'rm -rf "$folder"' EXIT
tcpdump=${TCPDUMP:-tcpdump}

fail() {
    echo "examples/large.sh: $*" >&2
    exit 1
}

mkdir -p "$folder/in" "$folder/out"
python3 examples/captures.py large "$folder/in" || fail "no captures"
{ sed 's/^ip6 = .*/&\nsum4 = true/' examples/a.toml; } >"$folder/settings.toml"
./tep run --settings "$folder/settings.toml" --underlay "$folder/in/underlay.pcap" --out "$folder/out" \
    "$folder/in/port1.pcap" "$folder/in/port2.pcap" "$folder/in/port3.pcap" || fail "the run was refused"

decided=$(wc -l <"$folder/out/decisions.txt")
sent=$(grep -c ' 192\.0\.2\.2=' "$folder/out/decisions.txt")
[ "$decided" -eq 6000 ] || fail "$decided decisions in place of 6000"

python3 examples/captures.py read "$folder" || fail "the packets to the remote"

if command -v "$tcpdump" >/dev/null; then
    "$tcpdump" -nn -vv -r "$folder/out/underlay.pcap" >"$folder/told" 2>"$folder/complaints" || fail "$(cat "$folder/complaints")"
    read=$(grep -c 'VXLAN, flags \[I\] (0x08), vni 5000' "$folder/told")
    [ "$read" -eq "$sent" ] || fail "tcpdump reads $read packets in VXLAN in place of $sent"
    grep -iE 'bad|wrong|invalid|truncated|malformed|\[\|' "$folder/told" && fail "tcpdump complains"
    echo "tcpdump reads $read packets without complaint"
fi
