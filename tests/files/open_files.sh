#!/usr/bin/env bash
# How many files may be open at once, and a run or a merge of many ports that would open more: it says so with the number that it
# needs before an output is touched, and with that number it is done. And of 255 captures one that can't be opened, or that
# begins as none does: it is told by its name, and no output is touched.
set -u
cd "$(dirname "$0")/../.." || exit 1
top=$PWD
folder=$(mktemp -d)
trap 'rm -rf "$folder"' EXIT
failures=0
PORTS=255

complain() {
    echo "tests/files/open_files.sh: $*"
    failures=$((failures + 1))
}

# ends STATUS LIMIT WORDS..: tep, in the folder, ends so where so many files may be open; what it says is kept
ends() {
    local status=$1 limit=$2 got
    shift 2
    (cd "$folder" && ulimit -n "$limit" && exec "$top/tep" "$@" >stdout 2>stderr </dev/null)
    got=$?
    [ "$got" -eq "$status" ] || complain "tep $1 with $limit files: status $got in place of $status, and '$(head -n 3 "$folder/stderr")'"
}

# says PATTERN..: standard error has just these lines, each of which matches its pattern
says() {
    local line number=0
    while IFS= read -r line; do
        number=$((number + 1))
        [[ $line =~ ^${1-}$ ]] || complain "line $number of standard error is '$line' in place of '${1-}'"
        shift
    done <"$folder/stderr"
    [ $# -eq 0 ] || complain "standard error lacks '$1': '$(cat "$folder/stderr")'"
}

# state FOLDER: the names and the octets in a folder
state() {
    (cd "$folder/$1" && cksum -- * 2>/dev/null)
}

./tep >/dev/null || {
    echo "tests/files/open_files.sh: there is no program"
    exit 1
}
[ "$(ulimit -H -n)" = unlimited ] || [ "$(ulimit -H -n)" -ge 1024 ] || {
    echo "tests/files/open_files.sh: fewer than 1,024 files may be open"
    exit 1
}

# ---- 255 ports, of which three have traffic: a frame for everybody, from a station at port 255 too

{
    printf 'version = 3\n[limits]\nports = %s\n' $PORTS
    printf '[underlay]\nmac = "02:00:00:00:aa:01"\nnext_hop = "02:00:00:00:aa:fe"\nip4 = "192.0.2.1"\n'
    for ((port = 1; port <= PORTS; port++)); do printf '[[port]]\npvid = 10\n'; done
    printf '[[segment]]\nvid = 10\nuntagged = [1'
    for ((port = 2; port <= PORTS; port++)); do printf ', %s' $port; done
    printf ']\n[[segment.tunnel]]\nkind = "vxlan"\nvni = 5000\nflood = ["192.0.2.2"]\n'
} >"$folder/settings.toml"
head -c 24 examples/port1.pcap >"$folder/none.pcap"
cp examples/underlay.pcap "$folder/u.pcap"
captures=()
for ((port = 1; port <= PORTS; port++)); do
    captures+=("p$port.pcap")
    ln "$folder/none.pcap" "$folder/p$port.pcap"
done
for port in 1 128 255; do
    rm "$folder/p$port.pcap"
    cp examples/port1.pcap "$folder/p$port.pcap"
done
run=(run -s settings.toml -u u.pcap)

mkdir "$folder/out" "$folder/empty"
ends 0 1024 "${run[@]}" -o out "${captures[@]}"
says
written=$(find "$folder/out" -type f | wc -l)
[ "$written" -eq $((PORTS + 2)) ] || complain "a run of $PORTS ports writes $written files"
[ "$(find "$folder/out" -name 'port*.pcap' -size +24c | wc -l)" -eq $PORTS ] || complain "what goes to all ports isn't at each"
grep -q ' p254=[0-9]* p255=[0-9]* 192.0.2.2=' "$folder/out/decisions.txt" || complain "no frame goes to the ports 254 and 255"
before=$(state out)

# Captures can be opened and outputs can't; then captures can't either. The number that is told is enough.
enough='  this run opens 522 files at once: ulimit -n 522'
for limit in 290 400 515; do
    ends 3 $limit "${run[@]}" -o out "${captures[@]}"
    says 'write (port[0-9]+|underlay)\.pcap|write decisions\.txt' '  out/[a-z0-9.]+: too many files are open' "$enough"
    ends 3 $limit "${run[@]}" -o empty "${captures[@]}"
    says 'write (port[0-9]+|underlay)\.pcap|write decisions\.txt' '  empty/[a-z0-9.]+: too many files are open' "$enough"
done
for limit in 20 100 250; do
    ends 3 $limit "${run[@]}" -o out "${captures[@]}"
    says 'read p[0-9]+\.pcap' "$enough"
done
[ "$(state out)" = "$before" ] || complain "a run that opens too many files touches outputs"
[ -z "$(state empty)" ] || complain "a run that opens too many files makes outputs: $(state empty | head -n 3)"
ends 0 522 "${run[@]}" -o empty "${captures[@]}"
says
[ "$(state empty)" = "$before" ] || complain "with 522 files a run of $PORTS ports is another"

# A look before the run tells it too, and where there is room it doesn't.
ends 0 400 check -s settings.toml
grep -qx '  a run opens 522 files at once: ulimit -n 522' "$folder/stdout" || complain "tep check says '$(cat "$folder/stdout")'"
ends 0 522 check -s settings.toml
[ "$(cat "$folder/stdout")" = "ok: $PORTS ports, 1 segments, 0 changes" ] || complain "tep check with room says '$(cat "$folder/stdout")'"

# ---- a merge of two parts: 2 x 257 files, 257 outputs, and some besides

mkdir "$folder/one" "$folder/other" "$folder/merged"
ends 0 522 "${run[@]}" --segments 1-4094 -o one "${captures[@]}"
ends 0 522 "${run[@]}" --segments none -o other "${captures[@]}"
enough='  this merge opens 780 files at once: ulimit -n 780'
ends 3 600 merge -o out one other
says 'write (port[0-9]+|underlay)\.pcap|write decisions\.txt' '  out/[a-z0-9.]+: too many files are open' "$enough"
ends 3 300 merge -o out one other
says 'read (one|other)' "$enough"
[ "$(state out)" = "$before" ] || complain "a merge that opens too many files touches outputs"
ends 0 780 merge -o merged one other
says
[ "$(state merged)" = "$before" ] || complain "with 780 files the merge isn't the run"

# ---- a capture that can't be opened, and one that begins as none does

captures[199]=absent.pcap
ends 3 1024 "${run[@]}" -o out "${captures[@]}"
says 'read absent\.pcap' '  absent\.pcap: no such file'
echo none >"$folder/absent.pcap"
ends 1 1024 "${run[@]}" -o out "${captures[@]}"
says 'p200: NotPcap' '  absent\.pcap: .*'
[ "$(state out)" = "$before" ] || complain "a capture that isn't taken costs outputs"

if [ "$failures" -gt 0 ]; then
    echo "tests/files/open_files.sh: $failures failures"
    exit 1
fi
