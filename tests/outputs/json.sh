#!/usr/bin/env bash
# `--json`: each line of each text is told by one object, and back. tests/outputs/json_lines.py reads the objects by Python's
# reader of JSON and writes the lines anew by docs/formats/lines.md; where jq is on this machine it reads them, too.
set -u
cd "$(dirname "$0")/../.." || exit 1
folder=$(mktemp -d)
trap 'rm -rf "$folder"' EXIT
failures=0

complain() {
    echo "tests/outputs/json.sh: $*"
    failures=$((failures + 1))
}

# same KIND TEXT OBJECTS: both tell the same lines
same() {
    python3 -B tests/outputs/json_lines.py "$@" || complain "$1: the objects aren't what the text tells"
    cat "$3" >>"$folder/all"
}

# told KIND WORDS..: what the program prints for these words, and with --json besides, tell the same; its status and what it says
# on standard error are those without
told() {
    local kind=$1 status got
    shift
    ./tep "$@" >"$folder/text" 2>"$folder/said"
    status=$?
    ./tep "$@" --json >"$folder/objects" 2>"$folder/said.json"
    got=$?
    [ "$got" -eq "$status" ] || complain "tep $*: status $got with --json, $status without"
    cmp -s "$folder/said" "$folder/said.json" || complain "tep $*: standard error is another with --json"
    same "$kind" "$folder/text" "$folder/objects"
}

./tep >/dev/null || {
    echo "tests/outputs/json.sh: there is no program"
    exit 1
}
captures=(examples/port1.pcap examples/port2.pcap examples/port3.pcap)
a=(-s examples/a.toml -c examples/changes.toml -u examples/underlay.pcap)

# The decision lines of a run, and its captures are those without.
mkdir "$folder/plain" "$folder/out"
./tep run "${a[@]}" -o "$folder/plain" "${captures[@]}" || complain "the run ends with status $?"
./tep run "${a[@]}" -o "$folder/out" --json "${captures[@]}" || complain "the run with --json ends with status $?"
same decisions "$folder/out/decisions.txt" "$folder/out/decisions.jsonl"
for file in "$folder/plain"/*; do
    cmp -s "$file" "$folder/out/${file##*/}" || complain "${file##*/} is another with --json"
done
sent='{"octets":60,"place":"p2"},{"octets":64,"place":"p3"},{"octets":110,"place":"192.0.2.2"}'
[ "$(head -n 1 "$folder/out/decisions.jsonl")" = \
    '{"event":1,"moment":"1000000000","number":1,"outcomes":['"$sent"'],"result":"sent","segment":10,"source":"p1"}' ] ||
    complain "the first object is $(head -n 1 "$folder/out/decisions.jsonl")"

# Each reason and each kind of outcome and of change, two tunnels, and cut captures.
mkdir "$folder/in" "$folder/every"
python3 -B examples/reasons.py "$folder/in" || complain "examples/reasons.py makes no captures"
every=(-s examples/every_key.toml -c examples/every_change.toml -u "$folder/in/underlay.pcap")
ports=("$folder"/in/port?.pcap)
./tep run "${every[@]}" -o "$folder/every" --json "${ports[@]}" || complain "the run of every reason ends with status $?"
same decisions "$folder/every/decisions.txt" "$folder/every/decisions.jsonl"
head -c -3 examples/port1.pcap >"$folder/cut.pcap"
./tep run "${a[@]}" -o "$folder/out" --json "$folder/cut.pcap" "${captures[@]:1}" || complain "the run of a cut capture ends with status $?"
same decisions "$folder/out/decisions.txt" "$folder/out/decisions.jsonl"
grep -q '^{"records":[0-9]*,"result":"cut","source":"p1"}$' "$folder/out/decisions.jsonl" || complain "the cut capture isn't told"

# What is printed besides.
told counts run "${every[@]}" --summary "${ports[@]}"
told counts run "${every[@]}" --talkers "${ports[@]}"
told tables run "${every[@]}" --tables "${ports[@]}"
told events run "${every[@]}" --tables-at 20000000000 "${ports[@]}"
told events run "${every[@]}" --why drop:any --why 1 --why c:1 --why u:2 "${ports[@]}"
told events explain -s examples/every_key.toml "$folder/in/underlay.pcap"
told events explain -s examples/every_key.toml --values "$folder/in/underlay.pcap"
grep -q '"more":[01],"offset":[0-9]*,"part":"ip4"' "$folder/objects" || complain "the values of a fragment aren't told by their words"
grep '"fact":"\(ether\|tag\|type\|ip4\|ip6\|udp\|vxlan\|geneve\|payload\|tail\|stop\) ' "$folder/objects" &&
    complain "a layer is told as what a test saw"
told looks check -s examples/every_key.toml -c examples/every_change.toml -u "$folder/in/underlay.pcap" "${ports[@]}"
told looks check -s examples/a.toml -c examples/changes.toml
printf 'version = 1\nunderlay = { nexthop = "02:00:00:00:00:01" }\n' >"$folder/wrong.toml"
told looks check -s "$folder/wrong.toml"
told compared compare examples/port1.pcap examples/port2.pcap
told compared compare --list --by length examples/port1.pcap examples/port2.pcap
told compared compare --by delay examples/port1.pcap examples/port1.pcap
told compared compare --worked "$folder/plain" -s examples/a.toml --list --by length -u "$folder/plain/underlay.pcap" \
    examples/port1.pcap "$folder/plain/port2.pcap" -
told compared compare --worked "$folder/plain" --by delay -u "$folder/plain/underlay.pcap" "$folder"/plain/port?.pcap
PYTHONPATH=tests/compare python3 -Bc 'import sys; from compare import write; write(sys.argv[1], [(5, (bytes(60), 100))], "cut")' \
    "$folder/cut.pcap"
told compared compare "$folder/cut.pcap" "$folder/cut.pcap"
[ "$(tail -n 3 "$folder/objects")" = '{"line":"cut records","received":1,"sent":1}
{"line":"ends cut","side":"sent"}
{"line":"ends cut","side":"received"}' ] || complain "cut captures are told as '$(tail -n 3 "$folder/objects")'"
told compared compare --worked "$folder/plain" -u - "$folder/cut.pcap" - -
grep -qx '{"line":"ends cut","place":"p1","side":"received"}' "$folder/objects" || complain "a cut capture isn't told with its place"

# What of near records differs, of tags, of none and of tunnels, and of more segments than have a line.
mkdir "$folder/differs"
PYTHONPATH=tests/compare python3 -Bc '
import sys
from compare_near import at_port, tag, vxlan, write
folder = sys.argv[1]
open(f"{folder}/decisions.txt", "w").close()
frames = [at_port()] + [at_port(tag(vid)) for vid in range(1, 1026)]
write(f"{folder}/port1.pcap", [(5 + k, frame) for k, frame in enumerate(frames)])
write(f"{folder}/seen1.pcap", [(6, at_port(tag(4094)))] + [(5000 + k, at_port(tag(4094))) for k in range(1025)])
write(f"{folder}/underlay.pcap", [(5, vxlan(5000)), (5, vxlan(6000))])
write(f"{folder}/seen.pcap", [(6, vxlan(5000, destination=3)), (6, vxlan(6000)), (6, vxlan(6000))])' "$folder/differs"
told compared compare --worked "$folder/differs" -u "$folder/differs/seen.pcap" "$folder/differs/seen1.pcap"
grep -qx '{"count":1,"difference":"tag","line":"difference","place":"p1","received_record":1,"received_value":"4094","sent_record":1,"sent_value":"none","where":"untagged"}' \
    "$folder/objects" || complain "a difference of a tag isn't told"
grep -qx '{"count":1,"difference":"remote","line":"difference","place":"u","received_record":1,"received_value":"192.0.2.3","sent_record":1,"sent_value":"192.0.2.2","vni":5000,"where":"vxlan"}' \
    "$folder/objects" || complain "a difference of a remote isn't told"
grep -qx '{"count":1,"line":"doubled","place":"u"}' "$folder/objects" || complain "a record that came again isn't told"
grep -qx '{"count":2,"line":"other differences","place":"p1"}' "$folder/objects" || complain "other differences aren't told"

# Names with quotes, backslashes and line feeds stay texts.
cp "$folder/wrong.toml" "$folder/a\"b\\c
d.toml"
told looks check -s "$folder/a\"b\\c
d.toml"

# Parts have their own objects, and a merge counts as the run does.
for part in 10,none 1-9,11-4094; do
    mkdir "$folder/part$part"
    ./tep run "${every[@]}" -o "$folder/part$part" --json --segments "$part" --summary "${ports[@]}" >/dev/null ||
        complain "the part $part ends with status $?"
    same decisions "$folder/part$part/decisions.txt" "$folder/part$part/decisions.jsonl"
done
mkdir "$folder/whole"
./tep merge -o "$folder/whole" --json --summary "$folder"/part* >"$folder/objects" || complain "the merge ends with status $?"
./tep run "${every[@]}" --json --summary "${ports[@]}" | cmp -s - "$folder/objects" || complain "the merge counts otherwise than the run"

# A run without leaves the file that lies there, and says so; with it that file may be none that is read.
./tep run "${a[@]}" -o "$folder/out" "${captures[@]}" 2>"$folder/said" || complain "the run behind ends with status $?"
[ "$(cat "$folder/said")" = "  $folder/out/decisions.jsonl: of an earlier run, not of this one" ] ||
    complain "of objects of an earlier run it says '$(cat "$folder/said")'"
cp examples/port1.pcap "$folder/out/decisions.jsonl"
./tep run "${a[@]}" -o "$folder/out" --json "$folder/out/decisions.jsonl" "${captures[@]:1}" 2>"$folder/said"
[ "$?" -eq 3 ] || complain "a capture that is the objects' file is written over"
head -n 1 "$folder/said" | grep -qx "write decisions.jsonl" ||
    complain "of a capture that is the objects' file it says '$(cat "$folder/said")'"
cmp -s examples/port1.pcap "$folder/out/decisions.jsonl" || complain "the capture that is the objects' file was changed"

# A disk that is full for the objects alone: all else is written whole, and the status is 3.
rm "$folder/out/decisions.jsonl"
ln -s /dev/full "$folder/out/decisions.jsonl"
./tep run "${a[@]}" -o "$folder/out" --json "${captures[@]}" 2>"$folder/said"
[ "$?" -eq 3 ] || complain "objects that can't be written are taken for done"
[ "$(cat "$folder/said")" = "write decisions.jsonl
  $folder/out/decisions.jsonl: no space left" ] || complain "of a full disk it says '$(cat "$folder/said")'"
for file in "$folder/plain"/*; do
    cmp -s "$file" "$folder/out/${file##*/}" || complain "${file##*/} is another where the objects can't be written"
done

# A key has one meaning and one type over all of that, and stands on the page.
python3 -B tests/outputs/json_lines.py keys "$folder/all" || complain "keys aren't as the page has them"

# jq reads them: drops by name, as README shows.
if command -v jq >/dev/null; then
    jq -r 'select(.result == "drop") | .name' "$folder/every/decisions.jsonl" | sort | uniq -c >"$folder/left"
    awk '$6 == "drop" { print $8 }' "$folder/every/decisions.txt" | sort | uniq -c >"$folder/right"
    cmp -s "$folder/left" "$folder/right" || complain "jq counts other drops than awk"
    [ -s "$folder/left" ] || complain "nothing is dropped"
fi
[ "$failures" -eq 0 ]
