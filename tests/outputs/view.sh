#!/usr/bin/env bash
# `tep run --pcapng`: a view has what came and what left, with the lines of decisions.txt. tests/outputs/view.py reads it block by
# block; tshark, capinfos and editcap read it, too, where they are on this machine or can be installed. Read again it is the run's
# inputs.
set -u
cd "$(dirname "$0")/../.." || exit 1
folder=$(mktemp -d)
trap 'rm -rf "$folder"' EXIT
failures=0

complain() {
    echo "tests/outputs/view.sh: $*"
    failures=$((failures + 1))
}

# ends STATUS LINE WORDS..: tep ends with this status, and says this line first on standard error, or nothing where it is empty
ends() {
    local status=$1 line=$2 got
    shift 2
    ./tep "$@" >"$folder/stdout" 2>"$folder/stderr"
    got=$?
    [ "$got" -eq "$status" ] || complain "tep $*: status $got in place of $status"
    [ "$(head -n 1 "$folder/stderr")" = "$line" ] || complain "tep $*: '$(cat "$folder/stderr")' in place of '$line'"
}

# have_tools: tshark, capinfos and editcap are there, or can be installed
have_tools() {
    command -v tshark >/dev/null && command -v capinfos >/dev/null && command -v editcap >/dev/null && return 0
    [ "$(id -u)" -eq 0 ] && command -v apt-get >/dev/null || return 1
    (apt-get update && DEBIAN_FRONTEND=noninteractive apt-get install -y tshark) >/dev/null 2>&1
    command -v tshark >/dev/null && command -v capinfos >/dev/null && command -v editcap >/dev/null
}

# by_tools VIEW OUT INPUTS..: Wireshark's tools read a view as what it is: its lines, its outputs and its inputs
by_tools() {
    local view=$1 out=$2 place=1 input
    shift 2
    tshark -r "$view" -Y 'frame.packet_flags_direction == 1 || systemd_journal' -T fields -E separator=/s \
        -e frame.comment -e systemd_journal.message 2>/dev/null | sed 's/^ //; s/ $//' | cmp - "$out/decisions.txt" ||
        complain "$view: the comments aren't the lines"
    for input in "$@"; do
        tshark -r "$view" -Y "frame.interface_name == \"p$place\" && frame.packet_flags_direction == 2" -F nsecpcap \
            -w "$folder/left.pcap" 2>/dev/null
        cmp "$folder/left.pcap" "$out/port$place.pcap" || complain "$view: what left at port $place isn't its output"
        tshark -r "$view" -Y "frame.interface_name == \"p$place\" && frame.packet_flags_direction == 1" -F nsecpcap \
            -w "$folder/came.pcap" 2>/dev/null
        editcap -F nsecpcap "$input" "$folder/input.pcap" 2>/dev/null
        cmp "$folder/came.pcap" "$folder/input.pcap" || complain "$view: what came at port $place isn't its input"
        place=$((place + 1))
    done
    editcap "$view" "$folder/again.pcapng" 2>/dev/null
    cmp "$view" "$folder/again.pcapng" || complain "$view: editcap writes it in another way"
    capinfos "$view" 2>/dev/null | grep -q "Number of interfaces in file: *$place\$" || complain "$view: $((place - 1)) ports and u aren't all"
    capinfos "$view" 2>/dev/null | grep -q 'Strict time order: *True' || complain "$view: moments fall"
}

./tep >/dev/null || {
    echo "tests/outputs/view.sh: there is no program"
    exit 1
}
captures=(examples/port1.pcap examples/port2.pcap examples/port3.pcap)
a=(-s examples/a.toml -c examples/changes.toml -u examples/underlay.pcap)

# Beside its outputs, which are those without; alone; and on standard output, which nothing else may have.
mkdir "$folder/plain" "$folder/out" "$folder/again"
ends 0 "" run "${a[@]}" -o "$folder/plain" "${captures[@]}"
ends 0 "" run "${a[@]}" -o "$folder/out" --pcapng "$folder/view.pcapng" "${captures[@]}"
for file in "$folder/plain"/*; do
    cmp -s "$file" "$folder/out/${file##*/}" || complain "${file##*/} is another with --pcapng"
done
ends 0 "" run "${a[@]}" --pcapng "$folder/alone.pcapng" "${captures[@]}"
cmp "$folder/view.pcapng" "$folder/alone.pcapng" || complain "alone it is another"
ends 0 "" run "${a[@]}" --pcapng - "${captures[@]}"
cmp "$folder/view.pcapng" "$folder/stdout" || complain "on standard output it is another"
ends 0 "" run "${a[@]}" -o "$folder/again" --summary --json --pcapng "$folder/told.pcapng" "${captures[@]}"
cmp "$folder/view.pcapng" "$folder/told.pcapng" || complain "beside a summary it is another"
for word in --summary --tables --talkers --tables-at=7 --why=1 --list=-; do
    ends 2 "error: standard output can be one thing only: --pcapng -, --list - or what --why, --tables, --tables-at, --summary and --talkers print" \
        run "${a[@]}" --pcapng - "$word" "${captures[@]}"
done
./tep run "${a[@]}" --pcapng - "${captures[@]}" 2>"$folder/stderr" | head -c 1 >/dev/null
[ "${PIPESTATUS[0]}" -eq 0 ] && [ ! -s "$folder/stderr" ] || complain "a reader that goes away: $(cat "$folder/stderr")"

# Block by block, and of each front of it what stands there.
python3 -B tests/outputs/view.py "$folder/view.pcapng" "$folder/out" examples/underlay.pcap "${captures[@]}" ||
    complain "the view isn't what the run wrote"

# Each reason, falling moments and cut captures; a pipe among the captures.
mkdir "$folder/in" "$folder/every"
python3 -B examples/reasons.py "$folder/in" || complain "examples/reasons.py makes no captures"
every=(-s examples/every_key.toml -c examples/every_change.toml)
ports=("$folder"/in/port?.pcap)
truncate -s -3 "${ports[0]}"
ends 0 "" run "${every[@]}" -u "$folder/in/underlay.pcap" -o "$folder/every" --pcapng "$folder/every.pcapng" "${ports[@]}"
python3 -B tests/outputs/view.py "$folder/every.pcapng" "$folder/every" "$folder/in/underlay.pcap" "${ports[@]}" ||
    complain "the view of every reason isn't what the run wrote"
./tep run "${every[@]}" -u <(cat "$folder/in/underlay.pcap") --pcapng - "${ports[@]}" >"$folder/piped.pcapng" 2>/dev/null
cmp "$folder/every.pcapng" "$folder/piped.pcapng" || complain "with a pipe among the captures it is another"

# Read again it is the run's inputs: the same captures and lines, and `tep split` makes what came in.
./tep run -s examples/a.toml -c examples/changes.toml -u "$folder/view.pcapng#u" -o "$folder/again" \
    "$folder/view.pcapng#p1" "$folder/view.pcapng#p2" "$folder/view.pcapng#p3" 2>/dev/null || complain "a run on the view: status $?"
for file in decisions.txt port1.pcap port2.pcap port3.pcap underlay.pcap; do
    cmp -s "$folder/plain/$file" "$folder/again/$file" || complain "$file of a run on the view is another"
done
mkdir "$folder/split"
ends 0 "" split -o "$folder/split" "$folder/view.pcapng"
for place in 1 2 3; do
    ends 0 "" compare "examples/port$place.pcap" "$folder/split/if$((place - 1))_p$place.pcap"
done

# What a view may not be, and where it can't be written: the outputs are whole.
before=$(sha256sum "${captures[@]}" "$folder/plain"/*)
ends 3 "write ${captures[0]}: it is ${captures[0]} itself" run "${a[@]}" -o "$folder/plain" --pcapng "${captures[0]}" "${captures[@]}"
ln "$folder/plain/port2.pcap" "$folder/link"
ends 3 "write $folder/link: it is $folder/plain/port2.pcap itself" run "${a[@]}" -o "$folder/plain" --pcapng "$folder/link" "${captures[@]}"
[ "$before" = "$(sha256sum "${captures[@]}" "$folder/plain"/*)" ] || complain "a view that is refused changes files"
mkdir "$folder/new"
ends 3 "write $folder/new/port1.pcap: it is $folder/new/port1.pcap itself" \
    run "${a[@]}" -o "$folder/new" --pcapng "$folder/new/port1.pcap" "${captures[@]}"
# A list of what is left out is such a file, too, and another than the view's.
ends 3 "write ${captures[0]}: it is ${captures[0]} itself" run "${a[@]}" --list "${captures[0]}" "${captures[@]}"
ends 3 "write $folder/one: it is $folder/one itself" run "${a[@]}" --pcapng "$folder/one" --list "$folder/one" "${captures[@]}"
ends 3 "write $folder/none/view: no such folder" run "${a[@]}" -o "$folder/again" --pcapng "$folder/none/view" "${captures[@]}"
ends 3 "write /dev/full: no space left" run "${a[@]}" -o "$folder/again" --pcapng /dev/full "${captures[@]}"
for file in decisions.txt port1.pcap port2.pcap port3.pcap underlay.pcap; do
    cmp -s "$folder/plain/$file" "$folder/again/$file" || complain "$file isn't whole where the view can't be written"
    cmp -s "$folder/plain/$file" "$folder/new/$file" || complain "$file isn't whole where the view would be an output"
done
echo kept >"$folder/kept"
./tep run -s "$folder/kept" -u examples/underlay.pcap --pcapng "$folder/unmade" "${captures[@]}" 2>/dev/null &&
    complain "a text that is none is taken for settings"
[ ! -e "$folder/unmade" ] || complain "a view is made though the settings are refused"

if have_tools; then
    by_tools "$folder/view.pcapng" "$folder/out" "${captures[@]}"
    mkdir -p "$folder/home/.config/wireshark/profiles"
    cp -r share/wireshark/tep "$folder/home/.config/wireshark/profiles/"
    HOME=$folder/home tshark -C tep -r "$folder/view.pcapng" >"$folder/shown" 2>"$folder/stderr"
    grep -v 'Running as user' "$folder/stderr" | grep -q . && complain "tshark says of the profile: $(cat "$folder/stderr")"
    grep -q '8 p1 Inbound 8 8000000000 p1 3 10 p3=64 192.0.2.2=110' "$folder/shown" || complain "the profile doesn't show the decision"
else
    echo "tests/outputs/view.sh: tshark, capinfos and editcap aren't here and can't be installed: not tried"
fi
[ "$failures" -eq 0 ] || exit 1
