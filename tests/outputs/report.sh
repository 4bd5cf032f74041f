#!/usr/bin/env bash
# `tep report`: the page has the numbers of what the run printed and of its decision lines, no text breaks out of it, and Chromium
# draws it where it is on this machine. tests/outputs/report_page.py reads the page by Python's reader of HTML.
set -u
cd "$(dirname "$0")/../.." || exit 1
folder=$(mktemp -d)
trap 'rm -rf "$folder"' EXIT
failures=0

complain() {
    echo "tests/outputs/report.sh: $*"
    failures=$((failures + 1))
}

# page_of FOLDER: its page is as it should be
page_of() {
    ./tep report -o "$folder/page.html" "$1" || complain "the report of $1 ends with status $?"
    python3 -B tests/outputs/report_page.py "$folder/page.html" "$1/summary.txt" "$1/decisions.txt" ||
        complain "the page of $1 isn't what the run gave"
}

# refused STATUS FAULT WORDS..: the report with these words ends so, and says this line first
refused() {
    local status=$1 fault=$2 got
    shift 2
    ./tep report "$@" 2>"$folder/said"
    got=$?
    [ "$got" -eq "$status" ] || complain "tep report $*: status $got in place of $status"
    [ "$(head -n 1 "$folder/said")" = "$fault" ] || complain "tep report $*: '$(cat "$folder/said")' in place of '$fault'"
}

./tep >/dev/null || {
    echo "tests/outputs/report.sh: there is no program"
    exit 1
}
captures=(examples/port1.pcap examples/port2.pcap examples/port3.pcap)
a=(-s examples/a.toml -c examples/changes.toml -u examples/underlay.pcap)
mkdir "$folder/out" "$folder/in" "$folder/every" "$folder/many" "$folder/none" "$folder/few"
./tep run "${a[@]}" -o "$folder/out" --summary --tables --talkers "${captures[@]}" >"$folder/out/summary.txt"
page_of "$folder/out"

# Each reason, changes, cut captures and two tunnels, and a folder without what a run prints.
python3 -B examples/reasons.py "$folder/in" || complain "examples/reasons.py makes no captures"
every=(-s examples/every_key.toml -c examples/every_change.toml -u "$folder/in/underlay.pcap")
head -c -3 "$folder/in/port4.pcap" >"$folder/in/cut.pcap"
ports=("$folder"/in/port[123].pcap "$folder/in/cut.pcap")
./tep run "${every[@]}" -o "$folder/every" --summary --tables --talkers "${ports[@]}" >"$folder/every/summary.txt"
page_of "$folder/every"
cp "$folder/page.html" "$folder/every.html"

# Thirteen talks of each of three segments, in which three stations moved.
cp "$folder/every/decisions.txt" "$folder/many"
{
    cat "$folder/every/summary.txt"
    for segment in 4001 4002 4003; do
        for talk in {0..12}; do
            printf 'talk %d 02:00:00:00:00:0%d p%d > 02:00:00:00:00:ff flood 2 %d first %d last 9\n' \
                "$segment" "$((talk % 7))" "$((talk / 10 + 1))" "$((9000 - talk))" "$talk"
        done
    done
} >"$folder/many/summary.txt"
page_of "$folder/many"
cp "$folder/every/decisions.txt" "$folder/few"
./tep report -o "$folder/page.html" "$folder/few" || complain "a folder with decision lines alone has no page"
grep -q -- '--talkers' "$folder/page.html" || complain "it isn't told which word tells who talks"

# A folder of a part of a run says so, and no other.
mkdir "$folder/part"
cp "$folder/every/decisions.txt" "$folder/part"
touch "$folder/part/shard.txt"
./tep report -o "$folder/page.html" "$folder/part" || complain "the folder of a part has no page"
grep -q 'This folder is of a part of a run' "$folder/page.html" || complain "a part isn't told to be one"
grep -q 'This folder is of a part of a run' "$folder/every.html" && complain "a whole run is told to be a part"

# Where nothing is dropped that is said. A hundred of one reason don't hide another's first, and stand in front of it.
mkdir "$folder/clean" "$folder/hidden"
printf '1 1000 p1 1 10 p2=60\n' >"$folder/clean/decisions.txt"
./tep report -o "$folder/page.html" "$folder/clean" || complain "a run without a drop has no page"
grep -q '<p>Nothing was dropped.</p>' "$folder/page.html" || complain "it isn't told that nothing was dropped"
{
    printf '1 1 p1 1 10 drop 10 NoSegment\n'
    for number in {2..120}; do
        printf '%d %d u %d - drop 12 NotIp\n' "$number" "$number" "$((number - 1))"
    done
    printf '121 121 p2 1 10 drop 37 Unreachable\n'
} >"$folder/hidden/decisions.txt"
./tep report -o "$folder/page.html" "$folder/hidden" || complain "a run with 121 drops has no page"
[ "$(sed -n 's/.*--why \([a-z0-9:]*\)<.*/\1/p' "$folder/page.html")" = "$(printf 'u:1\np1:1\np2:1')" ] ||
    complain "the first drops aren't those of each reason, the most frequent first"

# What is kept may hold anything: it stands as text. So does the folder's name.
hostile="$folder/<script>alert(1)<%2Fscript>&\"'"
mkdir "$hostile"
cp "$folder/every/decisions.txt" "$hostile"
{
    printf 'talk 10 <b>x</b> p1 > "y" flood 1 2 first 3 last 4\n'
    printf 'segment 10 </td></table><script>a:alert(1)</script> p1 fixed\n'
    printf 'talk 10 \377\001& p1 > &amp; flood 1 2 first 3 last 4\n'
} >"$hostile/summary.txt"
./tep report -o "$folder/page.html" "$hostile" || complain "the page of hostile texts ends with status $?"
python3 -B - "$folder/page.html" <<'T' || complain "a hostile text breaks out of the page"
import sys
sys.argv[1:] = [sys.argv[1], "", ""]
source = open("tests/outputs/report_page.py", encoding="utf-8").read().replace("\nmain()\n", "\n")
exec(source)
page = Page()
page.feed(open(sys.argv[1], "rb").read().decode("utf-8"))
assert not page.open, page.open
talks = page.rows_of("stations", "Talks", 0)
assert any("<b>x</b>" in row and '"y"' in row for row in talks), talks
assert any("</td></table><script>a:alert(1)</script>" in row for row in page.rows_of("stations", "Tables", 0))
T
grep -q '<script\|<b>' "$folder/page.html" && complain "an element of a hostile text stands on the page"

# Folders and lines that are none, and pages that can't be written.
refused 1 "$folder/none: it has no decisions.txt" -o "$folder/page.html" "$folder/none"
cp "$folder/every/decisions.txt" "$folder/none"
sed -i '7s/ /  /' "$folder/none/decisions.txt"
refused 1 "$folder/none: decisions.txt: line 7" -o "$folder/none.html" "$folder/none"
[ ! -e "$folder/none.html" ] || complain "a page is made of lines that are none"
head -c -1 "$folder/every/decisions.txt" >"$folder/none/decisions.txt"
refused 1 "$folder/none: decisions.txt: line $(wc -l <"$folder/every/decisions.txt")" -o "$folder/none.html" "$folder/none"
refused 3 "write $folder/every/summary.txt: it is $folder/every/summary.txt itself" -o "$folder/every/summary.txt" "$folder/every"
refused 3 "write /dev/full: no space left" -o /dev/full "$folder/every"
refused 3 "write $folder/away/page.html: no such folder" -o "$folder/away/page.html" "$folder/every"

# Chromium draws it, narrow and wide, and says nothing of it.
browser=$(command -v chromium || command -v chromium-browser || command -v google-chrome)
if [ -n "$browser" ]; then
    for width in 400 1600; do
        timeout 100 "$browser" --headless --no-sandbox --disable-gpu --user-data-dir="$folder/browser" --enable-logging=stderr \
            --window-size="$width,2000" --screenshot="$folder/$width.png" "file://$folder/every.html" 2>"$folder/said"
        python3 -B - "$folder/$width.png" "$width" <<'T' || complain "Chromium draws no page of $width points"
import struct
import sys
octets = open(sys.argv[1], "rb").read()
assert octets[:8] == b"\x89PNG\r\n\x1a\n"
assert struct.unpack(">II", octets[16:24])[0] == int(sys.argv[2])
assert len(octets) > 10_000, len(octets)
T
        grep CONSOLE "$folder/said" && complain "Chromium's console has something to say"
    done
fi
[ "$failures" -eq 0 ]
