#!/usr/bin/env bash
# tep compare tells of captures with loss, doubling, delay, changed octets and faults what a plain matcher tells of them, and of
# what a run wrote beside what was captured of it what is worked out by hand.
set -u
cd "$(dirname "$0")/../.." || exit 1
folder=$(mktemp -d)
trap 'rm -rf "$folder"' EXIT
status=0

# complain TEXT: a test has failed
complain() {
    echo "tests/compare/compare.sh: $*"
    status=1
}

# wants STATUS TEXT WORD..: these words end so, and print the text
wants() {
    local status=$1 text=$2 printed
    shift 2
    printed=$(./tep compare "$@" 2>&1)
    [ "$?" = "$status" ] || complain "'$*' has another status than $status"
    [ "$printed" = "$text" ] || complain "'$*' prints
$printed"
}

python3 tests/compare/compare.py ./tep "$folder" "${1:-2000}" || complain "a made pair of captures is told otherwise"
# Two frames that were cut to the same octets, one that was cut alike on both sides, and one that is whole on one side.
PYTHONPATH=tests/compare python3 -Bc '
import sys
from compare import write
head = bytes(60)
write(f"{sys.argv[1]}/cut_sent.pcap", [(1, (head, 100)), (2, (head, 300)), (3, (head, 400))])
write(f"{sys.argv[1]}/cut_received.pcap", [(1, (head, 200)), (2, (head, 300)), (3, head)], "cut")' "$folder"
wants 1 "1 received alone length 60 record 1
3 received alone length 60 record 3
1 sent alone length 60 record 1
3 sent alone length 60 record 3
sent 3
received 3
both 1
sent alone 2
received alone 2
cut: sent 3, received 2
length 60: both 1, sent alone 2, received alone 2
received: cut
what was received isn't what was sent" --list --by length "$folder/cut_sent.pcap" "$folder/cut_received.pcap"
wants 0 "sent 3
received 3
both 3
sent alone 0
received alone 0
cut: sent 3, received 3" "$folder/cut_sent.pcap" "$folder/cut_sent.pcap"

# Three that came in another order: two of them were sent before one that came before them. Of two that were sent at one moment none
# is behind the other, and one that wasn't sent is behind none.
PYTHONPATH=tests/compare python3 -Bc '
import sys
from compare import write
write(f"{sys.argv[1]}/order_sent.pcap", [(1, b"a"), (2, b"b"), (3, b"c"), (4, b"d"), (4, b"e")])
write(f"{sys.argv[1]}/order_received.pcap", [(5, b"c"), (6, b"a"), (6, b"b"), (7, b"x"), (8, b"e"), (9, b"d")])' "$folder"
wants 1 "sent 5
received 6
both 5
sent alone 0
received alone 1
behind another 2
what was received isn't what was sent" "$folder/order_sent.pcap" "$folder/order_received.pcap"

# What was received again is told: one twice, and one once, but not one that wasn't sent, or that is cut otherwise, or that came before
# the 256 latest that are both.
PYTHONPATH=tests/compare python3 -Bc '
import sys
from compare import write
others = [(2, bytes([k])) for k in range(255)]
write(f"{sys.argv[1]}/twice_sent.pcap", [(1, b"aa"), (1, (b"bb", 3))] + others + [(3, b"cc")])
again = [(2, b"aa"), (2, b"aa"), (2, (b"bb", 4)), (2, b"xx"), (2, b"xx")]
write(f"{sys.argv[1]}/twice_received.pcap", [(2, b"aa"), (2, (b"bb", 3))] + again + others + [(3, b"aa"), (3, (b"bb", 3)), (3, b"cc"), (3, (b"bb", 3))])' "$folder"
wants 1 "sent 258
received 266
both 258
sent alone 0
received alone 8
doubled 3
cut: sent 1, received 4
what was received isn't what was sent" "$folder/twice_sent.pcap" "$folder/twice_received.pcap"

capture=examples/underlay.pcap
same=$(./tep compare "$capture" "$capture")
[ "$?" = 0 ] || complain "a capture isn't the same as itself"
grep -qx "sent alone 0" <<<"$same" || complain "a capture is alone beside itself"
cat "$capture" | ./tep compare - "$capture" >/dev/null || complain "a pipe isn't the same as its file"
wants 2 "error: standard input '-' can be one capture only" - -
: >"$folder/empty.pcap"
wants 1 "sent 0
received 0
both 0
sent alone 0
received alone 0
sent: NotPcap" "$folder/empty.pcap" "$capture"
wants 1 "within: 5 is no time, as 500us, 10ms or 1s are" --within 5 "$capture" "$capture"
wants 1 "shift: -x is no time, as 500us, 10ms or -1s are" --shift=-x "$capture" "$capture"
wants 1 "within: 1000000001s is no time, as 500us, 10ms or 1s are" --within 1000000001s "$capture" "$capture"

# The table of delays, and a word that no table is by.
python3 tests/compare/compare_delays.py ./tep "$folder" || complain "delays are told otherwise"
wants 2 "error: no table is by 'size': --by takes length or delay" --by size "$capture" "$capture"
wants 2 "error: no table is by 'size': --by takes length or delay" --by size --worked "$folder" -u "$capture" -

# What a run wrote, beside what was captured of what went out.
python3 tests/compare/compare_worked.py ./tep "$folder" || complain "what a run wrote is told otherwise"
python3 -B tests/compare/compare_segments.py ./tep "$folder" || complain "what a run wrote is told otherwise by segments"
mkdir "$folder/out"
./tep run -s examples/a.toml -c examples/changes.toml -u "$capture" -o "$folder/out" examples/port[123].pcap ||
    complain "the example doesn't run"
itself=$(./tep compare --worked "$folder/out" -u "$folder/out/underlay.pcap" "$folder"/out/port[123].pcap)
[ "$?" = 0 ] || complain "what a run wrote isn't the same as itself"
[ "$(grep -c 'sent alone 0, received alone 0$' <<<"$itself")" = 5 ] || complain "what a run wrote is alone beside itself: $itself"
mkdir "$folder/linux"
./tep run -s examples/linux/settings.toml -u examples/linux/underlay.pcap -o "$folder/linux" examples/linux/port[123].pcap ||
    complain "the example of a Linux bridge doesn't run"
seen=examples/linux/sent
wants 0 "p1: sent 3, received 3, both 3, sent alone 0, received alone 0
p2: sent 6, received 6, both 6, sent alone 0, received alone 0
p3: sent 3, received 3, both 3, sent alone 0, received alone 0
u: sent 4, received 4, both 4, sent alone 0, received alone 0
all: sent 16, received 16, both 16, sent alone 0, received alone 0" \
    --worked "$folder/linux" -u "${seen}_underlay.pcap" "${seen}_port1.pcap" "${seen}_port2.pcap" "${seen}_port3.pcap"

# Where nothing was captured each record is told by itself, in front of the counts, and by its length behind them.
head -c 24 "${seen}_port3.pcap" >"$folder/none.pcap"
wants 1 "p1: no capture
p2: no capture
$(python3 tests/compare/compare_lonely.py p3 "$folder/linux/port3.pcap" "$folder/linux/decisions.txt")
u: no capture
all: sent 3, received 0, both 0, sent alone 3, received alone 0
what was received isn't what was sent" \
    --list --by length --worked "$folder/linux" -u - - - "$folder/none.pcap"

# Frames that a switch sends and takes itself are left aside: of the example its LLDP and its spanning tree, but for the message
# in a tunnel, whose outer address is the peer's.
python3 -B tests/compare/compare_ignored.py ./tep "$folder" "${1:-600}" || complain "a made pair of captures is told otherwise, left aside"
mkdir "$folder/own"
seen=examples/compare/own_traffic
./tep run -s examples/compare/settings.toml -u "$seen/underlay.pcap" -o "$folder/own" "$seen"/port[123].pcap ||
    complain "the example of a bridge's own traffic doesn't run"
wants 1 "p1: sent 3, received 3, both 3, sent alone 0, received alone 0
p1: sent left aside 0, received left aside 2
p2: sent 6, received 6, both 6, sent alone 0, received alone 0
p2: sent left aside 0, received left aside 1
p3: sent 3, received 3, both 3, sent alone 0, received alone 0
p3: sent left aside 0, received left aside 1
u: sent 10, received 12, both 10, sent alone 0, received alone 2
u: sent left aside 0, received left aside 0
all: sent 22, received 24, both 22, sent alone 0, received alone 2
what was received isn't what was sent" \
    --ignore reserved --worked "$folder/own" -u "$seen/sent_underlay.pcap" "$seen"/sent_port[123].pcap
wants 0 "sent 3
received 3
both 3
sent alone 0
received alone 0
sent left aside 0
received left aside 2" --ignore reserved "$folder/own/port1.pcap" "$seen/sent_port1.pcap"
wants 2 "error: --ignore takes the word 'reserved'" --ignore Reserved "$capture" "$capture"
wants 2 "error: --ignore takes the word 'reserved'" --ignore reserved,reserved "$capture" "$capture"
# The segment and the event of each such record, and what of a near one differs.
python3 -B tests/compare/compare_near.py ./tep "$folder" || complain "a record of one capture alone is told otherwise"
python3 -B tests/compare/compare_differing.py ./tep "$folder" || complain "what differs is counted otherwise"
exit $status
