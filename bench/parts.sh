#!/usr/bin/env bash
# How long a run takes as one, and cut by segments into 2 and into 4 parts side by side with the merge behind them, and how
# long a number takes to which nothing comes: that part doesn't shrink. The parts take the digests of their captures each by
# itself, and once more all are lent the same. 256 segments of 256 addresses, or SEGMENTS of ADDRESSES. It is no test: time is
# promised nowhere.
#     bench/parts.sh [SEGMENTS [ADDRESSES [ROUNDS]]]
# TEP names another program than ./tep.
set -eu
here=$(cd "$(dirname "$0")" && pwd)
tep=${TEP:-$here/../tep}
segments=${1:-256}
folder=$(mktemp -d)
trap 'rm -rf "$folder"' EXIT
frames=$(python3 "$here/many_tenants.py" "$folder" "$segments" "${2:-256}" "${3:-12}")
"$tep" --version >"$folder/version"

# run OUT [WORDS]: a run into this folder
run() {
    local out=$1
    shift
    mkdir -p "$out"
    "$tep" run --settings "$folder/settings.toml" --underlay "$folder/underlay.pcap" --out "$out" "$@" \
        "$folder/port1.pcap" "$folder/port2.pcap"
}

# took NAME SINCE: how long it took since then, in nanoseconds
took() {
    echo "$1: $((($(date +%s%N) - $2) / 1000000)) ms"
}

echo "$frames frames"
begun=$(date +%s%N)
run "$folder/whole"
took "one run" "$begun"

begun=$(date +%s%N)
"$tep" digest --underlay "$folder/underlay.pcap" "$folder/port1.pcap" "$folder/port2.pcap" >"$folder/digests.txt"
took "the digests" "$begun"

# in_parts [WORDS]: runs in parts with these words, and merges
in_parts() {
    begun=$(date +%s%N)
    run "$folder/nothing" --segments 4094 "$@"
    took "a part to which nothing comes" "$begun"
    for count in 2 4; do
        begun=$(date +%s%N)
        parts=()
        waits=()
        for ((number = 0; number < count; number++)); do
            first=$((segments * number / count + 1))
            last=$((segments * (number + 1) / count))
            # the last one also takes the VIDs without a segment, and what comes to none
            [ $((number + 1)) -lt "$count" ] && list=$first-$last || list=$first-4094,none
            parts+=("$folder/$count.$number")
            run "$folder/$count.$number" --segments "$list" "$@" &
            waits+=($!)
        done
        for process in "${waits[@]}"; do wait "$process"; done
        took "$count parts side by side" "$begun"
        begun=$(date +%s%N)
        mkdir -p "$folder/merged$count"
        "$tep" merge --out "$folder/merged$count" "${parts[@]}"
        took "their merge" "$begun"
        diff -r "$folder/whole" "$folder/merged$count" >"$folder/differences" || { head "$folder/differences"; exit 1; }
    done
}

echo "digests of their own"
in_parts
echo "digests that are lent"
in_parts --digests "$folder/digests.txt"
