#!/usr/bin/env bash
# How many frames a second `tep run` takes on a host of many tenants: 64 segments of 1,000 addresses, or SEGMENTS of
# ADDRESSES. It is no test: time is promised nowhere.
#     bench/many_tenants.sh [SEGMENTS [ADDRESSES [ROUNDS]]]
# TEP names another program than ./tep.
set -eu
here=$(cd "$(dirname "$0")" && pwd)
tep=${TEP:-$here/../tep}
folder=$(mktemp -d)
trap 'rm -rf "$folder"' EXIT

frames=$(python3 "$here/many_tenants.py" "$folder" "$@")
mkdir "$folder/out"
"$tep" --version >"$folder/version"
for turn in 1 2 3; do
    begun=$(date +%s%N)
    "$tep" run --settings "$folder/settings.toml" --underlay "$folder/underlay.pcap" --out "$folder/out" \
        "$folder/port1.pcap" "$folder/port2.pcap"
    took=$(($(date +%s%N) - begun))
    echo "$frames frames in $((took / 1000000)) ms: $((frames * 1000000000 / took)) frames a second"
done
