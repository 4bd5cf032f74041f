#!/usr/bin/env bash
# Packets and frames cut at every length, and the most that settings and changes may hold.
set -u
cd "$(dirname "$0")/../.." || exit 1
./tep >/dev/null || {
    echo "tests/run/lengths.sh: there is no program"
    exit 1
}
PYTHONPATH=tests/lib:tests/outputs exec python3 -B tests/run/lengths.py
