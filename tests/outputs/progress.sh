#!/usr/bin/env bash
# How far a long run is, on a terminal: one line, written over the last one, and gone at the end. Elsewhere, and with --quiet, nothing.
set -u
cd "$(dirname "$0")/../.." || exit 1
./tep >/dev/null || {
    echo "tests/outputs/progress.sh: there is no program"
    exit 1
}
exec python3 -B tests/outputs/progress.py
