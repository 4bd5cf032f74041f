#!/usr/bin/env bash
# Worked rows: whole runs told line by line, each with what it says and writes.
set -u
cd "$(dirname "$0")/../.." || exit 1
./tep >/dev/null || {
    echo "tests/run/rows.sh: there is no program"
    exit 1
}
PYTHONPATH=tests/lib exec python3 -B tests/run/rows.py
