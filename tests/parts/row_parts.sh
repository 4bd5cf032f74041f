#!/usr/bin/env bash
# Worked rows, each run cut into each pair of parts and put together again.
set -u
cd "$(dirname "$0")/../.." || exit 1
./tep >/dev/null || {
    echo "tests/parts/row_parts.sh: there is no program"
    exit 1
}
PYTHONPATH=tests/lib:tests/run exec python3 -B tests/parts/row_parts.py
