#!/usr/bin/env bash
# Command lines, each with its status and the files that it writes.
set -u
cd "$(dirname "$0")/../.." || exit 1
./tep >/dev/null || {
    echo "tests/files/statuses.sh: there is no program"
    exit 1
}
PYTHONPATH=tests/lib exec python3 -B tests/files/statuses.py
