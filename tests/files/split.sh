#!/usr/bin/env bash
# Captures of many interfaces, split: each file is what its interface is read as where it alone is asked for.
set -u
cd "$(dirname "$0")/../.." || exit 1
./tep >/dev/null || {
    echo "tests/files/split.sh: there is no program"
    exit 1
}
exec python3 -B tests/files/split.py
