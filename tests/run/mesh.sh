#!/usr/bin/env bash
# A mesh of three endpoints: what one of them sends, the others are given.
set -u
cd "$(dirname "$0")/../.." || exit 1
./tep >/dev/null || {
    echo "tests/run/mesh.sh: there is no program"
    exit 1
}
PYTHONPATH=tests/lib exec python3 -B tests/run/mesh.py
