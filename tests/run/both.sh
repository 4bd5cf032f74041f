#!/usr/bin/env bash
# What a run takes in of captures that hold both directions: of made ones what a model says that has none of the code, so many
# runs of 20 scenarios each, and of the lab's with moments that are rounded down.
#     both.sh [COUNT [FIRST]]
set -u
cd "$(dirname "$0")/../.." || exit 1
export PYTHONPATH=tests/lib
status=0
./tep >/dev/null || {
    echo "tests/run/both.sh: there is no program"
    exit 1
}
python3 -B tests/run/both_made.py "${1:-200}" "${2:-0}" || status=1
python3 -B tests/run/both_moments.py || status=1
exit "$status"
