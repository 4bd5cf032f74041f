#!/usr/bin/env bash
# tep compare tells of made folders of runs and captures beside them what a script without tep works out, in both of its forms. So
# many folders are made, from a seed each; thousands take minutes.
#     compare_made.sh [COUNT [FIRST]]
set -u
cd "$(dirname "$0")/../.." || exit 1
folder=$(mktemp -d)
trap 'rm -rf "$folder"' EXIT
python3 -B tests/compare/compare_made.py ./tep "$folder" "${1:-300}" "${2:-0}" ||
    { echo "tests/compare/compare_made.sh: a folder is told otherwise"; exit 1; }
