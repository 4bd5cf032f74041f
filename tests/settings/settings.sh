#!/usr/bin/env bash
# Texts of settings and changes, each with its first fault; and addresses.
set -u
cd "$(dirname "$0")/../.." || exit 1
./tep >/dev/null || {
    echo "tests/settings/settings.sh: there is no program"
    exit 1
}
PYTHONPATH=tests/lib exec python3 -B tests/settings/settings.py
