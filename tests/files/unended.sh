#!/usr/bin/env bash
# Runs and merges that are killed, interrupted or stopped by a fault, at many moments: unended.py.
set -u
cd "$(dirname "$0")/../.." || exit 1
python3 tests/files/unended.py
