#!/usr/bin/env bash
# Runs on captures of any size: 6,000 records that another program wrote, and which reads what comes out; and captures made
# on the fly, through pipes, whose octets no run may keep.
set -u
cd "$(dirname "$0")/../.." || exit 1
bash examples/large.sh && python3 tests/run/large.py
