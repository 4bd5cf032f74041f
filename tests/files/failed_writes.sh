#!/usr/bin/env bash
# What stands in the outputs behind a write that failed: at a full device, at the limit of a file's size and at a pipe whose reader
# goes away, for each output in turn. No decision line stands without the records of its event.
set -u
cd "$(dirname "$0")/../.." || exit 1
exec python3 tests/files/failed_writes.py
