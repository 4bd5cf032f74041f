#!/usr/bin/env bash
# The keys and ranges that are told of a refused text are those of docs/formats/settings.md, none more and none less.
set -u
cd "$(dirname "$0")/../.." || exit 1
exec python3 tests/settings/advice.py
