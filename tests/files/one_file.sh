#!/usr/bin/env bash
# Outputs that are one file, files that are read, standard output, closed streams, and pipes that are opened once: one_file.py.
set -u
cd "$(dirname "$0")/../.." || exit 1
python3 tests/files/one_file.py
