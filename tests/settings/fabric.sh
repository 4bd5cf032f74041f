#!/usr/bin/env bash
# What `tep fabric check` tells of made fabrics, beside a model and beside runs.
set -u
cd "$(dirname "$0")/../.." || exit 1
exec python3 tests/settings/fabric.py ./tep
