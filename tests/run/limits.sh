#!/usr/bin/env bash
# A run with as much of everything as there may be.
exec bash "$(dirname "$0")/../../examples/limits/run.sh"
