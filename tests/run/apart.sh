#!/usr/bin/env bash
# Two runs that differ in one tenant's traffic only: the others' octets and decision lines are the same.
exec bash "$(dirname "$0")/../../examples/apart/run.sh"
