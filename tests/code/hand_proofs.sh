#!/usr/bin/env bash
# A proof by hand could give a count of work any value, so only the two calls of a count have one; all others are generated.
set -u
cd "$(dirname "$0")/../.." || exit 1

found=$(find crates -path '*/out' -prune -o -name Proof.antt -print | sort)
wanted="crates/work_count/proofs/Count/tick/Proof.antt
crates/work_count/proofs/Count/zero/Proof.antt"
[ "$found" = "$wanted" ] || {
    echo "tests/code/hand_proofs.sh: functions with a proof by hand: $found"
    exit 1
}
