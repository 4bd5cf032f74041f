#!/usr/bin/env bash
# Programs that must not compile. Each stands on the crates of this repository, and is refused with the stated fault.
set -u
cd "$(dirname "$0")/../.." || exit 1
source tests/code/copied_crates.bash
folder=$(copied_crates)
trap 'rm -rf "$folder"' EXIT
status=0

# refuses NAME FAULT LIBRARIES: the text on standard input, as the crate of this name, isn't compiled for this fault
refuses() {
    local name=$1 fault=$2 libraries=$3
    mkdir -p "$folder/crates/$name/src"
    cat >"$folder/crates/$name/src/lib.rt"
    echo "$name: $libraries" >>"$folder/crates.txt"
    (cd "$folder/crates/$name" && rt try --test 2>&1) | grep -q "error\[$fault\]" || {
        echo "tests/code/refused.sh: $name isn't refused for $fault"
        status=1
    }
}

# refuses_within CRATE NAME FAULT COUNT: the text on standard input, as a module of this name within the crate, isn't
# compiled, for so many of this fault
refuses_within() {
    local crate=$1 name=$2 fault=$3 count=$4 found
    cat >"$folder/crates/$crate/src/$name.rt"
    sed -i "0,/^mod /s//mod $name;\nmod /" "$folder/crates/$crate/src/lib.rt"
    cp crates.txt "$folder/crates.txt"
    found=$(cd "$folder/crates/$crate" && rt try --test 2>&1 | grep -c "^src/$name.rt:.*error\[$fault\]")
    rm "$folder/crates/$crate/src/$name.rt"
    cp "crates/$crate/src/lib.rt" "$folder/crates/$crate/src/lib.rt"
    [ "$found" -eq "$count" ] || {
        echo "tests/code/refused.sh: $name within $crate isn't refused for $count of $fault, but for $found"
        status=1
    }
}

# What a slot of the pool holds is told by `differs` and `dead`, and to a listing by `live_row`, alone: no other module reads a
# slot's fields. Nor does one go down a tree but by `next`, which counts.
refuses_within shared_tables reads private-field 4 <<'TEXT'
//! Reads what a slot holds, and what stands behind a fork, past their own modules.
use crate::trees::Trees;
use crate::slots::{Slot, Slots};

/// The VID and the address of an entry.
pub fn key_of(slot: &Slot) -> u64 {
    slot.key
}

/// When an entry was last seen.
pub fn moment_of(slot: &Slot) -> u64 {
    slot.last
}

/// How many slots there are.
pub fn count_of(slots: &Slots) -> usize {
    slots.slots.len()
}

/// What stands at a place of the trees.
pub fn word_at(trees: &Trees, place: usize) -> u32 {
    trees.columns.word(place)
}

#[test]
fn nothing_is_run(rt: HostRuntime) {
    assert!(rt; true);
}
TEXT

# The decision about a packet borrows its octets: it can't outlive them.
refuses outlives borrow-e0515 "$(libraries_over endpoint_core)" <<'TEXT'
//! A decision that outlives the octets that it borrows.
#![tactic(auto)]

use endpoint_core::{Decision, Endpoint};

/// The decision about a packet whose octets go when this returns.
pub fn decided_of<'a>(endpoint: &mut Endpoint, octets: Vec<u8>) -> Decision<'a> {
    endpoint.packet(0, 0, octets.as_slice())
}

#[test]
fn nothing_is_run(rt: HostRuntime) {
    assert!(rt; true);
}
TEXT

exit "$status"
