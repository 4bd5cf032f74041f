#!/usr/bin/env bash
# The fields of the pool of addresses, by name and type: an address and the moment at which it was seen stand in a slot's
# key and last moment, and nowhere beside in what the pool keeps: a Newcomer is handed from call to call, and no field holds
# one. No contract can say that, for contracts see no field.
set -u
cd "$(dirname "$0")/../.." || exit 1

# fields: the structs and enums of the pool's own files, without comments, one on a line
fields() {
    cat crates/shared_tables/src/*.rt crates/shared_tables/src/*/*.rt |
        awk '
            /^ *\/\// || /^ *#\[/ { next }
            /^(pub(\([a-z]+\))? )?(struct|enum) / { inside = 1; text = "" }
            inside { sub(/^ +/, ""); sub(/^pub(\([a-z]+\))? /, ""); text = text (text ? " " : "") $0 }
            inside && /^}|;$/ { print text; inside = 0 }' | LC_ALL=C sort
}

diff - <(fields) <<'TEXT' || { echo "tests/code/pool_fields.sh: the pool keeps something else"; exit 1; }
enum Kind { Free, Learned, Fixed, }
enum Outcome { Held(SlotId), Entered, Full, }
enum Side { Previous, Next, }
enum Sought { At(SlotId), Missing(Option<Beside>), }
enum Target { Nothing, Leaf(u32), Fork(u32, u32), }
struct Beside { leaf: SlotId, bit: u32, }
struct Columns { numbers: Vec<u32>, leaves: usize, forks: usize, }
struct Ends { first: Link, last: Link, }
struct Link { word: u32, }
struct Links { previous: Link, next: Link, }
struct Newcomer { tree: usize, beside: Option<Beside>, vid: Vid, mac: Mac, place: Place, last: Option<u64>, }
struct Share { limit: u32, ageing: u32, count: u32, queue: Ends, fixed: Ends, }
struct SharedTables { slots: Slots, trees: Trees, shares: Vec<Option<Share>>, moment: u64, calls: Count, compared: Count, }
struct Slot { key: u64, last: u64, line: Links, place: Place, kind: Kind, }
struct SlotId { number: u32, }
struct Slots { slots: Vec<Slot>, size: u32, free: Link, visited: Count, }
struct Trees { columns: Columns, }
TEXT

# What compares an address or goes down a tree is handed the count that it ticks, and a body could hand on a new one, which no
# contract shows. So new counts are made where the tables are opened, and for what is told of tables that are lent shared, which
# no call of a bridge asks for (known.rt), and nowhere else.
diff - <(grep -c 'Count::zero()' crates/shared_tables/src/*.rt crates/shared_tables/src/*/*.rt | grep -v ':0$') <<'TEXT' || {
crates/shared_tables/src/shared_tables.rt:2
crates/shared_tables/src/slots.rt:1
crates/shared_tables/src/shared_tables/known.rt:1
TEXT
    echo "tests/code/pool_fields.sh: counts are made elsewhere"
    exit 1
}
