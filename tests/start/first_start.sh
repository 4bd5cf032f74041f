#!/usr/bin/env bash
# ./tep where nothing is built: what it answers without the toolchain, what it tells while it proves and builds, the log that
# it keeps, and what it sees of later edits. In place of the toolchain stands a script that proves nothing.
set -u
cd "$(dirname "$0")/../.." || exit 1
folder=$(mktemp -d)
trap 'rm -rf "$folder"' EXIT
status=0

# complain TEXT: a test has failed
complain() {
    echo "tests/start/first_start.sh: $*"
    status=1
}

# A clone without anything built, and all programs but the toolchain's.
clone=$folder/clone
mkdir "$clone" "$folder/no_rt" "$folder/rt"
git ls-files -coz --exclude-standard | xargs -0 cp --parents -t "$clone" 2>/dev/null
ln -s /usr/bin/* "$folder/no_rt"
rm -f "$folder/no_rt/rt"
tep=$clone/tep
log=$clone/crates/tep/out/build.log
export PATH=$folder/no_rt

# ends STATUS WORDS..: ./tep ends with this status; what it printed stands in the files stdout and stderr
ends() {
    local wanted=$1 got
    shift
    "$tep" "$@" >"$folder/stdout" 2>"$folder/stderr" </dev/null
    got=$?
    [ $got -eq "$wanted" ] || complain "tep $*: status $got in place of $wanted: $(cat "$folder/stderr")"
}

# told FILE TEXT: the last call printed this there, where each time is 0:00
told() {
    local said
    said=$(sed -E 's/[0-9]+:[0-9][0-9]($|\. )/0:00\1/' "$folder/$1")
    [ "$said" = "$2" ] || complain "$1 is '$said' in place of '$2'"
}

# Help needs no toolchain, and makes nothing.
for words in --help -h help --version -V "run --help" "help run" "check -h" "explain --help"; do
    # shellcheck disable=SC2086
    ends 0 $words
    [ -s "$folder/stdout" ] && [ ! -s "$folder/stderr" ] || complain "tep $words: its help isn't on standard output alone"
done
ends 0 --help
told stdout "$(sed -n '/^\$ tep --help$/,/^\$ tep --version$/ { /^\$ tep/d; p }' docs/HELP.txt)"
for word in --version -V; do
    ends 0 $word
    told stdout "$(sed -n '/^\$ tep -V$/ { n; p }' docs/HELP.txt)
commit: unknown
proved: not yet"
done
for words in "" nothing "run --settings s" "check --settings examples/a.toml"; do
    # shellcheck disable=SC2086
    ends 3 $words
    told stdout ""
    told stderr "tep: the toolchain's command, rt, isn't in the path: README.md says under 'What it needs' where it comes from"
done
[ ! -e "$clone/crates/tep/out" ] || complain "something was made without the toolchain"

# The stand-in tells each call, and fails where a file says so. It makes a program that tells its words.
cat >"$folder/rt/rt" <<'RT'
#!/usr/bin/env bash
echo "$* in $(basename "$PWD")" >>"$CALLS"
case $1 in
    try)
        echo "four lines"
        echo "chatter" >&2
        ;;
    lib) echo "logic=proved functions=1" ;;
    all)
        for name in wire octet_sums; do
            sleep "${SLOW:-0}"
            printf '== %s\nfn some: proved\ncrate %s: modules loaded=1 checked=1\nlogic=proved functions=1\n' $name $name
        done
        [ ! -e "$CALLS.fails" ] || printf '== vlan_ports\n%s\nlogic=not-proved\n== summary\n' "$(seq 40)"
        [ ! -e "$CALLS.fails" ]
        ;;
    run)
        printf '#!/bin/sh\necho "words: $*"\n' >out/tep
        chmod +x out/tep
        out/tep
        ;;
esac
RT
chmod +x "$folder/rt/rt"
export CALLS=$folder/calls PATH=$folder/rt:$PATH

# called LINE..: these calls of the toolchain were made since the last time, and no others
called() {
    local calls
    calls=$(sed 's/--jobs [0-9]*/--jobs N/' "$CALLS" 2>/dev/null)
    [ "$calls" = "$(printf '%s\n' "$@")" ] || complain "the calls were '$calls'"
    rm -f "$CALLS"
}

count=$(awk -F: '/^[a-z]/ { print $1 }' crates.txt | wc -l)
ends 0 one two
told stdout "words: one two"
of=$(sed -nE 's/^\[1\/([0-9]+)\] .*/\1/p' "$folder/stderr")
[ "${of:-0}" -gt 10 ] && [ "$of" -lt "$count" ] || complain "$of of $count crates are to be proved"
told stderr "tep: first a look at the sample, not proved yet:
four lines
tep: now each crate is proved, and then the program is built. This takes about an hour on four processors, once.
tep: The log is $log. An interrupt loses nothing: the next ./tep goes on from there.
[1/$of] wire 0:00
[2/$of] octet_sums 0:00
tep: all is proved; now it is built
tep: proved and built in 0:00. Only who changes a crate needs crates/*/out/incremental, nothing here"
called "try in tep" "lib --jobs N in wire" "all check --jobs N in tep" "run in tep"
grep -q '^fn some: proved$' "$log" || complain "the log lacks what the check said"

# From then on it starts at once, until a source that it stands on changes.
ends 0 three
told stdout "words: three"
told stderr ""
ends 0 --version
told stdout "words: --version
commit: unknown
proved: all that it stands on"
touch "$clone/crates/endpoint_tests/src/lib.rt"
ends 0
called
for source in crates.txt crates/tep/src/main.rt crates/wire/specs crates/endpoint_core/proofs; do
    touch "$clone/$source"
    ends 0 four
    told stdout "words: four"
    called "lib --jobs N in wire" "all check --jobs N in tep" "run in tep"
done
ends 0
called

# Where it fails, the log's last twenty lines are told, and the log stays.
touch "$CALLS.fails" "$clone/crates/tep/src/main.rt"
ends 3 five
told stdout ""
told stderr "tep: proving what isn't proved yet or has changed, and building; the log is $log
[1/$of] wire 0:00
[2/$of] octet_sums 0:00
[3/$of] vlan_ports 0:00
tep: vlan_ports isn't proved
$(seq 23 40)
logic=not-proved
== summary
tep: it couldn't be proved and built; the whole log is $log"
called "lib --jobs N in wire" "all check --jobs N in tep"
[ "$(grep -c . "$log")" -eq 52 ] || complain "the log isn't whole: $(cat "$log")"
rm "$CALLS.fails"
ends 0
called "lib --jobs N in wire" "all check --jobs N in tep" "run in tep"

# An interrupt is told, and the next start goes on; on a terminal one line is written over.
touch "$clone/crates/tep/src/main.rt"
SLOW=10 setsid -w timeout -s INT 3 "$tep" six >"$folder/stdout" 2>"$folder/stderr"
grep -q '^tep: interrupted; what is proved stays$' "$folder/stderr" || complain "an interrupt isn't told: $(cat "$folder/stderr")"
told stdout ""
SLOW=2 script -qec "$tep seven" /dev/null >"$folder/terminal" </dev/null
for line in "\[0/$of\] beginning 0:0" "\[1/$of\] wire 0:0" "\[2/$of\] octet_sums 0:0"; do
    tr '\r' '\n' <"$folder/terminal" | grep -q "$line" || complain "a terminal isn't told '$line': $(cat -v "$folder/terminal")"
done
tail -n 1 "$folder/terminal" | grep -q '^words: seven' || complain "the program's own line isn't the last"

exit "$status"
