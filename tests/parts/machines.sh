#!/usr/bin/env bash
# The recipes of docs/RECIPES.md for parts on many machines, as they stand there, on this machine: what they merge is the whole
# run. Of GNU parallel and Slurm what isn't here is told as not tried; Slurm starts as root alone.
set -u
cd "$(dirname "$0")/../.." || exit 1
top=$PWD
folder=$(mktemp -d)
# munge's socket has to be in reach of all
chmod 755 "$folder"
trap 'rm -rf "$folder"' EXIT
status=0

complain() {
    echo "tests/parts/machines.sh: $*"
    status=1
}

./tep >/dev/null || {
    complain "there is no program"
    exit 1
}

# recipe WORD: the block of the recipes, of those that are no console, in which a line begins with this word
recipe() {
    awk -v word="$1" '
        /^```/ && is_in { if (found && kind == "```") { printf "%s", text; exit } is_in = 0; next }
        /^```/ { is_in = 1; kind = $0; text = ""; found = 0; next }
        { text = text $0 "\n"; found = found || index($0, word) == 1 }' docs/RECIPES.md
}

mkdir "$folder/path" "$folder/whole"
ln -s "$top/tep" "$folder/path/tep"
export PATH=$folder/path:$PATH
./tep run --summary --out "$folder/whole" --settings examples/a.toml --underlay examples/underlay.pcap examples/port?.pcap |
    awk -v parts=3 -f examples/lists.awk >"$folder/lists.txt"
# most frames come to segment 10, the others to segment 20
[ "$(cat "$folder/lists.txt")" = "$(printf '10\n20\n1-9,11-19,21-4094,none')" ] || complain "the lists are: $(cat "$folder/lists.txt")"

# tries NAME COMMAND..: what the recipe of this name merges in a folder of its own, by this command, is the whole run
tries() {
    local name=$1 place=$folder/$1
    shift
    mkdir "$place"
    cp examples/a.toml "$place/settings.toml"
    cp examples/underlay.pcap examples/port?.pcap "$folder/lists.txt" "$place"
    echo 4/: >"$place/machines.txt"
    recipe '#!/bin/sh' >"$place/job.sh"
    (cd "$place" && "$@") >"$folder/told" 2>&1 || complain "$name: $(tail -n 3 "$folder/told")"
    diff -r "$folder/whole" "$place/whole" >"$folder/differences" || complain "$name isn't the run: $(head -n 3 "$folder/differences")"
}

tries xargs bash -c "$(recipe 'nl ')"
if command -v parallel >/dev/null; then
    tries parallel bash -c "$(recipe 'parallel ')"
else
    echo "tests/parts/machines.sh: GNU parallel wasn't tried: it isn't here"
fi
if [ "$(id -u)" -eq 0 ] && command -v sbatch >/dev/null && command -v slurmctld >/dev/null && command -v munged >/dev/null; then
    tries slurm bash "$top/tests/lib/slurm.bash" "$folder/daemons" bash -c "$(recipe 'parts=')"
else
    echo "tests/parts/machines.sh: Slurm wasn't tried: it isn't here, or this isn't root"
fi
exit $status
