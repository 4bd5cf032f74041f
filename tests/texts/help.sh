#!/usr/bin/env bash
# docs/HELP.txt has word for word what the program prints for each of its command lines.
#     tests/texts/help.sh write    writes it anew, with what the program prints now
set -u
cd "$(dirname "$0")/../.." || exit 1
program=crates/tep/out/tep
folder=$(mktemp -d)
trap 'rm -rf "$folder"' EXIT
status=0

# complain TEXT: a test has failed
complain() {
    echo "tests/texts/help.sh: $*"
    status=1
}

# prints LINE: what the program prints for a line '$ tep WORDS'
prints() {
    # shellcheck disable=SC2086
    $program ${1#\$ tep }
}

# The command lines that share a text, each group on one line.
awk '/^\$ tep/ { group = group (group ? "|" : "") $0; next } group { print group; group = "" }' docs/HELP.txt >"$folder/groups"
[ -s "$folder/groups" ] || complain "docs/HELP.txt has no command lines"

# As the file should be.
head -n 1 docs/HELP.txt >"$folder/help"
while IFS='|' read -ra lines; do
    printf '%s\n' "${lines[@]}" >>"$folder/help"
    prints "${lines[0]}" >>"$folder/help" || complain "${lines[0]}: status $?"
    for line in "${lines[@]:1}"; do
        cmp -s <(prints "$line") <(prints "${lines[0]}") || complain "$line prints something else than ${lines[0]}"
    done
done <"$folder/groups"

if [ "${1-}" = write ]; then
    cp "$folder/help" docs/HELP.txt
else
    diff docs/HELP.txt "$folder/help" || complain "docs/HELP.txt isn't what the program prints; 'tests/texts/help.sh write' mends it"
fi
exit "$status"
