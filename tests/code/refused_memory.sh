#!/usr/bin/env bash
# Where a call needs memory and is refused it, it answers just that, and what it was to extend is as before: each request for
# memory of the calls below is refused in turn. One program, crates/refused_memory, is built for all of them. It makes a call
# behind so many other requests, while its request 500 is refused: so the refused request goes from behind the call's last
# one to its first one, as the others become more. An input of a capture asks for room to read ahead: where it is refused
# that, it reads a block alone, and the call is done.
#
#     tests/code/refused_memory.sh table    prints how many requests each call makes
#     tests/code/refused_memory.sh count    counts them anew, and prints what the list below has to be
set -u
cd "$(dirname "$0")/../.." || exit 1
mode=${1:-}
folder=$(mktemp -d)
trap 'rm -rf "$folder"' EXIT
mkdir "$folder/cases"
status=0

# The number of the request that is refused.
refused=500

# Each call, and how many requests it makes; in front of these come those of another call, and so many more, for what the
# call is given. Those of none come first of all; they aren't refused here. Where not each refusal is answered as one, all
# answers stand behind, from that behind the last request to that of the first.
calls="
none 1 start 0
line_of 173 none 0
settings_of 68 none 0
settings_of_long 92 none 0
migrate 49 none 0
changes_of 26 none 0
check_text 98 none 0
put_header 1 none 1
put_record 1 none 1
Source 1 none 0
Timeline 3 none 0
classic_of 4 none 0
CaptureInput 4 none 0 1 done 1 memory 1 done 2 memory
read_text 1 none 0
ListTables 3 none 0
SharedTables 3 none 0
PortSet 2 settings_of 0
Overlay 5 settings_of 0
Overlay_long 8 settings_of_long 0
EndpointState 14 settings_of 0
Endpoint 15 settings_of 0
Endpoint_long 18 settings_of_long 0
append_to 1 Endpoint 1
result_text 3 Endpoint 0
sample 89 none 0
explain_bytes 57 none 0
run_bytes 92 none 1
run 80 none 4
"

# fail SENTENCE: this isn't as it should be
fail() {
    echo "tests/code/refused_memory.sh: $1"
    status=1
}

# total NAME: the requests up to the last one of a call
total() {
    local name made first more answers
    [ "$1" != start ] || { echo 0; return; }
    read -r name made first more answers < <(grep "^$1 " <<<"$calls")
    echo $((made + more + $(total "$first")))
}

# put_case NAME COUNT: a case, the call of this name behind so many requests; all cases are of one length
put_case() {
    printf '%-20s %3d\n' "$1" "$2" >"$folder/cases/$1-$2"
}

# run_cases: runs all cases, a share of them on each processor, four at most, and keeps in a log what the program prints for each
run_cases() {
    local many number=0 file share
    many=$(nproc)
    [ "$many" -le 4 ] || many=4
    for share in $(seq 0 $((many - 1))); do mkdir "$folder/share$share"; done
    for file in "$folder"/cases/*; do
        mv "$file" "$folder/share$((number % many))"
        number=$((number + 1))
    done
    for share in "$folder"/share*; do
        (cd crates/refused_memory &&
            rt try --steps 1 --seconds 300 --fail-alloc "$refused" --cases "$share" >"$share.log" 2>&1) &
    done
    wait
    cat "$folder"/share*.log >"$folder/log"
}

# said NAME COUNT: what the program printed for a case: the answer, and how many requests were granted behind it
said() {
    awk -v name="$1-$2" '$1 == "==" && $2 == name { getline; print; exit }' "$folder/log"
}

# answers NAME: how often each answer came in the cases of a call, as the requests before it become more
answers() {
    awk -v name="$1" '
        $1 == "==" { at = match($2, /-[0-9]+$/); own = substr($2, 1, at - 1); count = substr($2, at + 1); getline
            if (own == name) print count, $1 }' "$folder/log" |
        sort -n | cut -d ' ' -f 2 | uniq -c | awk '{ print $1, $2 }' | paste -s -d ' '
}

# count: the list of calls as it has to be
count() {
    local name made first more answers granted
    while read -r name made first more answers; do put_case "$name" 0; done < <(grep . <<<"$calls")
    run_cases
    while read -r name made first more answers; do
        granted=$(said "$name" 0)
        case $granted in
            "done "*) made=$((refused - 1 - ${granted#done } - more - $(total "$first"))) ;;
            *) fail "$name answers '$granted' with memory" ;;
        esac
        calls=$(sed "s/^$name [0-9]* /$name $made /" <<<"$calls")
    done < <(grep . <<<"$calls")
    grep . <<<"$calls"
}

if [ "$mode" = count ]; then
    count
    exit "$status"
fi

while read -r name made first more answers; do
    last=$((refused - 1 - $(total "$name")))
    [ "$name" != none ] || made=0
    for n in $(seq "$last" $((last + made))); do put_case "$name" "$n"; done
done < <(grep . <<<"$calls")
run_cases

while read -r name made first more answers; do
    # With the refused request right behind the call's last one it is done, and no request is granted behind it.
    last=$((refused - 1 - $(total "$name")))
    [ "$(said "$name" "$last")" = "done 0" ] || fail "$name behind $last requests answers '$(said "$name" "$last")'"
    [ "$name" != none ] || continue
    wanted=${answers:-1 done $made memory}
    [ "$(answers "$name")" = "$wanted" ] || fail "$name answers '$(answers "$name")' in place of '$wanted'"
    [ "$mode" != table ] || echo "| \`$name\` | $made |"
done < <(grep . <<<"$calls")

exit "$status"
