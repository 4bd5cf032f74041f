#!/usr/bin/env bash
# No step asks for memory. The program crates/refused_steps runs while its request 500 for memory is refused, which is the next
# one when the endpoint's steps begin: the endpoint answers as it should with memory, and the refused request is still the next
# one behind its steps. So none was made in them.
set -u
cd "$(dirname "$0")/../.." || exit 1
folder=$(mktemp -d)
trap 'rm -rf "$folder"' EXIT
mkdir "$folder/cases"
status=0

# The number of the request that is refused.
refused=500

# The steps, and how many requests the program makes by itself before them.
kinds="
steps 383
lists 152
"

# fail SENTENCE: this isn't as it should be
fail() {
    echo "tests/code/refused_steps.sh: $1"
    status=1
}

# put_case WORD COUNT: a case, steps or no steps behind so many requests; all cases are of one length
put_case() {
    printf '%-8s %3d\n' "$1" "$2" >"$folder/cases/$1-$2"
}

# said WORD COUNT: what the program printed for a case: whether the endpoint answered as it should, and how many requests were
# granted from then on
said() {
    awk -v name="$1-$2" '$1 == "==" && $2 == name { getline; print; exit }' "$folder/log"
}

# says WORD COUNT ANSWER WHAT: a case prints this answer, or else that isn't so
says() {
    local answer
    answer=$(said "$1" "$2")
    [ "$answer" = "$3" ] || fail "$4: '$1 $2' answers '$answer' in place of '$3'"
}

while read -r kind before; do
    rest=$((refused - 1 - before))
    put_case "no_$kind" 0
    put_case "no_$kind" "$rest"
    put_case "no_$kind" "$((rest + 1))"
    put_case "$kind" "$rest"
done < <(grep . <<<"$kinds")
(cd crates/refused_steps &&
    rt try --steps 1 --seconds 300 --fail-alloc "$refused" --cases "$folder/cases" >"$folder/log" 2>&1)

while read -r kind before; do
    rest=$((refused - 1 - before))
    says "no_$kind" 0 "done $rest" "the program makes another number of requests before the steps than $before"
    says "no_$kind" "$rest" "done 0" "the refused request isn't the next one"
    says "no_$kind" "$((rest + 1))" "done $refused" "a request that is made in between isn't seen"
    says "$kind" "$rest" "done 0" "a step asks for memory, or answers otherwise without"
done < <(grep . <<<"$kinds")

[ "$status" -eq 0 ] || tail -n 20 "$folder/log"
exit "$status"
