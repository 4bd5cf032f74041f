#!/usr/bin/env bash
# What the documents show is so, and all that they name is there. Each command of a block 'console' is run, the blocks of one
# document one after another in a folder of its own, and prints word for word what stands below it. A block is passed over
# where a tool that it names isn't there.
set -u
cd "$(dirname "$0")/../.." || exit 1
top=$PWD
folder=$(mktemp -d)
trap 'rm -rf "$folder"' EXIT
export TZ=UTC LC_ALL=C
status=0

# complain TEXT: a test has failed
complain() {
    echo "tests/texts/documents.sh: $*"
    status=1
}

# lacks LINE..: one of these lines names a tool that isn't there
lacks() {
    local tool
    for tool in tcpdump tshark editcap capinfos mergecap; do
        if grep -qw "$tool" <<<"$*" && ! command -v "$tool" >/dev/null; then
            return 0
        fi
    done
    return 1
}

# shows DOCUMENT COMMAND TEXT: the command prints the text
shows() {
    local printed
    printed=$(bash -c "$2" 2>&1 </dev/null)
    [ "$printed" = "$3" ] || complain "$1: '$2' prints
$printed"
}

# runs DOCUMENT LINE..: the commands of a block, each with what it prints
runs() {
    local document=$1 command="" text="" is_whole=yes line
    shift
    lacks "$@" && return
    for line in "$@" '$ '; do
        if [ $is_whole = no ]; then
            command=${command%\\}${line#"${line%%[! ]*}"}
        elif [ "${line#\$ }" != "$line" ]; then
            [ -z "$command" ] || shows "$document" "$command" "$text"
            command=${line#\$ }
            text=""
        else
            text=${text:+$text$'\n'}$line
            continue
        fi
        is_whole=yes
        [ "${command%\\}" = "$command" ] || is_whole=no
    done
}

for document in README.md docs/TOUR.md docs/OPERATING.md docs/RECIPES.md examples/README.md; do
    mkdir "$folder/place"
    ln -s "$top/tep" "$top/examples" "$folder/place"
    cd "$folder/place" || exit 1
    is_within=no
    count=0
    while IFS= read -r line; do
        case $is_within,$line in
            'no,```console')
                is_within=yes
                block=()
                ;;
            'yes,```')
                is_within=no
                count=$((count + 1))
                runs "$document" "${block[@]}"
                ;;
            yes,*) block+=("$line") ;;
        esac
    done <"$top/$document"
    [ "$count" -gt 0 ] || complain "$document shows no commands"
    cd "$top" || exit 1
    rm -rf "$folder/place"
done

# Each crate has its row in docs/ARCHITECTURE.md.
awk -F '[ :]' '/^[a-z]/ { print $1 }' crates.txt >"$folder/crates"
grep '^|' docs/ARCHITECTURE.md | cut -d '|' -f 2 >"$folder/rows"
while read -r crate; do
    grep -qF "\`$crate\`" "$folder/rows" || complain "docs/ARCHITECTURE.md has no row on $crate"
done <"$folder/crates"

# The head of each crate and of each of its public modules says what is proved, and pages say which script prints that.
python3 docs/proved.py >/dev/null || complain "docs/proved.py finds a head without a paragraph 'Proved'"
for document in README.md docs/PROVED.md; do
    grep -qF docs/proved.py "$document" || complain "$document doesn't name docs/proved.py"
done

# Each name in a page is one that the sources or the scripts have.
python3 tests/texts/document_names.py || complain "a page names what isn't there"

# Each function, type and definition that these pages name in a row stands in the file beside it, which is one below crates/.
count=0
while IFS='|' read -r _ _ names place _; do
    place=${place//[\` ]/}
    case $place in
        */src/*.rt) file=crates/$place words='(fn|struct|enum|trait|type)' ;;
        */specs/*) file=crates/$place.antt words='pub( record| data)?' ;;
        *) continue ;;
    esac
    for name in ${names//[\`,]/}; do
        count=$((count + 1))
        grep -qsE "\b$words $name\b" "$file" || complain "a document says that $name stands in $file"
    done
done < <(grep -h '^|' docs/ARCHITECTURE.md docs/GLOSSARY.md)
[ "$count" -gt 0 ] || complain "no document names a function with its file"

# The definitions that the headline is made of are those that its page lists.
python3 tests/texts/headline.py >"$folder/headline" || complain "tests/texts/headline.py fails"
diff <(sed '1,/^<!-- headline -->$/d; /^<!-- end -->$/,$d' docs/HEADLINE.md) "$folder/headline" >&2 ||
    complain "docs/HEADLINE.md doesn't list what the headline is made of: tests/texts/headline.py prints it"

# The changelog's last release is the one that the program tells.
release=$(sed -nE 's/^## \[([0-9][0-9.]*)\] - .*/\1/p' CHANGELOG.md | head -n 1)
version=$(./tep --version | head -n 1)
[ "$version" = "tep $release" ] || complain "CHANGELOG.md's last release is '$release', and tep tells '$version'"

# Each file that a document names is there.
while read -r page; do
    [ -e "$page" ] || complain "a document names $page, which isn't there"
done < <(grep -ohE '\b(docs|examples|tests|bench)/[A-Za-z0-9_./]+\.[a-z]+' README.md docs/*.md docs/*/*.md bench/*.md examples/*.md \
    examples/*/*.md tests/*.md | sort -u)
exit "$status"
