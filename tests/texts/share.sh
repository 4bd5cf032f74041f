#!/usr/bin/env bash
# The man page and the completions in share/ say what the program's help says. The page is one that its readers take without a
# warning, and the shells complete what they should; what isn't on this machine is passed over.
set -u
cd "$(dirname "$0")/../.." || exit 1
top=$PWD
folder=$(mktemp -d)
trap 'rm -rf "$folder"' EXIT
export LC_ALL=C.UTF-8
status=0

# complain TEXT: a test has failed
complain() {
    echo "tests/texts/share.sh: $*"
    status=1
}

# has TOOL: it is on this machine
has() {
    command -v "$1" >/dev/null
}

made=(tep.1 tep.bash _tep tep.fish)
python3 -B share/make.py check || complain "share/make.py says that something isn't as it should be"

# One word that differs is told, and with it the file; what is written anew is as it should be.
mkdir -p "$folder/copy/docs"
cp -r share CHANGELOG.md "$folder/copy"
cp docs/HELP.txt "$folder/copy/docs"

# differs NAME..: in the copy exactly these files are told of
differs() {
    local told
    told=$(python3 -B "$folder/copy/share/make.py" check) && [ $# -gt 0 ] && complain "the check passes though $* differ"
    [ "$(sed -nE 's/^share\/(\S+) .*/\1/p' <<<"$told" | tr '\n' ' ')" = "${*:+$* }" ] || complain "the check tells of other files than $*"
}

differs
for name in "${made[@]}"; do
    sed -i 's/settings text/text of settings/' "$folder/copy/share/$name"
    [ "$name" != tep.bash ] || sed -i 's/--digests/--digest/' "$folder/copy/share/$name"
    differs "$name"
    cp "share/$name" "$folder/copy/share"
done
sed -i 's/The changes text; without it/The text of changes; without it/' "$folder/copy/docs/HELP.txt"
differs tep.1 _tep tep.fish
sed -i 's/--values/--octets/' "$folder/copy/docs/HELP.txt"
differs "${made[@]}"
python3 -B "$folder/copy/share/make.py" || complain "share/make.py can't write anew"
differs
grep -q 'text of changes' "$folder/copy/share/_tep" || complain "what is written anew hasn't the help's new words"
sed -i 's/^      --summary  /      ++summary  /' "$folder/copy/docs/HELP.txt"
python3 -B "$folder/copy/share/make.py" check 2>&1 | grep -q 'a line of no known form:       ++summary' ||
    complain "a line of the help that can't be read isn't told"

# words_of COMMAND: the long options of its help, each on a line
words_of() {
    sed -n "1,/^\\\$ tep help $1\$/d; /^\\\$/q; p" docs/HELP.txt | sed -nE 's/^  +(-., )?(--[a-z-]+).*/\2/p'
}

commands=$(sed -n '/^Commands:/,/^$/p' docs/HELP.txt | sed -nE 's/^  ([a-z]+) .*/\1/p')
[ "$(wc -w <<<"$commands")" -gt 5 ] || complain "docs/HELP.txt has no commands"

# The page is shown with all its parts, each command's options in its own.
sections="NAME SYNOPSIS DESCRIPTION OPTIONS FILES EXIT STATUS EXAMPLES DIAGNOSTICS SEE ALSO STANDARDS"

# shows NAME: the page in this file has all of that
shows() {
    local command
    [ "$(grep -E '^[A-Z][A-Z ]+$' "$1" | tr '\n' ' ')" = "$sections " ] || complain "$1 has other parts: $(grep -E '^[A-Z]' "$1")"
    for command in $commands; do
        diff <(words_of "$command") \
            <(sed -n "/^   tep $command\$/,/^ \\{0,3\\}[^ ]/p" "$1" | sed -nE 's/^     +(-., )?(--[a-z-]+).*/\2/p') ||
            complain "$1 has other options of tep $command"
    done
    grep -qF 'tep run -s settings.toml -u underlay.pcap -o part1' "$1" || complain "$1 lacks an example"
    grep -qF '3' <(sed -n '/^EXIT STATUS/,/^EXAMPLES/p' "$1") || complain "$1 has no status 3"
}

if has mandoc; then
    mandoc -T lint share/tep.1 2>&1 | grep -vE 'referenced manual not found|mandoc\.db' && complain "mandoc warns of share/tep.1"
    mandoc -T utf8 share/tep.1 | sed 's/.\x08//g' | sed 1d | sed '$d' >"$folder/mandoc"
    shows "$folder/mandoc"
fi
if has man && has groff; then
    MANWIDTH=80 man --warnings=w -l share/tep.1 2>"$folder/warnings" | sed 1d | sed '$d' >"$folder/man"
    [ ! -s "$folder/warnings" ] || complain "man warns of share/tep.1: $(cat "$folder/warnings")"
    shows "$folder/man"
fi

# What bash offers for the last of these words.
# shellcheck source=/dev/null
. share/tep.bash
offers() {
    # shellcheck disable=SC2034
    COMP_WORDS=(tep "$@") COMP_CWORD=$#
    COMPREPLY=()
    _tep
    printf '%s\n' "${COMPREPLY[@]}"
}

diff <(offers "") <(printf '%s\n' "$commands" --help --version) || complain "bash offers other commands"
diff <(offers help "") <(printf '%s\n' "$commands") || complain "bash offers other commands behind help"
for command in $commands; do
    [ "$command" = help ] || diff <(offers "$command" -) <(words_of "$command") || complain "bash offers other options of tep $command"
done
diff <(offers explain -s a --depth "") <(seq 4) || complain "bash offers other depths"

# Each shell is asked at a terminal: a command in place of tep notes its words. One line for each: what is typed, where @ is the
# key of completion, and the words that come.
mkdir -p "$folder/place/outputs" "$folder/place/outline"
touch "$folder/place"/{settings.toml,"port 1.pcap",output.pcap}
cat >"$folder/typed" <<'LINES'
mig@>migrate
run --set@>run --settings
run -s se@more>run -s settings.toml more
merge -o outputs@.>merge -o outputs/.
merge outputs@.>merge outputs/.
run --out=outl@.>run --out=outline/.
run -u output.@>run -u output.pcap
check po@>check port 1.pcap
run --why se@.>run --why se.
explain -d 3@.>explain -d 3 .
help dig@>help digest
LINES

# asks SHELL SETTING..: the shell, set so, completes these lines as it should
asks() {
    local shell=$1
    shift
    {
        printf '%s\n' "tep() { echo \"\$*\" >>'$folder/told'; }" "$@"
        sed 's/>.*//; s/^/tep /; s/@/\t/' "$folder/typed"
        echo exit
    } >"$folder/keys"
    : >"$folder/told"
    (cd "$folder/place" && TERM=dumb INPUTRC=/dev/null timeout 60 script -qec "$shell -i" /dev/null) <"$folder/keys" >"$folder/screen" 2>&1
    diff "$folder/told" <(sed 's/.*>//; s/ *$//' "$folder/typed") || complain "${shell%% *} completes otherwise: $(cat -v "$folder/screen")"
}

asks "bash --norc --noprofile" ". '$top/share/tep.bash'"
if has zsh; then
    asks "zsh -f" "fpath=('$top/share' \$fpath); autoload -Uz compinit; compinit -u -D"
fi

if has fish; then
    # fish_offers LINE: what it offers for the line's last word
    fish_offers() {
        (cd "$folder/place" && HOME=$folder fish --no-config -c "source '$top/share/tep.fish'; complete -C \"tep $1\"" | cut -f 1)
    }

    diff <(fish_offers "") <(sort <<<"$commands") || complain "fish offers other commands"
    diff <(fish_offers "help ") <(sort <<<"$commands") || complain "fish offers other commands behind help"
    for command in $commands; do
        [ "$command" = help ] || diff <(fish_offers "$command --" | sort) <(words_of "$command" | sort) ||
            complain "fish offers other options of tep $command"
    done
    while IFS='>' read -r line wanted; do
        [ "$(fish_offers "$line" | tr '\n' ' ')" = "$wanted" ] || complain "fish offers for 'tep $line' $(fish_offers "$line")"
    done <<'LINES'
run -s se>settings.toml 
run --out out>outline/ outputs/ 
merge out>outline/ outputs/ 
run -u out>outline/ output.pcap outputs/ 
explain -s a -d >1 2 3 4 
run --why >
migrate >
LINES
fi
exit "$status"
