#!/usr/bin/env bash
# ./install puts the program, its page, its completions and its documents in place, tells what stands where, and takes it away
# again. In place of the program stands a script that tells its words.
set -u
cd "$(dirname "$0")/../.." || exit 1
folder=$(mktemp -d)
trap 'chmod -R u+w "$folder"; rm -rf "$folder"' EXIT
export PATH="/usr/bin:/bin" LC_ALL=C LARGE=$folder/large
unset DESTDIR
status=0

# complain TEXT: a test has failed
complain() {
    echo "tests/start/install.sh: $*"
    status=1
}

# A repository of its own, without anything built.
clone=$folder/clone
mkdir "$clone"
git ls-files -coz --exclude-standard | xargs -0 cp --parents -t "$clone" 2>/dev/null
for words in "init -q" "add -A" "-c user.name=me -c user.email=me@localhost commit -q -m all"; do
    # shellcheck disable=SC2086
    git -C "$clone" $words >/dev/null || complain "git $words failed"
done
commit=$(git -C "$clone" rev-parse HEAD)

# ends STATUS COMMAND..: the command ends so; what it printed stands in the files stdout and stderr
ends() {
    local wanted=$1 got
    shift
    "$@" >"$folder/stdout" 2>"$folder/stderr" </dev/null
    got=$?
    [ $got -eq "$wanted" ] || complain "$*: status $got in place of $wanted: $(cat "$folder/stdout" "$folder/stderr")"
}

# told FILE TEXT: the last command printed this there
told() {
    [ "$(cat "$folder/$1")" = "$2" ] || complain "$1 is '$(cat "$folder/$1")' in place of '$2'"
}

# stands FILE..: exactly these files stand below the folder, documents left out
stands() {
    diff <(cd "$1" && find . -type f ! -path './share/doc/*' | sort) <(printf './%s\n' "${@:2}" | sort) ||
        complain "below $1 stand other files"
}

# What isn't proved and built isn't installed, and nothing is made.
ends 1 "$clone/install" "$folder/early"
told stderr "install: the program isn't proved and built yet from these sources
  ./tep does that, with no words: run it first"
[ ! -e "$folder/early" ] || complain "something was made before the program is there"
ends 0 "$clone/tep" --version
told stdout "$(sed -n '/^\$ tep -V$/ { n; p }' docs/HELP.txt)
commit: $commit
proved: not yet"

mkdir "$clone/crates/tep/out"
cat >"$clone/crates/tep/out/tep" <<'SCRIPT'
#!/bin/sh
case $* in
    --version) echo "tep 7.8.9" ;;
    *)
        echo "words: $#: $*"
        (ulimit -f 1; exec head -c 4096 /dev/zero >"$LARGE") 2>/dev/null
        echo "$?"
        exit 5
        ;;
esac
SCRIPT
chmod +x "$clone/crates/tep/out/tep"
version="tep 7.8.9
commit: $commit
proved: all that it stands on"
files=(bin/tep libexec/tep/tep libexec/tep/version libexec/tep/files share/man/man1/tep.1 share/zsh/site-functions/_tep
    share/bash-completion/completions/tep share/fish/vendor_completions.d/tep.fish share/tep/wireshark/tep/preferences
    share/tep/wireshark/tep/colorfilters share/tep/wireshark/tep/dfilter_buttons)

# A plain one tells what stands where, below a folder whose name a shell has to quote.
prefix="$folder/it's here"
ends 0 "$clone/install" "$prefix"
told stdout "$version
program      $prefix/bin/tep
             $prefix/libexec/tep/tep
its version  $prefix/libexec/tep/version
man page     $prefix/share/man/man1/tep.1
completions  $prefix/share/bash-completion/completions/tep
             $prefix/share/zsh/site-functions/_tep
             $prefix/share/fish/vendor_completions.d/tep.fish
for Wireshark $prefix/share/tep/wireshark/tep
documents    $prefix/share/doc/tep
list of all  $prefix/libexec/tep/files
$prefix/bin isn't in the path: export PATH='${prefix//\'/\'\\\'\'}/bin':\$PATH
./install --remove '${prefix//\'/\'\\\'\'}' takes it away again"
told stderr ""
stands "$prefix" "${files[@]}"
for name in tep.1:man/man1/tep.1 tep.bash:bash-completion/completions/tep _tep:zsh/site-functions/_tep \
    tep.fish:fish/vendor_completions.d/tep.fish; do
    cmp "share/${name%%:*}" "$prefix/share/${name#*:}" || complain "$name has other octets"
done
cmp "$clone/crates/tep/out/tep" "$prefix/libexec/tep/tep" || complain "the program has other octets"
diff <(git ls-files README.md CHANGELOG.md docs examples | sort) <(cd "$prefix/share/doc/tep" && find . -type f | sed 's/^..//' | sort) ||
    complain "the documents aren't those of the repository"
for name in README.md docs/HELP.txt examples/port1.pcap examples/large.sh; do
    cmp "$name" "$prefix/share/doc/tep/$name" || complain "$name has other octets"
done
[ "$(stat -c %a "$prefix/bin/tep" "$prefix/libexec/tep/tep" "$prefix/libexec/tep/version" "$prefix/share/doc/tep/examples/large.sh" |
    tr '\n' ' ')" = "755 755 644 755 " ] || complain "the rights aren't as they should be"

# What is installed runs by itself, with its words as they are, its status, and no signal at the limit of a file's size.
mv "$clone" "$folder/away"
ends 5 "$prefix/bin/tep" run "a b" --version
told stdout "words: 3: run a b --version
1"
told stderr ""
for word in --version -V; do
    ends 0 "$prefix/bin/tep" $word
    told stdout "$version"
done
"$prefix/bin/tep" --version >/dev/full 2>"$folder/stderr"
[ $? -eq 3 ] && told stderr "write stdout"
{ sleep 0.2 && "$prefix/bin/tep" --version 2>"$folder/stderr"; echo $? >"$folder/status"; } | :
[ "$(cat "$folder/status" "$folder/stderr")" = 0 ] || complain "a version without a reader is a fault"
mv "$folder/away" "$clone"

# Another one over it: what this one doesn't have any more goes, and what is nobody's stays.
echo mine >"$prefix/bin/mine"
rm "$clone/docs/TOUR.md"
ends 0 "$clone/install" "$prefix"
[ ! -e "$prefix/share/doc/tep/docs/TOUR.md" ] || complain "a document of the earlier one stays"
stands "$prefix" "${files[@]}" bin/mine
git -C "$clone" checkout -q docs/TOUR.md

# It is taken away with its own folders; what is nobody's stays.
ends 0 "$clone/install" --remove "$prefix"
told stdout "removed from $prefix"
stands "$prefix" bin/mine
[ ! -e "$prefix/share/doc/tep" ] || complain "the folder of its documents stays"
[ ! -e "$prefix/libexec/tep" ] || complain "the folder of the program stays"
ends 1 "$clone/install" --remove "$prefix"
told stderr "install: $prefix/libexec/tep/files isn't there: nothing was installed below $prefix"

# A link that stands in its place is replaced, and not written through.
ln -s "$clone/tep" "$prefix/bin/tep"
ends 0 "$clone/install" "$prefix"
cmp tep "$clone/tep" || complain "the script that a link named was written over"
[ ! -L "$prefix/bin/tep" ] || complain "a link stays in place of the program"

# With DESTDIR it stands below that folder, and names the place where it is to be.
DESTDIR=$folder/stage ends 0 "$clone/install" /opt/some
stands "$folder/stage/opt/some" "${files[@]}"
grep -q "^exec '/opt/some/libexec/tep/tep' " "$folder/stage/opt/some/bin/tep" || complain "it doesn't start what is to be at /opt/some"
grep -q "isn't in the path" "$folder/stdout" && complain "the path is told of what is to be moved"
DESTDIR=$folder/stage ends 0 "$clone/install" --remove /opt/some
[ -z "$(find "$folder/stage" -type f)" ] || complain "something stays below DESTDIR"

# A name from the folder at hand on, and one of the default.
(cd "$folder" && PATH=$folder/near/bin:$PATH "$clone/install" near) >"$folder/stdout"
grep -qF "$folder/near/libexec/tep/tep" "$folder/near/bin/tep" || complain "a name from the folder at hand on isn't made whole"
grep -q "isn't in the path" "$folder/stdout" && complain "the path has it"
DESTDIR=$folder/stage ends 0 "$clone/install"
stands "$folder/stage/usr/local" "${files[@]}"

# Sources that were changed since are told of, and what they were built from before isn't installed.
echo "// more" >>"$clone/crates/wire/src/lib.rt"
ends 1 "$clone/install" "$prefix"
ends 0 "$clone/tep" -V
told stdout "$(sed -n '/^\$ tep -V$/ { n; p }' docs/HELP.txt)
commit: $commit and changes
proved: not yet"
git -C "$clone" checkout -q crates
rm -rf "$clone/.git"
ends 0 "$clone/tep" -V
[ "$(sed -n 2p "$folder/stdout")" = "commit: unknown" ] || complain "a commit without a repository: $(cat "$folder/stdout")"
git init -q "$folder"
ends 0 "$clone/tep" -V
[ "$(sed -n 2p "$folder/stdout")" = "commit: unknown" ] || complain "a commit of the folder above: $(cat "$folder/stdout")"

# Words that it doesn't take.
for words in "--prefix=/usr" "a b" "--remove a b" "--remove -x"; do
    # shellcheck disable=SC2086
    ends 2 "$clone/install" $words
    told stderr "install: it is called as ./install [PREFIX] or ./install --remove [PREFIX]"
done
ends 0 "$clone/install" --help
grep -q '^    ./install --remove \[PREFIX\]' "$folder/stdout" || complain "its help is '$(cat "$folder/stdout")'"

# Where nothing may be written, that is told, and what may help.
touch -d 2099-01-01 "$clone/crates/tep/out/tep"
echo "no folder" >"$folder/file"
ends 1 "$clone/install" "$folder/file"
told stderr "install: $folder/file/bin/tep can't be written: Not a directory"
if [ "$(id -u)" -ne 0 ]; then
    mkdir -m 555 "$folder/theirs"
    ends 1 "$clone/install" "$folder/theirs"
    told stderr "install: $folder/theirs/bin/tep can't be written: Permission denied
  sudo ./install '$folder/theirs' may, or take a folder of your own: ./install ~/.local"
fi

exit "$status"
