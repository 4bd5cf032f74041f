#!/usr/bin/env bash
# Texts of settings and changes that mean harm, too large or too deep for a test within the gate: the program looks at each
# within ten seconds, names its fault and ends with 1. It is given 8 MB of stack, as a shell mostly gives.
set -u
cd "$(dirname "$0")/../.." || exit 1
folder=$(mktemp -d)
trap 'rm -rf "$folder"' EXIT
./tep >/dev/null || {
    echo "tests/settings/hostile.sh: there is no program"
    exit 1
}
ulimit -S -s 8192

# A file for each text, named as its fault is put: KIND NUMBER FAULT.
python3 - "$folder" <<'PYTHON' || exit 1
import pathlib, sys

folder, million = pathlib.Path(sys.argv[1]), 1_000_000
good = """version = 1
[underlay]
mac = "02:00:00:00:aa:01"
next_hop = "02:00:00:00:aa:fe"
ip4 = "192.0.2.1"
[[port]]
pvid = 10
[[segment]]
vid = 10
vni = 5000
tunnel = "vxlan"
"""
# One whose segment may have 512 remotes.
many = good.replace("version = 1", "version = 3\n[limits]\nflood = 512").replace("vni =", "[[segment.tunnel]]\nvni =")
many = many.replace("tunnel =", "kind =")
deep = 65_536
texts = {
    "settings": [
        # a megabyte that says nothing
        ("ok", "#" * million + "\n" + good),
        ("ok", "\n" * million + good),
        ("ok", " " * million + good),
        ("ok", "# \u00e9\n" * (million // 5) + good),
        # a megabyte of one kind
        ("BadValue *", "x" * 100_000 + " = 1\n" + good),
        ("BadValue *", "".join(f"k{n} = 1\n" for n in range(100_000)) + good),
        ("NotToml", "".join(f"k{n} = 1\n" for n in range(100_000)) + "k0 = 1\n" + good),
        ("BadValue version", good.replace("= 1", '= "' + "x" * million + '"', 1)),
        ("BadValue version", good.replace("= 1", "= [" + "1," * (million // 2) + "]", 1)),
        ("BadValue version", good.replace("= 1", "= [" + "{}," * (million // 3) + "]", 1)),
        ("BadValue version", good.replace("= 1", '= "' + "\\u0041" * (million // 6) + '"', 1)),
        ("OverLimit underlay.known", good.replace("[[port]]", "known = [" + "[1, 1]," * (million // 7) + "]\n[[port]]")),
        ("OverLimit segment.1.flood", good + "flood = [" + '"192.0.2.2",' * (million // 12) + "]\n"),
        ("OverLimit segment.1.tunnel.1.flood", many + "flood = [" + '"192.0.2.2",' * (million // 12) + "]\n"),
        ("BadValue segment.1.tunnel.1.flood", many + "flood = [" + '"192.0.2.2",' * 512 + "]\n"),
        ("OverLimit port", good + "[[port]]\n" * 100_000),
        ("OverLimit segment", good + "[[segment]]\n" * 80_000),
        ("NotToml", good + "1" * million + "\n" + good),
        ("NotToml", good.replace("= 1", "= " + "9" * million, 1)),
        ("NotToml", "\ud800".encode("utf-8", "surrogatepass").decode("latin-1") * 300_000),
        ("NotToml", "\0" * million),
        ("NotToml", "\x01" * million),
        ("NotToml", good.encode("utf-16-le").decode("latin-1") * 1000),
        ("NotToml", good * 4000),
        # never closed
        ("NotToml", good + "x = [" + "\n" * million),
        ("NotToml", good + 'x = "' + "y" * million),
        ("NotToml", good + 'x = """' + "\n" * million),
        ("NotToml", good + "x = '''" + "'" * million + "\n"),
        # one in another: lists, tables in a line, both, keys with dots, names of tables
        ("NotToml", "version = " + "[" * deep + "]" * deep + "\n"),
        ("NotToml", "version = " + "[" * million),
        ("NotToml", "version = " + "{a = " * deep + "1" + "}" * deep + "\n"),
        ("NotToml", "version = " + "[{a = " * deep + "1" + "}]" * deep + "\n"),
        ("NotToml", "version = " + "{a.b = [" * deep),
        ("NotToml", "".join("[" + ".".join("a" * n) + "]\n" for n in range(1, 1_400)) + "="),
        ("any", ".".join("a" * deep) + " = 1\n" + good),
        ("any", good + "[" + ".".join("a" * deep) + "]\n"),
        ("any", good + "[[" + ".".join("a" * deep) + "]]\n"),
    ],
    "changes": [
        ("ok", "#" * million + "\n"),
        ("OverLimit change", "[[change]]\n" * 100_000),
        ("OverLimit change", "change = [" + "1," * (million // 2) + "]\n"),
        ("BadValue change.1.kind", '[[change]]\nkind = "' + "flush" * (million // 5) + '"\n'),
        ("BadValue change.1.mac", '[[change]]\nkind = "unfix"\nat = 0\nvid = 10\nmac = "' + "02:" * (million // 3) + '"\n'),
        ("BadValue change.1.addr", '[[change]]\nkind = "add_flood"\nat = 0\nvid = 10\naddr = "' + "1." * (million // 2) + '"\n'),
        ("BadValue change.1.addr", '[[change]]\nkind = "add_flood"\nat = 0\nvid = 10\naddr = "' + ":" * million + '"\n'),
        ("BadValue *", "".join(f"[k{n}]\n" for n in range(100_000))),
        ("NotToml", "change = " + "[" * deep + "]" * deep + "\n"),
        ("NotToml", "change = [" + "{kind = " * deep + "}" * deep + "]\n"),
    ],
}
folder.joinpath("good").write_text(good)
for kind, cases in texts.items():
    for number, (fault, text) in enumerate(cases, 1):
        is_octets = all(ord(letter) < 256 for letter in text)
        octets = text.encode("latin-1") if is_octets and fault == "NotToml" else text.encode()
        folder.joinpath(f"{kind} {number} {fault}").write_bytes(octets)
PYTHON

status=0
for path in "$folder"/settings\ * "$folder"/changes\ *; do
    read -r kind number fault <<<"${path##*/}"
    case $kind in
        settings) words=(--settings "$path") ;;
        *) words=(--settings "$folder/good" --changes "$path") ;;
    esac
    timeout 10 ./tep check "${words[@]}" >"$folder/printed" 2>"$folder/said"
    ended=$?
    # What is printed of a fault is cut to a line's length; of texts that are taken it is all that is said.
    [ "$fault" != ok ] || cat "$folder/printed" >>"$folder/said"
    if [ "$(wc -c <"$folder/printed")" -gt 1000 ]; then
        echo "tests/settings/hostile.sh: of $kind $number $(wc -c <"$folder/printed") octets are printed"
        status=1
    fi
    if [ "$fault" = ok ]; then
        wanted="ok: 1 ports, 1 segments, 0 changes" wanted_end=0
    else
        wanted="$kind: $fault" wanted_end=1
    fi
    # Of a key with as many dots the standard of TOML says nothing.
    if [ "$fault" = any ] && [[ $(cat "$folder/said") =~ ^settings:\ (NotToml|BadValue\ \*)$ ]]; then
        wanted=$(cat "$folder/said")
    fi
    if [ "$ended" -ne "$wanted_end" ] || [ "$(cat "$folder/said")" != "$wanted" ]; then
        echo "tests/settings/hostile.sh: $kind $number says '$(head -c 200 "$folder/said")', status $ended, in place of '$wanted'"
        status=1
    fi
done
exit "$status"
