"""Puts each text of tests/settings/settings_rows.py to `tep check` and `tep migrate`, and addresses to the keys that hold
them."""
import pathlib
import sys
import tempfile

import runs
import settings_rows as rows

FAULTS = []


def complain(name, got, wanted):
    FAULTS.append(f"{name}: {got} in place of {wanted}")


def fault(ended, text):
    """The fault of a text of this name, as an ended program tells it; "ok" without one."""
    if ended.returncode == 0 and not ended.stderr:
        return "ok"
    said = ended.stderr.decode()
    if ended.returncode == 1 and said.startswith(f"{text}: ") and said.endswith("\n"):
        return said[len(text) + 2 : -1]
    return f"status {ended.returncode}: {said}"


def expect_settings(text, wanted, words=("check",)):
    """Asks for the first fault of a text of settings."""
    octets = text if isinstance(text, bytes) else text.encode()
    ended = runs.ends([*words, "-s", "/dev/stdin"], octets)
    if fault(ended, "settings") != wanted:
        complain(octets[:2000], fault(ended, "settings"), wanted)
    return ended.stdout


def expect_changes(settings, text, wanted):
    """Asks for the first fault of a text of changes, of an endpoint with the settings of this file."""
    octets = text if isinstance(text, bytes) else text.encode()
    found = fault(runs.ends(["check", "-s", settings, "-c", "/dev/stdin"], octets), "changes")
    if found != wanted:
        complain(octets[:2000], found, wanted)


def first_version():
    """Settings of version 1."""
    for comment, cases in (
        ("# underlay", rows.UNDERLAY_LINES),
        ("# port", rows.PORT_LINES),
        ("# segment", rows.SEGMENT_LINES),
    ):
        for lines, wanted in cases:
            expect_settings(rows.FEWEST.replace(comment, lines), wanted)
    for lines, wanted in rows.FIRST_LINES:
        expect_settings(rows.UNDERLAY.replace("version = 1", lines), wanted)
    for part, table, count, wanted in rows.NUMBERED:
        tables = "".join(table.replace("#", str(k)) for k in range(1, count + 1))
        expect_settings(rows.FEWEST.replace(part, tables), wanted)
    # What is migrated is refused as settings are.
    for words in ("check",), ("migrate",):
        for part, other, wanted in rows.PARTS:
            expect_settings(rows.FEWEST.replace(part, other), wanted, words)
        for text, wanted in rows.WHOLE:
            expect_settings(text, wanted, words)
    expect_settings("version = " + "[" * 10_000 + "]" * 10_000, "NotToml")
    expect_settings(b"version = 1 # \xFF\n", "NotToml")


def second_version():
    """Settings of version 2, and those that are migrated to it."""
    for part, other, wanted in rows.PARTS_2:
        expect_settings(rows.FEWEST_2.replace(part, other), wanted)
    for count, keys, wanted in rows.SECOND:
        flood = "flood = [" + "".join(f'"192.0.2.{k}", ' for k in range(2, count + 2)) + "]"
        text = rows.FEWEST_2.replace("# first", flood)
        expect_settings(text.replace("# second", f"[[segment.tunnel]]\n{keys}"), wanted)
    head = rows.FEWEST_2.split("[[port]]")[0]
    for segments, wanted in rows.SEGMENTS:
        lines = f"version = 2\nport = [{{ pvid = 1 }}]\n{segments}"
        expect_settings(head.replace("version = 2", lines), wanted)
    # The last of 256 segments has the longest paths.
    text = rows.FEWEST_2.split("[[segment]]")[0]
    text += "".join(rows.TWO.replace("#", str(k)) for k in range(1, 257))
    expect_settings(text, "ok")
    text += "group = 256\n"
    expect_settings(text, "BadValue segment.256.tunnel.2.group")
    expect_settings(text + "[[segment]]\n", "OverLimit segment")
    for text, wanted in (rows.OLD, rows.NEW), (rows.NEW, rows.NEW), (rows.NEW_3, rows.NEW_3):
        migrated = expect_settings(text, "ok", ("migrate",)).decode()
        if migrated != wanted:
            complain("tep migrate", migrated, wanted)


def third_version():
    """Settings of version 3."""
    for part, other, wanted in rows.PARTS_3:
        expect_settings(rows.FEWEST_3.replace(part, other), wanted)
    head = rows.FEWEST_3.split("[[segment]]")[0]
    small = rows.TWO.replace("vid = #\n", "vid = #\nlimit = @\n")
    for lines, limit, count, wanted in rows.MANY:
        tables = "".join(small.replace("#", str(k)).replace("@", str(limit)) for k in range(1, count + 1))
        expect_settings(head.replace("version = 3\n", "version = 3\n" + lines) + tables, wanted)
    for lines, front, table, count, wanted in rows.TABLES_3:
        tables = "".join(table.replace("#", str(k)) for k in range(1, count + 1))
        text = rows.FEWEST_3.replace("version = 3\n", "version = 3\n" + lines)
        expect_settings(text.replace(front, front + tables), wanted)
    # The last of 4,096 next hops: to an address that an earlier one has, and without its own keys.
    text = rows.FEWEST_3.replace("version = 3\n", "version = 3\n[limits]\nhops = 4096\n")
    hops = "".join(rows.HOP_6.replace("#", str(k)) for k in range(1, 4096))
    for last, wanted in ((rows.HOP_6.replace("#", "0001"), "addr"), (rows.HOP_6.replace("02:", "03:", 1), "mac")):
        expect_settings(text.replace(rows.OWN, rows.OWN + hops + last.replace("#", "4096")), f"BadValue underlay.hop.4096.{wanted}")
    text = rows.FEWEST_3.replace("version = 3\n", "version = 3\n[limits]\nports = 255\n").replace(rows.PORT, rows.PORT * 255)
    for lines, wanted in rows.MEMBERS_3:
        expect_settings(text.replace("# segment", lines), wanted)
    # There is no port 255 where there are 254.
    text = text.replace(rows.PORT * 2, rows.PORT, 1)
    expect_settings(text.replace("# segment", "untagged = [254]"), "ok")
    expect_settings(text.replace("# segment", "untagged = [255]"), "BadValue segment.1.untagged")
    flood_lists()
    # The last of 4,094 segments has the longest paths.
    text = head.replace("version = 3\n", "version = 3\n[limits]\nsegments = 4094\n")
    text += "".join(small.replace("#", str(k)).replace("@", "1") for k in range(1, 4095))
    expect_settings(text + "group = 256\n", "BadValue segment.4094.tunnel.2.group")


def flood(count, last=""):
    """The key of a flood list of so many remotes, from 198.18.0.0 on, and of one item more where it is told."""
    items = [f'"198.18.{n >> 8}.{n & 255}"' for n in range(count)]
    return f"flood = [{', '.join(items + [last] if last else items)}]"


def flood_lists():
    """Flood lists in settings of version 3."""
    second = '[[segment.tunnel]]\nkind = "geneve"\nvni = 9000\n'
    for lines, first, other, wanted in rows.FLOODS_3:
        text = rows.FEWEST_3.replace("version = 3\n", "version = 3\n" + lines).replace("# first", flood(first))
        expect_settings(text if other is None else text.replace("# second", second + flood(other)), wanted)
    most = rows.FEWEST_3.replace("version = 3\n", "version = 3\n[limits]\nflood = 512\n")
    for first, last, other, other_last, wanted in rows.LAST_3:
        text = most.replace("# first", flood(first, last))
        expect_settings(text.replace("# second", second + flood(other, other_last)), wanted)
    head = most.split("[[segment]]")[0]
    for counts, wanted in rows.SEVERAL_3:
        tables = [rows.SMALL.replace("#", str(k)) + flood(count) + "\n" for k, count in enumerate(counts, 1)]
        expect_settings(head + "".join(tables), wanted)


def changes(settings):
    """Changes."""
    for keys, wanted in rows.CHANGES:
        expect_changes(settings, f"[[change]]\n{keys}\n", wanted)
    for kind, cases in (("add_segment", rows.ADDED), ("remove_segment", rows.REMOVED), ("set_limit", rows.LIMITED)):
        for keys, wanted in cases:
            expect_changes(settings, f'[[change]]\nkind = "{kind}"\n{keys}\n', wanted)
    for text, wanted in rows.LISTS + rows.STRANGE_CHANGES:
        expect_changes(settings, text, wanted)
    expect_changes(settings, b"\xC3", "NotToml")
    one = '[[change]]\nkind = "port_up"\nat = 1\nport = 1\n'
    expect_changes(settings, one * 10_000, "ok")
    # Its faulty items aren't looked at.
    expect_changes(settings, "[[change]]\n" * 10_001, "OverLimit change")
    second = "version = 2\n"
    expect_changes(settings, second + one * 10_001, "ok")
    expect_changes(settings, second + one * 100_000, "ok")
    expect_changes(settings, second + "[[change]]\n" * 100_001, "OverLimit change")
    # The last of 100,000 has the longest path.
    expect_changes(settings, second + one * 99_999 + one.replace("port = 1", "port = 256"), "BadValue change.100000.port")
    expect_changes(settings, second + one * 99_999 + one.replace("at = 1", "at = 0"), "NotRising change.100000")


def strange_settings():
    """Texts of settings that nobody would write."""
    version = "version = 1\n"
    for line, wanted in rows.STRANGE_LINES:
        expect_settings(runs.ENDPOINT.replace(version, line), wanted)
    behind = runs.ENDPOINT.split(version)[1].encode()
    for octets in rows.STRANGE_OCTETS:
        expect_settings(octets + behind, "NotToml")
    for line, character, wanted in rows.LONG_LINES:
        expect_settings(line.replace("#", character * 100_000) + runs.ENDPOINT, wanted)


def told(folder):
    """All that is told of a file S that is refused."""
    for cases, words in ((rows.TOLD_SETTINGS, ["-s", "S"]), (rows.TOLD_CHANGES, ["-s", "endpoint.toml", "-c", "S"])):
        for text, wanted in cases:
            (folder / "S").write_bytes(text.encode())
            found = runs.ends(["check", *words], folder=folder)
            if found.returncode != 1 or found.stdout.decode() != wanted:
                complain(text, found.stdout.decode(), wanted)


def address(name):
    """The change that puts an address on a flood list."""
    return f'[[change]]\nkind = "add_flood"\nat = 0\nvid = 10\naddr = "{name}"\n'


def mac(name):
    """The change that fixes a MAC address."""
    return f'[[change]]\nkind = "fix"\nat = 0\nvid = 10\nport = 1\nmac = "{name}"\n'


def addresses(settings):
    """Addresses, and what stands for them in the story of a change. The IPv6 addresses are those of RFC 4291, 2.2 and 2.5,
    and what breaks one rule each."""
    told = [(address(text), f"  add_flood vid 10 addr {wanted}") for text, wanted in rows.ADDRESSES]
    told += [(mac(text), f"  fix vid 10 mac {wanted} port 1") for text, wanted in rows.MACS]
    why = [word for k in range(1, len(told) + 1) for word in ("--why", f"c:{k}")]
    run = runs.Run(runs.ENDPOINT, "".join(text for text, _ in told), runs.Captures(), ["run", *why])
    found = [line for line in run.stdout.splitlines() if line.startswith(("  add_flood", "  fix"))]
    if found != [line for _, line in told]:
        complain("addresses", found, told)
    for text in rows.NO_MACS:
        expect_changes(settings, mac(text), "BadValue change.1.mac")
    for text in rows.NO_ADDRESSES:
        expect_changes(settings, address(text), "BadValue change.1.addr")
        for key in "ip4", "ip6":
            line = f'{key} = "{text}"\nmtu = 1500'
            expect_settings(rows.FEWEST.replace('ip4 = "192.0.2.1"', line), f"BadValue underlay.{key}")


def main():
    with tempfile.TemporaryDirectory() as name:
        folder = pathlib.Path(name)
        settings = folder / "endpoint.toml"
        settings.write_text(runs.ENDPOINT, encoding="utf-8")
        first_version()
        second_version()
        third_version()
        changes(settings)
        strange_settings()
        addresses(settings)
        told(folder)
    for text in FAULTS:
        print(f"tests/settings/settings.py: {text}")
    return 1 if FAULTS else 0


sys.exit(main())
