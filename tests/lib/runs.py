"""Settings, captures as lines, and runs of the program over them, for the tests that are data."""
import pathlib
import struct
import subprocess
import tempfile

TOP = pathlib.Path(__file__).resolve().parent.parent.parent

PROGRAM = TOP / "crates/tep/out/tep"

PORT = "[[port]]\npvid = 10\n"

PORTS = PORT * 3


def underlay(last):
    """The table of an endpoint at 192.0.2.LAST and 2001:db8::LAST."""
    return (
        f'[underlay]\nmac = "02:00:00:00:aa:0{last}"\nnext_hop = "02:00:00:00:aa:fe"\n'
        f'ip4 = "192.0.2.{last}"\nip6 = "2001:db8::{last}"\n'
    )


def endpoint(last, peer):
    """An endpoint with three ports, and with a VXLAN segment and a Geneve segment that flood to its peer."""
    return f"""version = 1
{underlay(last)}{PORTS}[[segment]]
vid = 10
vni = 5000
tunnel = "vxlan"
untagged = [1, 2]
tagged = [3]
flood = ["192.0.2.{peer}"]
[[segment]]
vid = 20
vni = 6000
tunnel = "geneve"
tagged = [2, 3]
flood = ["192.0.2.{peer}"]
"""


ENDPOINT = endpoint(1, 2)

PEER = endpoint(2, 1)

# A learning bridge alone: one segment of three ports, untagged, without remotes.
BRIDGE = f"""version = 1
{underlay(1)}{PORTS}[[segment]]
vid = 10
vni = 5000
tunnel = "vxlan"
untagged = [1, 2, 3]
tagged = []
flood = []
"""


def wide(ports):
    """A learning bridge of so many ports, five of which are members of its segment, without remotes."""
    return f"""version = 3
{underlay(1)}[limits]
ports = {ports}
{PORT * ports}[[segment]]
vid = 10
untagged = [3, 5, 6, 10, 14]
[[segment.tunnel]]
kind = "vxlan"
vni = 5000
"""


def flooding(most):
    """An endpoint whose segments may flood to so many remotes each, and have none yet: 10 over VXLAN, and 20 over Geneve and
    VXLAN, each in a horizon group of its own."""
    return f"""version = 3
{underlay(1)}[limits]
flood = {most}
{PORTS}[[segment]]
vid = 10
untagged = [1, 2]
tagged = [3]
[[segment.tunnel]]
kind = "vxlan"
vni = 5000
flood = []
[[segment]]
vid = 20
tagged = [2, 3]
[[segment.tunnel]]
kind = "geneve"
vni = 6000
group = 1
flood = []
[[segment.tunnel]]
kind = "vxlan"
vni = 7000
group = 2
flood = []
"""


# The endpoint in version 2, where VID 10 has a Geneve tunnel beside its VXLAN tunnel, each with a remote and a horizon group
# of its own.
TWO_TUNNELS = f"""version = 2
{underlay(1)}{PORTS}[[segment]]
vid = 10
untagged = [1, 2]
tagged = [3]
[[segment.tunnel]]
kind = "vxlan"
vni = 5000
group = 1
flood = ["192.0.2.2"]
[[segment.tunnel]]
kind = "geneve"
vni = 9000
group = 2
flood = ["192.0.2.3"]
[[segment]]
vid = 20
tagged = [2, 3]
[[segment.tunnel]]
kind = "geneve"
vni = 6000
flood = ["192.0.2.2"]
"""

# An endpoint with two ports, whose segment 10 forgets after 10 seconds; segment 20 has two tunnels, and 30 no port.
FORGETFUL = f"""version = 2
{underlay(1)}[[port]]
pvid = 10
[[port]]
pvid = 10
[[segment]]
vid = 30
[[segment.tunnel]]
kind = "vxlan"
vni = 7000
[[segment]]
vid = 20
[[segment.tunnel]]
kind = "vxlan"
vni = 6000
[[segment.tunnel]]
kind = "geneve"
vni = 6001
[[segment]]
vid = 10
ageing = 10
untagged = [1, 2]
[[segment.tunnel]]
kind = "vxlan"
vni = 5000
"""

# Words that stand for octets: the header of a capture (little-endian, nanoseconds), addresses, the Ethernet headers of IPv4
# and IPv6, and for `OUTERab` all headers up to UDP's of a packet from 192.0.2.a to 192.0.2.b with 68 octets for VXLAN in it.
WORDS = {
    "PCAP": "4D3CB2A1 02000400 00000000 00000000 00000400 01000000",
    "ALL": "FFFFFFFFFFFF",
    **{f"M{n}": f"02000000000{n}" for n in (1, 2, 3, 5, 6, 7, 9)},
    "ETHER": "02000000AAFE 02000000AA01 0800",
    "ETHER6": "02000000AAFE 02000000AA01 86DD",
    "OUTER12": "02000000AAFE 02000000AA01 0800 45000060 00004000 4011B689 C0000201 C0000202 CA0712B5 004C0000",
    "OUTER21": "02000000AAFE 02000000AA02 0800 45000060 00004000 4011B689 C0000202 C0000201 CA0712B5 004C0000",
    "OUTER31": "02000000AAFE 02000000AA03 0800 45000060 00004000 4011B688 C0000203 C0000201 CA0712B5 004C0000",
}


def octets(words):
    """The octets of words: names, hexadecimal digits, and `00*n` for n zero octets."""
    found = bytearray()
    for word in words.split():
        if word.startswith("00*"):
            found += bytes(int(word[3:]))
        else:
            found += bytes.fromhex(WORDS.get(word, word))
    return bytes(found)


def moment(word):
    """A moment in nanoseconds, or in seconds with an `s` behind it."""
    return int(word[:-1]) * 10**9 if word.endswith("s") else int(word)


def record(at, text, original=None):
    """A record at a moment in nanoseconds, of a frame that had so many octets."""
    second, fraction = divmod(at, 10**9)
    return struct.pack("<IIII", second, fraction, len(text), len(text) if original is None else original) + text


class Captures:
    """Captures of so many ports and of the underlay."""

    def __init__(self, ports=3):
        self.ports = [f"p{port}" for port in range(1, ports + 1)]
        self.of = {tap: octets("PCAP") for tap in [*self.ports, "u"]}

    def put(self, line):
        """Puts what a line tells: `= TAP OCTETS`, the whole file; `+ TAP OCTETS`, more of it; or `MOMENT TAP LENGTH OCTETS`, a
        record with the octets cut, or with zero octets put behind them, to the length; 60/100 is 60 octets of 100. Gives
        back the tap of a record."""
        first, tap, *rest = line.split(" ", 3)
        if first in ("=", "+"):
            self.of[tap] = (self.of[tap] if first == "+" else b"") + octets(" ".join(rest))
            return None
        length, _, original = rest[0].partition("/")
        text = octets(" ".join(rest[1:]))[: int(length)]
        self.of[tap] += record(moment(first), text + bytes(int(length) - len(text)), int(original or length))
        return tap


def ends(words, stdin=b"", folder=TOP):
    """What comes of the program with these words."""
    return subprocess.run([PROGRAM, *words], input=stdin, cwd=folder, capture_output=True, check=False)


class Run:
    """A run, or another command over the same files: its status, the texts that it prints, and the files that it writes."""

    def __init__(self, settings, changes, captures, words=("run",)):
        with tempfile.TemporaryDirectory() as name:
            folder = pathlib.Path(name)
            (folder / "out").mkdir()
            (folder / "settings.toml").write_text(settings, encoding="utf-8")
            (folder / "changes.toml").write_text(changes, encoding="utf-8")
            for tap, text in captures.of.items():
                (folder / f"{tap}.pcap").write_bytes(text)
            named = ["-s", "settings.toml"]
            if words[0] != "explain":
                named += ["-c", "changes.toml"]
            if words[0] == "run":
                named += ["-u", "u.pcap", "-o", "out", *[f"{port}.pcap" for port in captures.ports]]
            elif words[0] == "explain":
                named += ["u.pcap"]
            ended = ends([*words, *named], folder=folder)
            self.status = ended.returncode
            self.stdout, self.stderr = ended.stdout.decode(), ended.stderr.decode()
            # The files by their names; a run that is refused leaves none.
            self.files = {file.name: file.read_bytes() for file in (folder / "out").iterdir()}

    def said(self):
        """The decision lines, or the line of the fault that the run stopped at."""
        if self.status == 0:
            return self.files["decisions.txt"].decode()
        # Below a fault stands why.
        return "".join(self.stderr.splitlines(keepends=True)[:1])

    def capture(self, tap):
        """What left at a tap."""
        return self.files.get("underlay.pcap" if tap == "u" else f"port{tap[1:]}.pcap")
