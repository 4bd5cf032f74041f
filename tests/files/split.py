"""Splits captures of many interfaces. What each file is to hold is worked out here, from draft-ietf-opsawg-pcapng and
pcap-savefile(5); besides, a run and an explanation of the files are those of FILE#NUMBER."""
import os
import struct
import subprocess
import sys
import tempfile

TEP = os.path.abspath("tep")
SECOND = 10**9
failures = 0


def complain(what):
    global failures
    print(f"tests/files/split.sh: {what}")
    failures += 1


def padded(octets):
    return octets + bytes(-len(octets) % 4)


class Capture:
    """A pcapng text that grows, in one byte order."""

    def __init__(self, order="<"):
        self.order = order
        self.text = b""

    def block(self, kind, body, second=None):
        size = 12 + len(body)
        self.text += struct.pack(self.order + "II", kind, size) + body
        self.text += struct.pack(self.order + "I", size if second is None else second)

    def section(self):
        self.block(0x0A0D0D0A, struct.pack(self.order + "IHHq", 0x1A2B3C4D, 1, 0, -1))

    def option(self, code, value):
        return struct.pack(self.order + "HH", code, len(value)) + padded(value)

    def interface(self, name=None, link=1):
        """An interface in ticks of a nanosecond."""
        options = b"" if name is None else self.option(2, name)
        options += self.option(9, b"\x09") + self.option(0, b"")
        self.block(1, struct.pack(self.order + "HHI", link, 0, 0) + options)

    def packet(self, number, moment, octets, options=b"", original=None):
        head = (number, moment >> 32, moment & 0xFFFFFFFF, len(octets), len(octets) if original is None else original)
        self.block(6, struct.pack(self.order + "IIIII", *head) + padded(octets) + options)

    def outbound(self, number, moment, octets):
        self.packet(number, moment, octets, self.option(2, struct.pack(self.order + "I", 2)))


HEADER = struct.pack("<IHHiIII", 0xA1B23C4D, 2, 4, 0, 0, 262144, 1)


def record(moment, octets, original=None):
    original = len(octets) if original is None else original
    return struct.pack("<IIII", moment // SECOND, moment % SECOND, len(octets), original) + octets


def frame(number, count):
    """A frame to all, of a length of its own."""
    source = bytes([2, 0, 0, 0, number % 256, count % 256])
    return b"\xff" * 6 + source + b"\x08\x00" + bytes((number + count + i) % 256 for i in range(46 + (7 * count) % 900))


def run(folder, *words, given=b""):
    done = subprocess.run([TEP, *words], cwd=folder, input=given, stdout=subprocess.PIPE, stderr=subprocess.PIPE, check=False)
    return done.returncode, done.stdout.decode(), done.stderr.decode()


def ends(folder, status, printed, said, *words, given=b""):
    """The program ends with this status, and this on standard output and on standard error."""
    got = run(folder, *words, given=given)
    if got != (status, printed, said):
        complain(f"tep {' '.join(words)}: {got} in place of {(status, printed, said)}")


def put(folder, name, text):
    with open(os.path.join(folder, name), "wb") as out:
        out.write(text)


def holds(folder, files):
    """These files stand there, and no others, and hold this."""
    found = sorted(os.listdir(folder))
    if found != sorted(files):
        complain(f"{folder} has {found} in place of {sorted(files)}")
    for name in found:
        with open(os.path.join(folder, name), "rb") as file:
            text = file.read()
        if name in files and text != files[name]:
            complain(f"{name} holds {len(text)} octets in place of {len(files[name])}, or other ones")


def new_folder(folder, name):
    path = os.path.join(folder, name)
    os.mkdir(path)
    return path


SETTINGS = """version = 1
[underlay]
mac = "02:00:00:00:aa:01"
next_hop = "02:00:00:00:aa:fe"
ip4 = "192.0.2.1"
""" + "[[port]]\npvid = 10\n" * 3 + """[[segment]]
vid = 10
vni = 5000
tunnel = "vxlan"
untagged = [1, 2, 3]
flood = ["192.0.2.2"]
"""


def outputs(folder, out):
    text = b""
    for name in sorted(os.listdir(os.path.join(folder, out))):
        with open(os.path.join(folder, out, name), "rb") as file:
            text += name.encode() + file.read()
    return text


def many(folder):
    """64 interfaces, whose packets lie in turn, between them some that are outbound, and blocks that say nothing."""
    capture = Capture()
    capture.section()
    for number in range(64):
        capture.interface(b"swp%d" % number)
    wanted = {number: HEADER for number in range(64)}
    left = {number: 0 for number in range(64)}
    moment = 1_700_000_000 * SECOND
    for count in range(40):
        for turn in range(64):
            number = (turn * 37 + count) % 64
            moment += 1_001
            octets = frame(number, count)
            if (number + count) % 11 == 0:
                capture.outbound(number, moment, octets)
                left[number] += 1
            else:
                capture.packet(number, moment, octets, original=len(octets) + count)
                wanted[number] += record(moment, octets, len(octets) + count)
        capture.block(5, bytes(8))
    capture.block(0xBAD, bytes(400_000))
    capture.packet(3, moment + 1, frame(3, 99))
    wanted[3] += record(moment + 1, frame(3, 99))
    put(folder, "all.pcapng", capture.text)
    listing = "".join(
        f"{n} if{n}_swp{n}.pcap swp{n}\n" + (f"  {left[n]} outbound packets left out\n" if left[n] else "") for n in range(64))
    files = {f"if{n}_swp{n}.pcap": wanted[n] for n in range(64)}
    ends(folder, 0, listing, "", "split", "-o", new_folder(folder, "ports"), "all.pcapng")
    holds(os.path.join(folder, "ports"), files)
    ends(folder, 0, listing, "", "split", "-o", new_folder(folder, "piped"), "-", given=capture.text)
    holds(os.path.join(folder, "piped"), files)
    # What is read of a file is what is read of the interface.
    taken = (0, 1, 5, 63)
    for out, names in (("one", [f"all.pcapng#{n}" for n in taken]), ("two", [f"ports/if{n}_swp{n}.pcap" for n in taken])):
        new_folder(folder, out)
        status, _, said = run(folder, "run", "-s", "s.toml", "-u", names[0], "-o", out, *names[1:])
        if status != 0:
            complain(f"a run of {names}: {status} {said}")
    if outputs(folder, "one") != outputs(folder, "two"):
        complain("a run of the files writes something else than one of the interfaces")
    for n in range(64):
        one = run(folder, "explain", "-s", "s.toml", f"all.pcapng#{n}")[:2]
        two = run(folder, "explain", "-s", "s.toml", f"ports/if{n}_swp{n}.pcap")[:2]
        if one != two:
            complain(f"interface {n} is explained as another than its file")


def names(folder):
    """Names that can't stand in a file's name as they are."""
    rows = [
        (b"../../etc/passwd", "if0_.._.._etc_passwd.pcap", " ../../etc/passwd"),
        (b"a b\n", "if1_a_b_.pcap", " a b\\n"),
        (b"x" * 100, "if2_" + "x" * 64 + ".pcap", " " + "x" * 100),
        (b"\xff\xfe", "if3___.pcap", ""),
        (b"", "if4.pcap", ""),
        (None, "if5.pcap", ""),
        ("m\u00fcnchen".encode(), "if6_m__nchen.pcap", " m\u00fcnchen"),
        (b"..", "if7_...pcap", " .."),
    ]
    capture = Capture(">")
    capture.section()
    for name, _, _ in rows:
        capture.interface(name)
    put(folder, "names.pcapng", capture.text)
    listing = "".join(f"{number} {file}{shown}\n" for number, (_, file, shown) in enumerate(rows))
    ends(folder, 0, listing, "", "split", "-o", new_folder(folder, "named"), "names.pcapng")
    holds(os.path.join(folder, "named"), {file: HEADER for _, file, _ in rows})


def sections(folder):
    """A second section in the other byte order: an interface of it goes on where the one with its number stood."""
    capture = Capture()
    capture.section()
    capture.interface(b"a")
    capture.packet(0, 5, frame(0, 1))
    later = Capture(">")
    later.section()
    later.interface(b"b")
    later.interface(b"c")
    later.packet(1, 6, frame(1, 1))
    later.packet(0, 7, frame(0, 2))
    put(folder, "two.pcapng", capture.text + later.text)
    ends(folder, 0, "0 if0_a.pcap a\n1 if1_c.pcap c\n", "", "split", "-o", new_folder(folder, "sections"), "two.pcapng")
    holds(os.path.join(folder, "sections"), {
        "if0_a.pcap": HEADER + record(5, frame(0, 1)) + record(7, frame(0, 2)),
        "if1_c.pcap": HEADER + record(6, frame(1, 1)),
    })


def faults(folder):
    """What is refused, and what stands in the files then."""
    capture = Capture()
    capture.section()
    capture.interface(b"a")
    capture.interface(b"b", link=113)
    capture.packet(0, 5, frame(0, 1))
    at = len(capture.text)
    capture.packet(1, 6, frame(1, 1))
    capture.packet(0, 7, frame(0, 2))
    first, second = record(5, frame(0, 1)), record(7, frame(0, 2))
    # One interface is refused, at its first packet: the other goes on.
    put(folder, "link.pcapng", capture.text)
    fault = f"block 5 at octet {at}: BadLink"
    cause = "interface 1 b: link type 113, Linux cooked: capture at each port"
    ends(folder, 1, f"0 if0_a.pcap a\n1 if1_b.pcap b\n  {fault}\n",
         f"link.pcapng: interface 1: {fault}\n  link.pcapng: {cause}\n",
         "split", "-o", new_folder(folder, "link"), "link.pcapng")
    holds(os.path.join(folder, "link"), {"if0_a.pcap": HEADER + first + second, "if1_b.pcap": HEADER})
    status, _, said = run(folder, "explain", "-s", "s.toml", "link.pcapng#1")
    if (status, said.splitlines()[0]) != (1, f"u: {fault}"):
        complain(f"link.pcapng#1: {status} {said}")
    # Within a block, each file ends by one octet of a record, but for the one that was refused before.
    put(folder, "cut.pcapng", capture.text[:-1])
    ends(folder, 1, f"0 if0_a.pcap a\n  ends within a block\n1 if1_b.pcap b\n  {fault}\n",
         f"cut.pcapng: interface 1: {fault}\n  cut.pcapng: {cause}\n",
         "split", "-o", new_folder(folder, "cut"), "cut.pcapng")
    holds(os.path.join(folder, "cut"), {"if0_a.pcap": HEADER + first + b"\0", "if1_b.pcap": HEADER})
    one = run(folder, "explain", "-s", "s.toml", "cut.pcapng#0")
    two = run(folder, "explain", "-s", "s.toml", "cut/if0_a.pcap")
    if one != two or not one[1].endswith("cut u 1\n"):
        complain(f"a cut capture: {one} and {two}")
    # A block that isn't one is refused for all.
    bad = len(capture.text)
    put(folder, "bad.pcapng", capture.text[:at] + struct.pack("<III", 6, 8, 8))
    fault = f"block 5 at octet {at}: BadLength"
    ends(folder, 1, "0 if0_a.pcap a\n1 if1_b.pcap b\n", f"bad.pcapng: {fault}\n",
         "split", "-o", new_folder(folder, "bad"), "bad.pcapng")
    holds(os.path.join(folder, "bad"), {"if0_a.pcap": HEADER + first, "if1_b.pcap": HEADER})
    # So is a packet of an interface that isn't described, and one of no whole section.
    capture.packet(2, 8, frame(2, 1))
    put(folder, "unknown.pcapng", capture.text)
    status, _, said = run(folder, "split", "-o", new_folder(folder, "unknown"), "unknown.pcapng")
    if (status, said) != (1, f"unknown.pcapng: block 7 at octet {bad}: UnknownInterface\n"):
        complain(f"an unknown interface: {status} {said}")
    put(folder, "empty.pcapng", b"")
    status, printed, said = run(folder, "split", "-o", new_folder(folder, "empty"), "empty.pcapng")
    if (status, printed, said.splitlines()[0]) != (1, "", "empty.pcapng: block 1 at octet 0: NoSection"):
        complain(f"an empty file: {status} {printed} {said}")
    # A classic capture has no interfaces.
    put(folder, "classic.pcap", HEADER + first)
    said = "classic.pcap: block 1 at octet 0: NoSection\n  classic.pcap: classic pcap tells no interface: it is one capture\n"
    ends(folder, 1, "", said,
         "split", "-o", new_folder(folder, "classic"), "classic.pcap")
    holds(os.path.join(folder, "classic"), {})
    ends(folder, 1, "", "link.pcapng#1: one interface is named, and a capture is split into all of them\n",
         "split", "-o", "classic", "link.pcapng#1")


def too_many(folder):
    """256 files are written, and no more."""
    for count in (256, 257):
        capture = Capture()
        capture.section()
        for _ in range(count):
            capture.interface()
        put(folder, f"{count}.pcapng", capture.text)
        out = new_folder(folder, str(count))
        if count == 256:
            ends(folder, 0, "".join(f"{n} if{n}.pcap\n" for n in range(256)), "", "split", "-o", out, "256.pcapng")
        else:
            ends(folder, 1, "", "257.pcapng: more than 256 interfaces\n", "split", "-o", out, "257.pcapng")
        holds(out, {f"if{n}.pcap": HEADER for n in range(256)})


def unwritten(folder):
    """Files that can't be read or written."""
    ends(folder, 3, "", "read none.pcapng\n  none.pcapng: no such file\n", "split", "-o", "ports", "none.pcapng")
    ends(folder, 3, "", "write nowhere/if0_a.pcap: no such folder\n", "split", "-o", "nowhere", "two.pcapng")
    out = new_folder(folder, "full")
    os.symlink("/dev/full", os.path.join(out, "if0_a.pcap"))
    ends(folder, 3, "", "write full/if0_a.pcap: no space left\n", "split", "-o", "full", "two.pcapng")
    # The others are written whole.
    with open(os.path.join(out, "if1_c.pcap"), "rb") as file:
        if file.read() != HEADER + record(6, frame(1, 1)):
            complain("the file beside one that is full")
    out = new_folder(folder, "itself")
    os.symlink("../two.pcapng", os.path.join(out, "if1_c.pcap"))
    with open(os.path.join(folder, "two.pcapng"), "rb") as file:
        before = file.read()
    ends(folder, 3, "", "write itself/if1_c.pcap\n", "split", "-o", "itself", "two.pcapng")
    with open(os.path.join(folder, "two.pcapng"), "rb") as file:
        if file.read() != before:
            complain("a capture that is split was written into")
    # What stood in a file is gone.
    put(folder, "sections/if1_c.pcap", bytes(10_000))
    ends(folder, 0, "0 if0_a.pcap a\n1 if1_c.pcap c\n", "", "split", "-o", "sections", "two.pcapng")
    with open(os.path.join(folder, "sections/if1_c.pcap"), "rb") as file:
        if file.read() != HEADER + record(6, frame(1, 1)):
            complain("a file that was there before")


def main():
    with tempfile.TemporaryDirectory() as folder:
        put(folder, "s.toml", SETTINGS.encode())
        for part in (many, names, sections, faults, too_many, unwritten):
            part(folder)
    sys.exit(failures != 0)


main()
