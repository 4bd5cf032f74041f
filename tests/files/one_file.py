#!/usr/bin/env python3
"""Outputs under several names, standard output as an output, closed streams, and FIFOs: what is refused, and that nothing is
changed then; and what waits for a reader or a writer, each with a limit of time."""
import os
import subprocess
import sys
import tempfile
import threading
from pathlib import Path

TOP = Path(__file__).resolve().parent.parent.parent
TEP = os.environ.get("TEP", str(TOP / "tep"))
EXAMPLES = TOP / "examples"
RUN = ["run", "-s", str(EXAMPLES / "a.toml"), "-c", str(EXAMPLES / "changes.toml"), "-u", str(EXAMPLES / "underlay.pcap")]
PORTS = [str(EXAMPLES / f"port{number}.pcap") for number in (1, 2, 3)]
LIMIT = 30
FAULTS = []


def asks(truth, what):
    if not truth:
        FAULTS.append(what)


def held(folder):
    """What stands in a folder: links by what they lead to, files by their octets."""
    return {
        path.name: os.readlink(path) if path.is_symlink() else path.read_bytes() if path.is_file() else None
        for path in folder.iterdir()
    }


def ends(folder, words, stdout=subprocess.PIPE, closed=(), **more):
    """The status, what is printed and what is told of a line; None where it takes too long. These streams are closed."""
    def close():
        for number in closed:
            os.close(number)

    try:
        ended = subprocess.run(
            [TEP, *words], cwd=folder, stdout=stdout, stderr=subprocess.PIPE, timeout=LIMIT, preexec_fn=close, check=False, **more
        )
    except subprocess.TimeoutExpired:
        return None, b"", ["it waits"]
    return ended.returncode, ended.stdout or b"", ended.stderr.decode().splitlines()


def refused(folder, words, fault, status=3, **more):
    """A line ends with this fault, and nothing in the folder is another than before."""
    before = {name: held(folder / name) for name in os.listdir(folder) if (folder / name).is_dir()}
    got, printed, said = ends(folder, words, **more)
    what = f"tep {' '.join(words)}"
    asks(got == status and said[:1] == [fault], f"{what}: status {got}, {said} in place of {fault}")
    asks(not printed, f"{what} prints something")
    for name, files in before.items():
        asks(held(folder / name) == files, f"{what} changes {name}, though it is refused: {sorted(held(folder / name))}")


def run_of(out, *words):
    return [*RUN, "-o", out, *words, *PORTS]


def fresh(folder, name="out"):
    """A new folder."""
    path = folder / name
    subprocess.run(["rm", "-rf", str(path)], check=True)
    path.mkdir()
    return path


def outputs(folder):
    """Two outputs of a run that are one file."""
    out = fresh(folder)
    asks(ends(folder, run_of("out", "--json"))[0] == 0, "a run isn't done")
    for link, target, fault in [
        ("port2.pcap", "port3.pcap", "port2.pcap and port3.pcap are one file"),
        ("port3.pcap", "underlay.pcap", "port3.pcap and underlay.pcap are one file"),
        ("decisions.txt", "port1.pcap", "port1.pcap and decisions.txt are one file"),
        ("decisions.jsonl", "decisions.txt", "decisions.txt and decisions.jsonl are one file"),
    ]:
        for make in (os.symlink, lambda to, name: os.link(out / to, name)):
            kept = (out / link).read_bytes()
            (out / link).unlink()
            make(target, out / link)
            refused(folder, run_of("out", "--json"), fault)
            (out / link).unlink()
            (out / link).write_bytes(kept)
    # Links to one file that isn't there yet.
    for name in ("port1.pcap", "decisions.txt"):
        (out / name).unlink()
        (out / name).symlink_to("../new")
    kept = (out / "port2.pcap").read_bytes()
    status, _, said = ends(folder, run_of("out"))
    asks((status, said[:1]) == (3, ["port1.pcap and decisions.txt are one file"]), f"links to nowhere: status {status}, {said}")
    asks((folder / "new").read_bytes() == b"" and (out / "port2.pcap").read_bytes() == kept, "an output was emptied")
    for name in ("port1.pcap", "decisions.txt"):
        (out / name).unlink()
        (out / name).write_bytes(b"")
    # Devices are no one's file.
    for name in ("port1.pcap", "port2.pcap"):
        (out / name).unlink()
        (out / name).symlink_to("/dev/null")
    asks(ends(folder, run_of("out"))[0] == 0, "two outputs to /dev/null are refused")


def printed(folder):
    """What is printed goes into an output."""
    for name in ("decisions.txt", "port2.pcap", "underlay.pcap", "unfinished.txt"):
        for mode in ("wb", "ab"):
            out = fresh(folder)
            with open(out / name, mode) as stdout:
                refused(folder, run_of("out", "--summary"), f"stdout and {name} are one file", stdout=stdout)
    out = fresh(folder)
    with open(out / "decisions.jsonl", "wb") as stdout:
        refused(folder, run_of("out", "--json", "--summary"), "stdout and decisions.jsonl are one file", stdout=stdout)
    out = fresh(folder)
    with open(out / "shard.txt", "wb") as stdout:
        refused(folder, run_of("out", "--summary", "--segments", "all"), "stdout and shard.txt are one file", stdout=stdout)
    # Where nothing is printed, lines may go there.
    out = fresh(folder)
    (out / "decisions.txt").symlink_to("/dev/stdout")
    status, lines, said = ends(folder, run_of("out"))
    asks((status, lines, said) == (0, (EXAMPLES / "decisions.txt").read_bytes(), []), f"lines to a pipe: {status}, {said}")
    status, lines, said = ends(folder, run_of("out", "--summary"))
    asks((status, said[:1], lines) == (3, ["stdout and decisions.txt are one file"], b""), f"lines and counts to a pipe: {status}, {said}")


def of_a_part(folder):
    """What a part prints into its own tables.txt stays, of whatever kind."""
    kinds = {"--tables": [], "--talkers": [], "--summary": [], "--why": ["1"]}
    wanted = {}
    for kind, value in kinds.items():
        fresh(folder)
        wanted[kind] = ends(folder, run_of("out", "--segments", "all", kind, *value))[1]
        asks(wanted[kind], f"{kind} prints nothing")
    order = ["--why", "--tables", "--summary", "--talkers"]
    for chosen in (["--talkers"], ["--tables"], ["--tables", "--talkers"], ["--why", "--summary"], order):
        for name in ("tables.txt", "summary.txt"):
            out = fresh(folder)
            words = [word for kind in chosen for word in (kind, *kinds[kind])]
            with open(out / name, "wb") as stdout:
                status, _, said = ends(folder, run_of("out", "--segments", "all", *words), stdout=stdout)
            asks(status == 0, f"a part that prints {chosen} into its {name}: status {status}, {said}")
            stands = (out / name).read_bytes() if (out / name).exists() else b"nothing stands there"
            text = b"".join(wanted[kind] for kind in order if kind in chosen)
            asks(stands == text, f"{chosen} into {name} of a part: {stands} in place of {text}")
    # A merge takes the tables where they alone stand there, and else says that they aren't the part's.
    out = fresh(folder)
    fresh(folder, "merged")
    with open(out / "tables.txt", "wb") as stdout:
        ends(folder, run_of("out", "--segments", "all", "--tables"), stdout=stdout)
    status, text, said = ends(folder, ["merge", "--tables", "-o", "merged", "out"])
    asks((status, text) == (0, wanted["--tables"]), f"a merge of tables that were printed: {status}, {said}")
    with open(out / "tables.txt", "wb") as stdout:
        ends(folder, run_of("out", "--segments", "all", "--tables", "--talkers"), stdout=stdout)
    fault = "part out: tables.txt has other octets than shard.txt says"
    refused(folder, ["merge", "--tables", "-o", "merged", "out"], fault, status=1)
    with open(out / "tables.txt", "wb") as stdout:
        ends(folder, run_of("out", "--segments", "all", "--talkers"), stdout=stdout)
    refused(folder, ["merge", "--tables", "-o", "merged", "out"], "part out: it has no tables.txt", status=1)


def merges(folder):
    """The same of a merge."""
    fresh(folder, "part")
    asks(ends(folder, run_of("part", "--segments", "all", "--tables", "--summary"))[0] == 0, "a part isn't done")
    merge = ["merge", "-o", "out", "part"]
    out = fresh(folder)
    asks(ends(folder, merge)[0] == 0, "a merge isn't done")
    (out / "port2.pcap").unlink()
    (out / "port2.pcap").symlink_to("port1.pcap")
    refused(folder, merge, "port1.pcap and port2.pcap are one file")
    (out / "port2.pcap").unlink()
    (out / "port2.pcap").symlink_to("../part/port1.pcap")
    refused(folder, merge, "write port2.pcap")
    out = fresh(folder)
    with open(out / "decisions.txt", "wb") as stdout:
        refused(folder, [*merge, "--summary"], "stdout and decisions.txt are one file", stdout=stdout)
    out = fresh(folder)
    with open(out / "tables.txt", "wb") as stdout:
        asks(ends(folder, [*merge, "--tables"], stdout=stdout)[0] == 0, "a merge that prints beside its outputs")
    asks((out / "tables.txt").read_bytes() == (folder / "part" / "tables.txt").read_bytes(), "what a merge prints beside its outputs")


def pages(folder):
    """A page isn't written onto a file of its run."""
    out = fresh(folder)
    ends(folder, run_of("out", "--segments", "all", "--tables", "--summary"))
    (folder / "link").unlink(missing_ok=True)
    (folder / "link").symlink_to("out/port3.pcap")
    for page, name in [
        ("out/port2.pcap", "port2.pcap"), ("out/shard.txt", "shard.txt"), ("out/decisions.txt", "decisions.txt"),
        ("out/underlay.pcap", "underlay.pcap"), ("out/summary.txt", "summary.txt"), ("link", "port3.pcap"),
    ]:
        refused(folder, ["report", "-o", page, "out"], f"write {page}: it is out/{name} itself")
    asks(ends(folder, ["report", "-o", "out/page.html", "out"])[0] == 0 and (out / "page.html").stat().st_size > 1000, "no page is made")


def splits(folder):
    """Nor is what a capture is split into."""
    many = folder / "many.pcapng"
    subprocess.run(
        [sys.executable, str(TOP / "tests/lib/pcapng.py"), str(many), f"a={PORTS[0]}", f"b={PORTS[1]}", f"c={PORTS[2]}"], check=True
    )
    split = ["split", "-o", "out", "many.pcapng"]
    out = fresh(folder)
    asks(ends(folder, run_of("out"))[0] == 0, "a run isn't done")
    for target, other in (("port2.pcap", "out/port2.pcap"), ("decisions.txt", "out/decisions.txt")):
        (out / "if0_a.pcap").symlink_to(target)
        refused(folder, split, f"write out/if0_a.pcap: it is {other} itself")
        (out / "if0_a.pcap").unlink()
    (out / "if1_b.pcap").symlink_to("if0_a.pcap")
    status, _, said = ends(folder, split)
    asks((status, said[:1]) == (3, ["write out/if1_b.pcap: it is that of interface 0 itself"]), f"two interfaces in one file: {status}, {said}")
    out = fresh(folder)
    with open(out / "if0_a.pcap", "wb") as stdout:
        refused(folder, split, "write out/if0_a.pcap: it is standard output itself", stdout=stdout)
    # Closed streams never become a file that is opened.
    for closed in ((1,), (0, 1), (0, 1, 2), (0,), (2,), (0, 2)):
        fresh(folder)
        status, _, said = ends(folder, split, closed=closed)
        asks(status == (3 if 1 in closed else 0), f"a split with {closed} closed: status {status}, {said}")
        fresh(folder, "other")
        ends(folder, [*split[:2], "other", "many.pcapng"])
        asks(held(folder / "out") == held(folder / "other"), f"a split with {closed} closed writes something else")


def closed_streams(folder):
    """A closed stream isn't taken for an output or an input."""
    fresh(folder, "whole")
    ends(folder, run_of("whole"))
    whole = held(folder / "whole")
    for closed in ((0,), (1,), (2,), (0, 1), (1, 2), (0, 2), (0, 1, 2)):
        fresh(folder)
        status, _, said = ends(folder, run_of("out"), closed=closed)
        asks(status == 0 and held(folder / "out") == whole, f"a run with {closed} closed: status {status}, {said}")
        fresh(folder)
        status, _, said = ends(folder, run_of("out", "--summary"), closed=closed)
        asks(status == (3 if 1 in closed else 0), f"a run that prints with {closed} closed: status {status}, {said}")
        asks(held(folder / "out") == whole, f"a run that prints with {closed} closed has other outputs")
    fresh(folder)
    status, _, said = ends(folder, [*RUN, "-o", "out", "-", *PORTS[1:]], closed=(0,))
    asks((status, said) == (3, ["read -", "  standard input is closed"]), f"a capture from closed standard input: {status}, {said}")


def fed(path, octets):
    """Writes octets into a FIFO, once."""
    def feed():
        with open(path, "wb") as pipe:
            try:
                pipe.write(octets)
            except BrokenPipeError:
                pass

    writer = threading.Thread(target=feed, daemon=True)
    writer.start()


def taken(path, into):
    """Reads a FIFO to its end, once."""
    def take():
        with open(path, "rb") as pipe:
            into.append(pipe.read())

    reader = threading.Thread(target=take, daemon=True)
    reader.start()
    return reader


def pipes(folder):
    """FIFOs that are fed or read once."""
    fresh(folder, "part")
    ends(folder, run_of("part", "--segments", "all"))
    part = held(folder / "part")
    merge = ["merge", "-o", "out", "part"]
    for name, octets, fault in [
        ("port2.pcap", part["port2.pcap"], None),
        ("port2.pcap", part["port2.pcap"][:-1], "part part: p2 Sliced"),
        ("port2.pcap", part["port2.pcap"][:-1] + b"x", "read part"),
        ("underlay.pcap", part["underlay.pcap"][:30], None),
        ("shard.txt", part["shard.txt"], None),
    ]:
        fresh(folder)
        (folder / "part" / name).unlink()
        os.mkfifo(folder / "part" / name)
        fed(folder / "part" / name, octets)
        status, _, said = ends(folder, merge)
        asks(status is not None, f"a merge waits for {name} for ever")
        if octets == part[name]:
            asks(status == 0, f"a merge of {name} by a FIFO: status {status}, {said}")
        else:
            asks(status in (1, 3), f"a merge of a wrong {name} by a FIFO: status {status}, {said}")
        (folder / "part" / name).unlink()
        (folder / "part" / name).write_bytes(part[name])
    # Decision lines are read twice, so those of a FIFO are refused at once, and a part doesn't write its own into one.
    (folder / "part" / "decisions.txt").unlink()
    os.mkfifo(folder / "part" / "decisions.txt")
    fresh(folder)
    status, _, said = ends(folder, merge)
    wanted = (1, ["part part: decisions.txt is no regular file, and a merge reads it twice"])
    asks((status, said[:1]) == wanted, f"a merge of lines by a FIFO: {status}, {said}")
    status, _, said = ends(folder, run_of("part", "--segments", "all"))
    wanted = (1, ["decisions.txt is no regular file, and a part reads it again"])
    asks((status, said[:1]) == wanted, f"a part whose lines go into a FIFO: {status}, {said}")
    # Objects by a FIFO, which is opened once: its reader has them all.
    out = fresh(folder)
    ends(folder, run_of("out", "--json"))
    objects = (out / "decisions.jsonl").read_bytes()
    out = fresh(folder)
    os.mkfifo(out / "decisions.jsonl")
    into = []
    reader = taken(out / "decisions.jsonl", into)
    status, _, said = ends(folder, run_of("out", "--json"))
    reader.join(LIMIT)
    asks(status == 0 and into == [objects], f"objects by a FIFO: status {status}, {said}")
    # All outputs are FIFOs: who reads them in the order of the page has each once.
    whole = fresh(folder, "whole")
    ends(folder, run_of("whole"))
    out = fresh(folder)
    names = ["port1.pcap", "port2.pcap", "port3.pcap", "underlay.pcap", "decisions.txt"]
    readers, waits = {}, []
    for name in names:
        os.mkfifo(out / name)
        readers[name] = []
        waits.append(taken(out / name, readers[name]))
    status, _, said = ends(folder, run_of("out"))
    for reader in waits:
        reader.join(LIMIT)
    asks(status == 0 and all(readers[name] == [(whole / name).read_bytes()] for name in names), f"outputs by FIFOs: {status}, {said}")


def quoted(folder):
    """What is to be done next stands there as a shell takes it."""
    for name in ("my dir", "it's", "$HOME", "a;b", "-x", "*", "tab\there", "plain", "ünï"):
        status, _, said = ends(folder, [*RUN, f"--out={name}", *PORTS])
        step = said[-1].strip()
        asks(status == 3 and step.startswith("mkdir "), f"a run into {name}: {said}")
        subprocess.run(["bash", "-c", step], cwd=folder, check=False)
        asks((folder / name).is_dir(), f"{step} makes no folder {name}")
    damaged = folder / "x;touch reboot.pcap"
    octets = (EXAMPLES / "port1.pcap").read_bytes()
    damaged.write_bytes(octets + octets[24:32] + b"\xff\xff\xff\x7f" * 2)
    fresh(folder)
    _, _, said = ends(folder, [*RUN, "-o", "out", damaged.name, *PORTS[1:]])
    asks(any("editcap -F nsecpcap -r 'x;touch reboot.pcap' OUT 1-" in line for line in said), f"a damaged capture: {said}")


def main():
    subprocess.run([TEP, "--version"], check=True, stdout=subprocess.DEVNULL)
    for test in (outputs, printed, of_a_part, merges, pages, splits, closed_streams, pipes, quoted):
        with tempfile.TemporaryDirectory() as name:
            test(Path(name))
    for fault in FAULTS:
        print(f"tests/files/one_file.py: {fault}")
    return 1 if FAULTS else 0


sys.exit(main())
