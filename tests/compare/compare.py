#!/usr/bin/env python3
"""Captures that are made with loss, doubling, delay, changed and cut octets, and faults, compared by ./tep and by a plain matcher
here: for each content a queue of those that were sent. A content is the octets of a whole record, or of one that is cut the
pair of its octets and its original length. Usage: compare.py TEP FOLDER COUNT; prints what differs, and exits 1 where something
does."""
import collections
import random
import struct
import subprocess
import sys

SECOND = 1_000_000_000


def parts_of(content):
    """What there is of a record, and its original length."""
    return (content, len(content)) if isinstance(content, bytes) else content


def cut_to(snap, content):
    """A whole record as it is captured with a snap length, where there is one."""
    return content if snap is None or len(content) <= snap else (content[:snap], len(content))


def write(path, records, end=""):
    """A classic capture of nanoseconds. Where its end is "faulty", a record that is too large stands behind the others; where it is
    "cut", a front of one: of its header, or of its octets."""
    with open(path, "wb") as out:
        out.write(struct.pack("<IHHiIII", 0xA1B23C4D, 2, 4, 0, 0, 262144, 1))
        for moment, content in records:
            octets, original = parts_of(content)
            out.write(struct.pack("<IIII", moment // SECOND, moment % SECOND, len(octets), original))
            out.write(octets)
        if end == "faulty":
            out.write(struct.pack("<IIII", 0, 0, 300_000, 300_000))
        if end == "cut":
            header = struct.pack("<IIII", 0, 0, 60, 60)
            out.write(header[:7] if len(records) % 2 else header + bytes(len(records) // 2 % 60))


def rising(records):
    """The records, each at the greatest moment so far."""
    latest = 0
    for moment, content in records:
        latest = max(latest, moment)
        yield latest, content


def pairs(sent, received, within, shift):
    """The numbers of those that are both, as pairs in the order in which they were received: each content alone, the first that was
    sent with the first that is not too late."""
    least, most = (0, within) if shift is None else (shift - within, shift + within)
    queues = collections.defaultdict(collections.deque)
    for number, (moment, content) in enumerate(rising(sent)):
        queues[content].append((moment, number))
    found = []
    for number, (moment, content) in enumerate(rising(received)):
        queue = queues[content]
        while queue and queue[0][0] + most < moment:
            queue.popleft()
        if queue and queue[0][0] + least <= moment:
            found.append((queue.popleft()[1], number))
    return found


def behind_line(sent, both):
    """The line of how many of these pairs were sent before one that was received in front of them, where one is."""
    moments = [moment for moment, _ in rising(sent)]
    were_sent = [moments[number] for number, _ in both]
    count = sum(any(other > moment for other in were_sent[:at]) for at, moment in enumerate(were_sent))
    return [f"behind another {count}"] if count else []


def doubled_line(received, both):
    """The line of how many of those that were received alone are the same as one of the latest 256 in front that are both, where one
    is."""
    matched = {number for _, number in both}
    latest, count = collections.deque(maxlen=256), 0
    for number, (_, content) in enumerate(received):
        if number in matched:
            latest.append(content)
        else:
            count += content in latest
    return [f"doubled {count}"] if count else []


def alone(side, records, both):
    """The lines of those that are not both, and how many of each length there are."""
    lines, lengths = [], collections.Counter()
    for number, (moment, content) in enumerate(rising(records)):
        if number not in both:
            length = len(parts_of(content)[0])
            lines.append(f"{moment} {side} alone length {length} record {number + 1}")
            lengths[length] += 1
    return lines, lengths


def cut_line(*sides):
    """The line of how many records of each side are cut, where one is."""
    sent, received = (sum(not isinstance(content, bytes) for _, content in side) for side in sides)
    return [f"cut: sent {sent}, received {received}"] if sent or received else []


def end_lines(ends, fault):
    """The lines of the captures that end within a record, where no fault came before."""
    return [] if fault else [f"{side}: cut" for side, end in zip(("sent", "received"), ends) if end == "cut"]


def report(sent, received, within, shift):
    """What is printed: the lines of those that were sent alone, of those that were received alone, the counts with how many came
    again, are cut and are behind another, and the table by length."""
    found = pairs(sent, received, within, shift)
    of_sent, of_received = ({pair[side] for pair in found} for side in (0, 1))
    both = len(found)
    sent_lines, sent_lengths = alone("sent", sent, of_sent)
    received_lines, received_lengths = alone("received", received, of_received)
    counts = [f"sent {len(sent)}", f"received {len(received)}", f"both {both}"]
    counts += [f"sent alone {len(sent) - both}", f"received alone {len(received) - both}"] + doubled_line(received, found)
    counts += cut_line(sent, received) + behind_line(sent, found)
    lengths = collections.Counter(len(parts_of(sent[number][1])[0]) for number in of_sent)
    table = [
        f"length {n}: both {lengths[n]}, sent alone {sent_lengths[n]}, received alone {received_lengths[n]}"
        for n in sorted(set(lengths) | set(sent_lengths) | set(received_lengths))
    ]
    return sent_lines, received_lines, counts, table


def in_parts(printed):
    """The same of what was printed: the lines of each side in their order, whatever the order of both."""
    lines = printed.splitlines()
    start = next((at for at, line in enumerate(lines) if line.startswith("sent ") and " alone " not in line), len(lines))
    sides = [[line for line in lines[:start] if f" {side} alone " in line] for side in ("sent", "received")]
    behind = start + 5 + sum(line.startswith(("doubled ", "cut: ", "behind another ")) for line in lines)
    return *sides, lines[start:behind], lines[behind:]


def up_to_fault(sent, received, within, shift, ends):
    """What is read of two captures up to the first of their faults, and what that says: each fault stands behind the last
    record of its capture, and of records at one moment those that were sent come first."""
    offset = 0 if shift is None else shift - within
    coming = [(moment + offset, 0, number) for number, (moment, _) in enumerate(rising(sent))]
    coming += [(moment, 1, number) for number, (moment, _) in enumerate(rising(received))]
    read = [0, 0]
    lengths = [len(sent), len(received)]
    names = ["sent", "received"]
    faulty = [end == "faulty" for end in ends]
    for side in (0, 1):
        if faulty[side] and lengths[side] == 0:
            return [], [], f"{names[side]}: TooLarge 1"
    for _, side, _ in sorted(coming):
        read[side] += 1
        if faulty[side] and read[side] == lengths[side]:
            return sent[: read[0]], received[: read[1]], f"{names[side]}: TooLarge {lengths[side] + 1}"
    return sent, received, None


def drawn_end(chance, share):
    """How a capture ends: with a fault, within a record, or with nothing behind its records."""
    return chance.choice(["faulty", "cut"]) if chance.random() < share else ""


def drawn_snaps(chance):
    """The snap lengths of two captures: mostly none, or the same, which is shorter than some records."""
    snap = chance.choice([None, None, None, 14, 60])
    return [snap, snap if chance.random() < 0.8 else chance.choice([None, 14, 60, 61])]


def made(chance):
    """Two captures, a window and a shift, and how they end."""
    within = chance.choice([0, 5, 100, 1000, SECOND])
    shift = chance.choice([None, None, 0, 3, -7, 50, 2000, -2000])
    contents = [chance.randbytes(chance.choice([0, 1, 14, 60, 61, 300])) for _ in range(chance.choice([1, 2, 5, 40]))]
    step = chance.choice([0, 1, 10, 200])
    moment = 5 * SECOND
    sent, received = [], []
    for number in range(chance.randrange(60)):
        moment += chance.randrange(step + 1)
        octets = chance.choice(contents)
        if chance.random() < 0.5:
            octets += struct.pack("<I", number)
        told = moment - chance.randrange(step + 1) if chance.random() < 0.05 else moment
        sent.append((told, octets))
        for _ in range(chance.choice([0, 1, 1, 1, 1, 1, 2])):
            changed = bytearray(octets)
            if changed and chance.random() < 0.05:
                changed[chance.randrange(len(changed))] ^= 1
            delay = chance.choice([0, 0, 1, within, within + 1, chance.randrange(2 * within + 1)])
            received.append((max(0, told + delay + (shift or 0)), bytes(changed)))
    if chance.random() < 0.8:
        received.sort(key=lambda record: record[0])
    snaps = drawn_snaps(chance)
    sent, received = ([(moment, cut_to(snap, octets)) for moment, octets in side] for snap, side in zip(snaps, (sent, received)))
    return sent, received, within, shift, [drawn_end(chance, 0.3), drawn_end(chance, 0.3)]


def told(tep, folder, within, shift, *more):
    """What the program prints, and its status."""
    words = [tep, "compare", f"{folder}/sent.pcap", f"{folder}/received.pcap", "--within", f"{within}ns", *more]
    if shift is not None:
        words += [f"--shift={shift}ns"]
    done = subprocess.run(words, capture_output=True, text=True, check=False)
    return done.stdout, done.returncode, done.stderr


def fullest(tep, folder):
    """Whether a window of as many records as it may hold is taken, and one more isn't."""
    most = 1 << 20
    write(f"{folder}/received.pcap", [])
    for count in (most, most + 1):
        write(f"{folder}/sent.pcap", [(5 * SECOND, b"")] * count)
        wanted = f"sent {most}\nreceived 0\nboth 0\nsent alone {most}\nreceived alone 0\n"
        said = "what was received isn't what was sent\n" if count == most else "at 5000000000: WindowFull\n"
        if told(tep, folder, 0, None) != (wanted, 1, said):
            print(f"{count} records at one moment are told otherwise")
            return False
    return True


def main():
    tep, folder, count = sys.argv[1], sys.argv[2], int(sys.argv[3])
    wrong = 0 if fullest(tep, folder) else 1
    for seed in range(count):
        sent, received, within, shift, ends = made(random.Random(seed))
        write(f"{folder}/sent.pcap", sent, ends[0])
        write(f"{folder}/received.pcap", received, ends[1])
        sent, received, fault = up_to_fault(sent, received, within, shift, ends)
        *lists, table = report(sent, received, within, shift)
        are_cut = end_lines(ends, fault)
        wanted = (*lists, table + are_cut)
        said = fault or ("what was received isn't what was sent" if wanted[0] or wanted[1] else None)
        printed, status, told_of = told(tep, folder, within, shift, "--list", "--by", "length")
        plain = told(tep, folder, within, shift)[0].splitlines()
        found = in_parts(printed), plain, status, told_of
        if found != (wanted, wanted[2] + are_cut, 1 if said else 0, f"{said}\n" if said else ""):
            wrong += 1
            print(f"seed {seed}: status {status}, printed\n{printed}{told_of}wanted\n{wanted}{said}")
            if wrong == 3:
                break
    sys.exit(1 if wrong else 0)


if __name__ == "__main__":
    main()
