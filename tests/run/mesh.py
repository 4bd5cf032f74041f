"""A mesh of three endpoints, 192.0.2.1 to 192.0.2.3, each with three ports in a segment that floods to the other two: what one
of them sends, the others are given. A broadcast leaves once at each port."""
import struct
import sys

import runs

FAULTS = []

BROADCAST = runs.octets("ALL M1 0800") + bytes(46)

EVERYWHERE = "10 p1=60 p2=60 p3=64"


def packets(capture):
    """The packets of a capture that the program wrote."""
    at = 24
    while at < len(capture):
        length = struct.unpack_from("<I", capture, at + 8)[0]
        yield capture[at + 16 : at + 16 + length]
        at += 16 + length


def packet_to(capture, last):
    """The packets of a capture that are for the endpoint whose address ends so."""
    return [packet for packet in packets(capture) if packet[30:34] == bytes((192, 0, 2, last))]


def expect(name, found, wanted):
    if found != wanted:
        FAULTS.append(f"{name}: {found} in place of {wanted}")


def leaves(change, sent, at_third):
    """Asks how a broadcast at port 1 of the first endpoint leaves behind a change, there and at the other two; where nothing is
    expected at the third, that no packet is for it."""
    settings = runs.endpoint(1, 2).replace('["192.0.2.2"]', '["192.0.2.2", "192.0.2.3"]')
    captures = runs.Captures()
    captures.of["p1"] += runs.record(10**9, BROADCAST)
    sender = runs.Run(settings, f"[[change]]\nat = 1000000000\nvid = 10\n{change}\n", captures)
    lines = f"1 1000000000 c 1 10 done\n2 1000000000 p1 1 10 {sent}\n"
    expect(change, sender.said(), lines)
    for last, wanted in (2, EVERYWHERE), (3, at_third):
        brought = packet_to(sender.capture("u"), last)
        expect(f"{change}: packets to {last}", len(brought), 1 if wanted else 0)
        captures = runs.Captures()
        for packet in brought:
            captures.of["u"] += runs.record(10**9, packet)
        told = runs.Run(runs.endpoint(last, 1), "", captures).said()
        expect(f"{change}: at {last}", told, f"1 1000000000 u 1 {wanted}\n" if wanted else "")


def main():
    leaves('kind = "flush"', "p2=60 p3=64 192.0.2.2=110 192.0.2.3=110", EVERYWHERE)
    leaves('kind = "remove_flood"\naddr = "192.0.2.3"', "p2=60 p3=64 192.0.2.2=110", "")
    for fault in FAULTS:
        print(f"tests/run/mesh.py: {fault}")
    return 1 if FAULTS else 0


sys.exit(main())
