#!/usr/bin/env python3
"""Sends frames from hosts and a peer in the network that lab.sh makes, and captures both ways at each place, as `tcpdump -Q in`
and `tcpdump -Q out` do. lab.sh calls it: both_ways.py FOLDER CASE."""
import pathlib
import select
import socket
import struct
import subprocess
import sys
import time

from captures import asks, frame, mac, sends, tunnelled

PLACES = {"swp1": "port1", "swp2": "port2", "swp3": "port3", "underlay": "underlay"}
# Of the kernel's headers: all frames, those that a socket's own device sends, and when a frame came or went, in nanoseconds.
ALL_FRAMES, IS_OUTGOING, TIMESTAMP_NS = 3, 4, 35
ARP_REPLY = struct.pack(">HHBBH", 1, 0x0800, 6, 4, 2)
LLDP = bytes.fromhex("0207040200000000aa000403053101060200780000")


def answers():
    """The peer says what its address is (RFC 826)."""
    peer, own = bytes([192, 0, 2, 2]), bytes([192, 0, 2, 1])
    return frame(mac(0xAA01), mac(0xAA02), b"\x08\x06", ARP_REPLY + mac(0xAA02) + peer + mac(0xAA01) + own)


def steps(case):
    """Who sends which frame, one after another."""
    yield "host1", asks(1, 2)
    if case == "own_traffic":
        yield "peer", answers()
        yield "swp1", frame(bytes.fromhex("0180c200000e"), mac(0xAA11), b"\x88\xcc", LLDP)
    yield "host2", sends(2, 1)
    yield "host1", sends(1, 2)
    yield "peer", tunnelled(asks(5, 1))
    for size in (18, 18, 400, 1000, 1400, 1472):
        yield "host1", sends(1, 5, size=size)
    yield "host3", asks(3, 9)
    yield "peer", tunnelled(sends(5, 2))
    yield "host2", sends(2, 5, size=1472)
    yield "host1", sends(1, 77)


def captured(links, seconds):
    """What comes and goes at the links for so long: a place, whether it leaves, a moment and the octets of each."""
    until = time.monotonic() + seconds
    while (left := until - time.monotonic()) > 0:
        for link in select.select(links, [], [], left)[0]:
            octets, told, _, address = link.recvmsg(65536, 64)
            [moment] = [struct.unpack("qq", data) for level, kind, data in told if kind == TIMESTAMP_NS]
            yield PLACES[address[0]], address[2] == IS_OUTGOING, moment, octets


def write(path, records):
    """A classic capture of nanoseconds."""
    with path.open("wb") as out:
        out.write(struct.pack("<IHHiIII", 0xA1B23C4D, 2, 4, 0, 0, 262144, 1))
        for moment, octets in sorted(records, key=lambda record: record[0]):
            out.write(struct.pack("<IIII", *moment, len(octets), len(octets)) + octets)


def opened(device):
    link = socket.socket(socket.AF_PACKET, socket.SOCK_RAW, socket.htons(ALL_FRAMES))
    link.setsockopt(socket.SOL_SOCKET, TIMESTAMP_NS, 1)
    link.bind((device, ALL_FRAMES))
    return link


def main():
    folder, case = pathlib.Path(sys.argv[1]), sys.argv[2]
    links = [opened(device) for device in PLACES]
    seen = []
    if case == "own_traffic":
        # The kernel is to ask where the peer is.
        subprocess.run(["ip", "neigh", "del", "192.0.2.2", "dev", "underlay"], check=True)
    for device, octets in steps(case):
        with socket.socket(socket.AF_PACKET, socket.SOCK_RAW) as link:
            link.bind((device, 0))
            link.send(octets)
        seen += captured(links, 0.1)
    for name in PLACES.values():
        for begin, leaves in (("", False), ("sent_", True)):
            records = [(moment, octets) for place, left, moment, octets in seen if (place, left) == (name, leaves)]
            write(folder / f"{begin}{name}.pcap", records)


main()
