#!/usr/bin/env python3
"""What lab.sh does with Python.

    lab.py send WORD..    hosts send to one another: '1>5' one datagram of 18 octets, '1>5*2' two of 1,000 at one stroke
    lab.py unnamed FILE   takes from a pcapng capture what it tells of the machine, and leaves all else as it is
"""
import ctypes
import pathlib
import socket
import struct
import sys
import time

UDP_SEGMENT = 103
SECTION, INTERFACE = 0x0A0D0D0A, 1
# Options of the two blocks (pcapng, 4.1 and 4.2): the processor and the system; the system.
NAMING = {SECTION: (2, 3), INTERFACE: (12,)}


def host(number):
    """A socket of a host, in its namespace."""
    with open(f"/run/netns/host{number}", "rb") as space:
        assert ctypes.CDLL(None).setns(space.fileno(), 0) == 0, f"no namespace of host {number}"
    made = socket.socket(socket.AF_INET, socket.SOCK_DGRAM)
    made.bind((f"10.0.0.{number}", 4000 + number))
    return made


def send(words):
    """Sends what the words tell, a fifth of a second apart."""
    hosts = {number: host(number) for number in (1, 2, 5)}
    for word in words:
        near, far = int(word[0]), int(word[2])
        text = bytes([near]) * 18
        if word.endswith("*2"):
            hosts[near].setsockopt(socket.IPPROTO_UDP, UDP_SEGMENT, 1000)
            text = bytes([near]) * 2000
        hosts[near].sendto(text, (f"10.0.0.{far}", 4000 + far))
        time.sleep(0.2)


def without(options, codes):
    """A block's options without those of these codes."""
    kept, at = b"", 0
    while at < len(options):
        code, length = struct.unpack_from("<HH", options, at)
        end = at + 4 + (length + 3) // 4 * 4
        kept += b"" if code in codes else options[at:end]
        at = end
    return kept


def unnamed(path):
    """Writes the capture anew without the options that name the machine."""
    text, made, at = path.read_bytes(), b"", 0
    while at < len(text):
        kind, length = struct.unpack_from("<II", text, at)
        body = text[at + 8 : at + length - 4]
        if kind in NAMING:
            fixed = 16 if kind == SECTION else 8
            body = body[:fixed] + without(body[fixed:], NAMING[kind])
        made += struct.pack("<II", kind, len(body) + 12) + body + struct.pack("<I", len(body) + 12)
        at += length
    path.write_bytes(made)


def main():
    if len(sys.argv) > 2 and sys.argv[1] == "send":
        return send(sys.argv[2:])
    if len(sys.argv) == 3 and sys.argv[1] == "unnamed":
        return unnamed(pathlib.Path(sys.argv[2]))
    sys.exit(__doc__)


if __name__ == "__main__":
    main()
