#!/usr/bin/env python3
"""Writes what a larger leaf tells, in the form that iproute2 prints: 64 ports, and 1,000 VLANs with a VXLAN device each, which floods
to 128 other leaves.

    large.py FOLDER    vlans.json, links.json and floods.json

Sixty ports are trunks of a hundred VLANs each, and four of all. Nothing but Python's own library is needed.
"""
import json
import pathlib
import sys

VLANS, REMOTES = range(2, 1002), 128


def trunk(name, first, last):
    """A port that is tagged in these VLANs."""
    return {"ifname": name, "vlans": [{"vlan": first, "vlanEnd": last}]}


def vlans():
    """What `bridge -j vlan show` prints."""
    for port in range(1, 61):
        first = 15 * port - 13
        yield trunk(f"swp{port}", first, first + 99)
    for port in range(61, 65):
        yield trunk(f"swp{port}", VLANS[0], VLANS[-1])
    for vid in VLANS:
        yield {"ifname": f"vx{vid}", "vlans": [{"vlan": vid, "flags": ["PVID", "Egress Untagged"]}]}


def links():
    """What `ip -j -d link show type vxlan` prints."""
    for vid in VLANS:
        info = {"info_kind": "vxlan", "info_data": {"id": 10_000 + vid, "local": "192.0.2.1", "port": 4789}}
        yield {"ifname": f"vx{vid}", "linkinfo": info}


def floods():
    """What `bridge -j fdb show` prints."""
    for vid in VLANS:
        for n in range(REMOTES):
            remote = f"198.51.100.{(vid + n) % 254 + 1}"
            yield {"mac": "00:00:00:00:00:00", "ifname": f"vx{vid}", "dst": remote, "flags": ["self"], "state": "permanent"}


if len(sys.argv) != 2:
    sys.exit(__doc__)
for name, rows in ("vlans", vlans()), ("links", links()), ("floods", floods()):
    pathlib.Path(sys.argv[1], f"{name}.json").write_text(json.dumps(list(rows)))
