#!/usr/bin/env python3
"""Prints settings of a leaf switch that runs Linux: its ports and their VLANs, and a VXLAN device for each segment.

    settings.py VLANS LINKS FLOODS MAC NEXT_HOP [ADDRESSES]    the texts of `bridge -j vlan show`, of `ip -j -d link show type vxlan`
                                                               and of `bridge -j fdb show`, and the MAC addresses of the link to
                                                               the underlay and of the router on it; and how many addresses all
                                                               segments may learn together, 256 each where it isn't told

Ports are numbered as the first text names them, which a line of comment tells; each VLAN that a VXLAN device has untagged is a
segment. Nothing but Python's own library is needed.
"""
import json
import pathlib
import sys


def vlans_of(item):
    """The VLANs of a port or a device, each with its flags; one row may be a range."""
    for row in item["vlans"]:
        for vid in range(row["vlan"], row.get("vlanEnd", row["vlan"]) + 1):
            yield vid, row.get("flags", [])


def own_of(item):
    """The VLANs of frames without a tag: one of a port, and of a device that of its segment."""
    return [vid for vid, flags in vlans_of(item) if "PVID" in flags]


def members_of(ports):
    """The numbers of the ports of each VLAN, by whether frames leave there without a tag."""
    members = {}
    for number, port in enumerate(ports, 1):
        for vid, flags in vlans_of(port):
            members.setdefault(vid, {True: [], False: []})["Egress Untagged" in flags].append(number)
    return members


def remotes_of(floods):
    """The remotes of each device, in their order."""
    remotes = {}
    for row in floods:
        if row["mac"] == "00:00:00:00:00:00":
            remotes.setdefault(row["ifname"], []).append(row["dst"])
    return remotes


def limits(ports, segments, flood, each, addresses):
    """The table of limits: how many ports there are, and of what else there is more than without it there may be."""
    yield "\n[limits]"
    counts = {"ports": ports, "segments": segments, "flood": flood, "entries": each, "addresses": addresses}
    for (key, count), usual in zip(counts.items(), (16, 256, 16, 8192, 65_536)):
        if key == "ports" or count > usual:
            yield f"{key} = {max(count, usual)}"


def settings(vlans, links, floods, mac, next_hop, addresses):
    """The lines of the settings."""
    devices = {link["ifname"]: link["linkinfo"]["info_data"] for link in links}
    ports = [item for item in vlans if item["ifname"] not in devices]
    segments = [(vid, item["ifname"]) for item in vlans if item["ifname"] in devices for vid in own_of(item)]
    members, remotes = members_of(ports), remotes_of(floods)
    each = min(addresses // len(segments), 131_072) if addresses else 256
    longest = max(len(remotes.get(name, [])) for _, name in segments)
    yield "version = 3"
    yield from limits(len(ports), len(segments), longest, each, addresses or each * len(segments))
    yield f'\n[underlay]\nmac = "{mac}"\nnext_hop = "{next_hop}"\nip4 = "{next(iter(devices.values()))["local"]}"'
    for number, item in enumerate(ports, 1):
        yield f"\n# {number}: {item['ifname']}\n[[port]]"
        own = own_of(item)
        yield f"pvid = {own[0]}" if own else 'pvid = 1\naccept = "tagged"'
    for vid, name in segments:
        yield f"\n# {name}\n[[segment]]\nvid = {vid}"
        if addresses:
            yield f"limit = {each}"
        of_port = members.get(vid, {True: [], False: []})
        yield f"untagged = {of_port[True]}\ntagged = {of_port[False]}"
        yield f'[[segment.tunnel]]\nkind = "vxlan"\nvni = {devices[name]["id"]}\nflood = {json.dumps(remotes.get(name, []))}'


if len(sys.argv) not in (6, 7):
    sys.exit(__doc__)
texts = [json.loads(pathlib.Path(name).read_text()) for name in sys.argv[1:4]]
print("\n".join(settings(*texts, *sys.argv[4:6], int(sys.argv[6]) if len(sys.argv) == 7 else 0)))
