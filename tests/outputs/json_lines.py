#!/usr/bin/env python3
"""Whether texts and their JSON tell the same: json_lines.py KIND TXT JSON. Whether each key that stands in objects is one of the
JSON section of docs/formats/lines.md and has one type: json_lines.py keys JSON..

Each object is read by Python's own reader of JSON, and the line that it tells is written anew by the rules of
docs/formats/lines.md; it has to be that line of the text. What differs is told, and the status is 1."""
import json
import re
import sys


def front(told):
    """What a decision line begins with."""
    segment = "-" if told["segment"] is None else told["segment"]
    return f"{told['event']} {told['moment']} {told['source']} {told['number']} {segment}"


def outcome(told):
    """One outcome as it stands in a line."""
    return f"{told['place']}={told['octets']}" if "octets" in told else f"{told['place']}!{told['fault']}"


def decision(told):
    """The decision line that an object tells."""
    result = told["result"]
    if result == "cut":
        return f"cut {told['source']} {told['records']}"
    if result == "sent":
        return f"{front(told)} {' '.join(outcome(each) for each in told['outcomes'])}"
    if result == "drop":
        return f"{front(told)} drop {told['reason']} {told['name']}"
    if result == "refused":
        return f"{front(told)} refused {told['cause']} {told['name']}"
    return f"{front(told)} {result}"


def count(told):
    """The line of a summary or of talkers."""
    kind = told["line"]
    where = f"segment {told.get('segment', 'none')}"
    if kind == "sent":
        return f"{where} sent {told['count']}"
    if kind == "dropped":
        return f"{where} dropped {told['reason']} {told['name']} {told['count']}"
    if kind == "refused":
        return f"change refused {told['cause']} {told['name']} {told['count']}"
    if kind == "place":
        return f"place {told['place']} {told['direction']} {told['count']} {told['octets']}"
    if kind == "checksum":
        return f"checksum partial {told['count']}"
    if kind == "cut":
        return f"cut {told['source']} {told['records']}"
    if kind == "unknown":
        whose = f"{told['kind']} {told['vni']} from {told['sender']}" if "vni" in told else "others"
        return f"unknown {whose} {told['count']}"
    if kind == "remote":
        return f"remote {told['remote']} in {told['in']} {told['in_octets']} out {told['out']} {told['out_octets']}"
    span = f"{told['count']} {told['octets']} first {told['first']} last {told['last']}"
    if "source_address" not in told:
        return f"talk others {span}"
    short = f" short {told['short']}" if "short" in told else ""
    return f"talk {told['segment']} {told['source_address']} {told['from']} > {told['destination_address']} {told['to']} {span}{short}"


def entry(told):
    """The line of a table."""
    front = f"segment {told['segment']} {told['address']} {told['place']}"
    return f"{front} fixed" if told["line"] == "fixed" else f"{front} seen {told['moment']} age {told['age']}"


def layer(told):
    """The line of a layer, without what it is begun by."""
    part = told["part"]
    if part == "stop":
        return f"stop {told['reason']} {told['name']}" if "reason" in told else f"stop {told['name']}"
    line = f"{part} {told['at']} {told['length']}"
    ways = {
        "ether": "{source_address} > {destination_address}",
        "tag": "{type} vid {vid} pcp {pcp} dei {dei}",
        "type": "{type}",
        "ip4": "{source_address} > {destination_address} ttl {ttl} length {ip_length} protocol {protocol}",
        "ip6": "{source_address} > {destination_address} hop-limit {hop_limit} length {ip_length} next-header {next_header}",
        "udp": "{source_port} > {destination_port} length {udp_length} checksum {checksum}",
        "vxlan": "vni {vni}",
        "geneve": "vni {vni} options {options}",
    }
    if len(told) > 3:
        line += " " + ways[part].format(**told)
    return line + (f" offset {told['offset']} more {told['more']}" if "offset" in told else "")


def look(told):
    """The line of a look at texts and captures."""
    kind = told["line"]
    if kind == "ok":
        return f"ok: {told['ports']} ports, {told['segments']} segments, {told['changes']} changes"
    if kind == "refused":
        return f"change {told['change']} at {told['moment']}: refused {told['cause']} {told['name']}"
    if kind == "below":
        return f"  {told['note']}"
    if kind == "note":
        counted = f" {told['count']}" if "count" in told else ""
        return f"{told['place']}:{counted} {told['note']}"
    style = "pcapng" if told["capture"] == "pcapng" else f"pcap {told['order']} {told['precision']}"
    noun = "record" if told["records"] == 1 else "records"
    span = f", first {told['first_second']}, last {told['last_second']}" if "first_second" in told else ""
    return f"{told['place']}: {style} ethernet, {told['records']} {noun}{span}"


def comparison(told):
    """The line of a comparison."""
    kind = told["line"]
    at = f"{told['place']}: " if "place" in told else ""
    if kind in ("counts", "segment", "no segment"):
        whose = {"counts": told.get("place"), "segment": f"segment {told.get('segment')}"}.get(kind, kind)
        counts = f"sent {told['sent']}, received {told['received']}, both {told['both']}"
        return f"{whose}: {counts}, sent alone {told['sent_alone']}, received alone {told['received_alone']}"
    if kind == "no capture":
        return f"{at}no capture"
    if kind == "cut records":
        return f"{at}cut: sent {told['sent']}, received {told['received']}"
    if kind == "ends cut":
        return f"{at}{told['side']}: cut"
    if kind == "length":
        counts = f"both {told['both']}, sent alone {told['sent_alone']}, received alone {told['received_alone']}"
        return f"{at}length {told['length']}: {counts}"
    if kind == "difference":
        where = " ".join(str(told[key]) for key in ("where", "vid", "vni") if key in told)
        what = f"{told['difference']} {told['received_value']} for {told['sent_value']}"
        return f"{at}{where}: {what}: {told['count']}, first record {told['received_record']} for {told['sent_record']}"
    if kind == "other differences":
        return f"{at}{kind}: {told['count']}"
    if kind == "delay":
        return f"{at}delay {told['delay']} {told['nanoseconds']}"
    if "moment" not in told:
        return f"{at}{kind} {told['count']}"
    at = f" {told['place']}" if "place" in told else ""
    line = f"{told['moment']}{at} {kind} length {told['length']} record {told['record']}"
    for key in ("where", "vid", "vni"):
        if key in told:
            line += f" {told[key]}"
    if "event" in told:
        line += f" event {told['event']}"
    return line + (f" {told['differs']}" if "differs" in told else "")


def whole(way):
    """A way to write a line, where one of no form is told as its text."""
    return lambda told: told["text"] if set(told) == {"text"} else way(told)


def event(told):
    """A line of a story or of an explanation: what a test saw, a decision line, a layer, or an entry of a table."""
    if "address" in told:
        return entry(told)
    if "fact" in told:
        return f"  {told['fact']}"
    return f"  {layer(told)}" if "part" in told else decision(told)


WAYS = {
    "decisions": lambda told: [decision(told)],
    "counts": lambda told: [count(told)],
    "tables": lambda told: [entry(told)],
    "events": lambda told: [event(told)],
    "looks": lambda told: [whole(look)(told)],
    "compared": lambda told: [whole(comparison)(told)],
}


def typed(told, types):
    """Notes of each key of an object, and of those within it, which types its values have."""
    for key, value in told.items():
        types.setdefault(key, set()).update({type(value).__name__} - {"NoneType"})
        for each in value if isinstance(value, list) else []:
            typed(each, types)


def keys(files):
    """Looks at the keys of all objects of files."""
    types = {}
    for file in files:
        for line in open(file, encoding="utf-8"):
            typed(json.loads(line), types)
    page = open("docs/formats/lines.md", encoding="utf-8").read()
    section = re.search(r"^## JSON$(.*?)^## ", page, re.M | re.S).group(1)
    told = set(re.findall(r"\w+", " ".join(re.findall(r"`([^`]*)`", section))))
    wrong = [f"{key} has the types {sorted(each)}" for key, each in sorted(types.items()) if len(each) != 1]
    wrong += [f"{key} stands nowhere in docs/formats/lines.md" for key in sorted(set(types) - told)]
    if wrong or len(types) < 50:
        sys.exit("\n".join(f"json_lines.py: {line}" for line in wrong or [f"only {len(types)} keys"]))


def main():
    if sys.argv[1] == "keys":
        return keys(sys.argv[2:])
    kind, text, objects = sys.argv[1:]
    told = []
    for line in open(objects, encoding="utf-8"):
        one = json.loads(line)
        if list(one) != sorted(one):
            sys.exit(f"json_lines.py: keys out of order: {line!r}")
        told += WAYS[kind](one)
    wanted = [line.removesuffix("\n") for line in open(text, encoding="utf-8")]
    if told != wanted:
        for left, right in zip(told + [None], wanted + [None]):
            if left != right:
                sys.exit(f"json_lines.py: {kind}: told {left!r}\n  for {right!r}")
        sys.exit(f"json_lines.py: {kind}: {len(told)} lines for {len(wanted)}")
    if not told:
        sys.exit(f"json_lines.py: {kind}: nothing is told")


main()
