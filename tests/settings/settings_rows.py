"""Settings and changes, each with its first fault by the rules, or "ok". What is expected comes from docs/formats/settings.md
and from the standard of TOML, never from a run."""

# The fewest keys, with a comment in each table that lines are put in place of.
FEWEST = """version = 1
[underlay]
mac = "02:00:00:00:aa:01"
next_hop = "02:00:00:00:aa:fe"
ip4 = "192.0.2.1"
# underlay
[[port]]
pvid = 10
# port
[[segment]]
vid = 10
vni = 5000
tunnel = "vxlan"
# segment
"""

# The keys of the underlay alone.
UNDERLAY = """version = 1
[underlay]
mac = "02:00:00:00:aa:01"
next_hop = "02:00:00:00:aa:fe"
ip4 = "192.0.2.1"
"""

# Parts of a text, what is put in their place, and the fault that it is; where there are two, the first in the order of
# the keys.
PARTS = [
    ("version = 1\n", "", "Missing version"),
    ("version = 1", "version = 4", "BadValue version"),
    ("version = 1", "version = true", "BadValue version"),
    ("version = 1", "version = 1\nname = 1", "BadValue *"),
    ("version = 1", "version = 1\npool = 0", "BadValue pool"),
    ("version = 1", "version = 1\npool = 65537", "BadValue pool"),
    ("version = 1", 'version = 1\npool = "256"', "BadValue pool"),
    ("version = 1", "version = 4\npool = 0", "BadValue version"),
    (
        'version = 1\n[underlay]\nmac = "02:00:00:00:aa:01"',
        "version = 1\npool = 0\n[underlay]\nmac = 2",
        "BadValue pool",
    ),
    # The one segment has the limit 256, which is where it isn't told.
    ("version = 1", "version = 1\npool = 255", "OverLimit pool"),
    ("version = 1", "version = 1\npool = 256", "ok"),
    ("version = 1", "version = 1\npool = 65536", "ok"),
    (
        'version = 1\n[underlay]\nmac = "02:00:00:00:aa:01"',
        "version = 1\npool = 255\n[underlay]\nmac = 2",
        "BadValue underlay.mac",
    ),
    ("version = 1\n[underlay]", "version = 1\nunderlay = 1\n[underlays]", "BadValue *"),
    ('mac = "02:00:00:00:aa:01"\n', "", "Missing underlay.mac"),
    ('mac = "02:00:00:00:aa:01"', 'mac = "03:00:00:00:aa:01"', "BadValue underlay.mac"),
    ('mac = "02:00:00:00:aa:01"', 'mac = "02-00-00-00-aa-01"', "BadValue underlay.mac"),
    ('mac = "02:00:00:00:aa:01"', "mac = 2", "BadValue underlay.mac"),
    ('next_hop = "02:00:00:00:aa:fe"\n', "", "Missing underlay.next_hop"),
    ('next_hop = "02:00:00:00:aa:fe"', 'next_hop = "ff:ff:ff:ff:ff:ff"', "BadValue underlay.next_hop"),
    ('ip4 = "192.0.2.1"\n', "", "Missing underlay.ip4"),
    ('ip4 = "192.0.2.1"', 'ip6 = "2001:db8::1"', "ok"),
    ('ip4 = "192.0.2.1"', 'ip4 = "224.0.0.1"', "BadValue underlay.ip4"),
    ('ip4 = "192.0.2.1"', 'ip4 = "0.0.0.0"', "BadValue underlay.ip4"),
    ('ip4 = "192.0.2.1"', 'ip4 = "255.255.255.255"', "BadValue underlay.ip4"),
    ('ip4 = "192.0.2.1"', 'ip4 = "192.0.2.01"', "BadValue underlay.ip4"),
    ('ip4 = "192.0.2.1"', "ip4 = 1", "BadValue underlay.ip4"),
    ("[[port]]\npvid = 10\n", "", "Missing port"),
    ("[[port]]\npvid = 10\n", "[[port]]\n", "Missing port.1.pvid"),
    ('[[segment]]\nvid = 10\nvni = 5000\ntunnel = "vxlan"\n', "", "Missing segment"),
    ("[[segment]]\nvid = 10\n", "[[segment]]\n", "Missing segment.1.vid"),
    ('vni = 5000\ntunnel = "vxlan"\n', 'tunnel = "gre"\n', "Missing segment.1.vni"),
    ('tunnel = "vxlan"\n', "", "Missing segment.1.tunnel"),
    ('tunnel = "vxlan"\n', "tunnel = true\nlimit = 0\n", "BadValue segment.1.tunnel"),
    ("[[segment]]\nvid = 10\n", "[[segment]]\nname = 1\n", "BadValue segment.1.*"),
    ("[[segment]]\nvid = 10\n", "[[segment]]\nvid = 0\nmtu = 1\n", "BadValue segment.1.*"),
]

# Whole texts.
WHOLE = [
    ("", "Missing version"),
    ("version = 1\n", "Missing underlay.mac"),
    ("version = 1\nunderlay = 1\n", "BadValue underlay"),
    ("version = 2\nunderlay = 1\n", "BadValue underlay"),
    ("version = 1\nversion = 1\n", "NotToml"),
    ("version", "NotToml"),
]

# Lines in place of the version, and no table but the underlay.
FIRST_LINES = [
    ("version = 1\nport = 1", "BadValue port"),
    ("version = 1\nport = []", "Missing port"),
    ("version = 1\nport = [1]", "BadValue port.1"),
    ("version = 1\nport = [{ pvid = 1 }]\nsegment = 1", "BadValue segment"),
    ("version = 1\nport = [{ pvid = 1 }]\nsegment = []", "Missing segment"),
    ("version = 1\nport = [{ pvid = 1 }]\nsegment = [{}, 1]", "Missing segment.1.vid"),
    (
        'version = 1\npool = 511\nport = [{ pvid = 1 }]\nsegment = [{ vid = 1, vni = 1, tunnel = "vxlan" }, '
        '{ vid = 2, vni = 2, tunnel = "vxlan" }]',
        "OverLimit pool",
    ),
    (
        'version = 1\npool = 511\nport = [{ pvid = 1 }]\nsegment = [{ vid = 1, vni = 1, tunnel = "vxlan" }, '
        '{ vid = 1, vni = 2, tunnel = "vxlan" }]',
        "TwoSegments segment.2",
    ),
    (
        'version = 1\npool = 1\nport = [{ pvid = 1 }]\nsegment = [{ vid = 1, vni = 1, tunnel = "vxlan", '
        'limit = 8192 }, { vid = 2, vni = 2, tunnel = "vxlan", limit = 8192 }, { vid = 3, vni = 3, '
        'tunnel = "vxlan", limit = 8192 }, { vid = 4, vni = 4, tunnel = "vxlan", limit = 8192 }, { vid = 5, '
        'vni = 5, tunnel = "vxlan", limit = 8192 }, { vid = 6, vni = 6, tunnel = "vxlan", limit = 8192 }, '
        '{ vid = 7, vni = 7, tunnel = "vxlan", limit = 8192 }, { vid = 8, vni = 8, tunnel = "vxlan", '
        'limit = 8192 }, { vid = 9, vni = 9, tunnel = "vxlan", limit = 1 }]',
        "OverLimit limit",
    ),
]

HOP = """[[underlay.hop]]
addr = "198.51.100.#"
mac = "02:00:00:00:00:01"
"""

SEGMENT = """[[segment]]
vid = 10
vni = 5000
tunnel = "vxlan"
"""

OF_LIMIT_0 = """[[segment]]
vid = #
vni = #
tunnel = "vxlan"
limit = 0
"""

OF_LIMIT_256 = """[[segment]]
vid = #
vni = #
tunnel = "vxlan"
limit = 256
"""

OF_LIMIT_257 = """[[segment]]
vid = #
vni = #
tunnel = "vxlan"
limit = 257
"""

OF_LIMIT_8192 = """[[segment]]
vid = #
vni = #
tunnel = "vxlan"
limit = 8192
"""

# A part of the fewest keys; the table that is put in its place, so often, each time with its number for `#`; the fault.
NUMBERED = [
    ("# port", "[[port]]\npvid = 10\n", 15, "ok"),
    ("# port", "[[port]]\npvid = 10\n", 16, "OverLimit port"),
    ("# underlay", HOP, 64, "ok"),
    ("# underlay", HOP, 65, "OverLimit underlay.hop"),
    (SEGMENT, OF_LIMIT_256, 256, "ok"),
    (SEGMENT, OF_LIMIT_0, 257, "OverLimit segment"),
    (SEGMENT, OF_LIMIT_8192, 8, "ok"),
    (SEGMENT, OF_LIMIT_8192, 9, "OverLimit limit"),
    (SEGMENT, OF_LIMIT_257, 256, "OverLimit limit"),
]

# Lines of the underlay, and the fault that they are.
UNDERLAY_LINES = [
    ("mtu = 1279", "BadValue underlay.mtu"),
    ("mtu = 65536", "BadValue underlay.mtu"),
    ("mtu = true", "BadValue underlay.mtu"),
    ("mtu = 1280", "ok"),
    ("ttl = 0", "BadValue underlay.ttl"),
    ("ttl = 256", "BadValue underlay.ttl"),
    ('ttl = "64"', "BadValue underlay.ttl"),
    ("vxlan_port = 0", "BadValue underlay.vxlan_port"),
    ("vxlan_port = 65536", "BadValue underlay.vxlan_port"),
    ("vxlan_port = 6081", "BadValue underlay.geneve_port"),
    ("geneve_port = 0", "BadValue underlay.geneve_port"),
    ("geneve_port = 4789", "BadValue underlay.geneve_port"),
    ("geneve_port = 65536", "BadValue underlay.geneve_port"),
    ("sum4 = 1", "BadValue underlay.sum4"),
    ("sum6 = 0", "BadValue underlay.sum6"),
    ('zero6 = "true"', "BadValue underlay.zero6"),
    ('ip6 = "::"', "BadValue underlay.ip6"),
    ('ip6 = "ff02::1"', "BadValue underlay.ip6"),
    ('ip6 = "192.0.2.1"', "BadValue underlay.ip6"),
    ("ip6 = 6", "BadValue underlay.ip6"),
    ("known = 1", "BadValue underlay.known"),
    ("known = [1]", "BadValue underlay.known"),
    ("known = [[1]]", "BadValue underlay.known"),
    ("known = [[1, 2, 3]]", "BadValue underlay.known"),
    ("known = [[65536, 0]]", "BadValue underlay.known"),
    ("known = [[0, 256]]", "BadValue underlay.known"),
    ("known = [[0, -1]]", "BadValue underlay.known"),
    ("known = [[1, 2], [0x1, 0b10]]", "BadValue underlay.known"),
    ("known = [1, 1, 1, 1, 1, 1, 1, 1, 1, 1, 1, 1, 1, 1, 1, 1, 1]", "OverLimit underlay.known"),
    ("hop = 1", "BadValue underlay.hop"),
    ("hop = []", "ok"),
    ("hop = [1]", "BadValue underlay.hop.1"),
    ("hop = [{}]", "Missing underlay.hop.1.addr"),
    ("hop = [{ port = 1 }]", "BadValue underlay.hop.1.*"),
    ('hop = [{ addr = "239.1.1.1", mac = "02:00:00:00:00:01" }]', "BadValue underlay.hop.1.addr"),
    ('hop = [{ addr = "0.0.0.0", mac = "02:00:00:00:00:01" }]', "BadValue underlay.hop.1.addr"),
    ('hop = [{ addr = "192.0.2.1" }]', "Missing underlay.hop.1.mac"),
    ('hop = [{ addr = "192.0.2.9", mac = "03:00:00:00:00:01" }]', "BadValue underlay.hop.1.mac"),
    (
        'hop = [{ addr = "2001:db8::9", mac = "02:00:00:00:00:01" }, { addr = "2001:DB8:0::09" }]',
        "BadValue underlay.hop.2.addr",
    ),
    ("gateway = 1", "BadValue underlay.*"),
]

# Lines of the port.
PORT_LINES = [
    ('accept = "none"', "BadValue port.1.accept"),
    ("accept = true", "BadValue port.1.accept"),
    ("up = 1", "BadValue port.1.up"),
    ("speed = 1", "BadValue port.1.*"),
    ("[[port]]", "Missing port.2.pvid"),
    ("[[port]]\npvid = 0", "BadValue port.2.pvid"),
    ("[[port]]\npvid = 4095", "BadValue port.2.pvid"),
    ("[[port]]\npvid = true", "BadValue port.2.pvid"),
]

# Lines of the segment.
SEGMENT_LINES = [
    ("limit = 0", "BadValue segment.1.limit"),
    ("limit = 8193", "BadValue segment.1.limit"),
    ("ageing = 9", "BadValue segment.1.ageing"),
    ("ageing = 1000001", "BadValue segment.1.ageing"),
    ("ageing = 10.0", "BadValue segment.1.ageing"),
    ("learn = 1", "BadValue segment.1.learn"),
    ('peers = "none"', "BadValue segment.1.peers"),
    ("peers = false", "BadValue segment.1.peers"),
    ('tags = "keep"', "BadValue segment.1.tags"),
    ('tags = "never"', "BadValue segment.1.tags"),
    ("untagged = 1", "BadValue segment.1.untagged"),
    ('untagged = ["1"]', "BadValue segment.1.untagged"),
    ("untagged = [0]", "BadValue segment.1.untagged"),
    ("untagged = [2]", "BadValue segment.1.untagged"),
    ("untagged = [1, 1]", "BadValue segment.1.untagged"),
    ("untagged = [1, 2, 3, 4, 5, 6, 7, 8, 9, 10, 11, 12, 13, 14, 15, 16, 17]", "BadValue segment.1.untagged"),
    ("tagged = [2]", "BadValue segment.1.tagged"),
    ("tagged = [1, 1]", "BadValue segment.1.tagged"),
    ("untagged = [1]\ntagged = [1]", "BadValue segment.1.tagged"),
    ('flood = "192.0.2.2"', "BadValue segment.1.flood"),
    ("flood = [2]", "BadValue segment.1.flood"),
    ('flood = ["192.0.2.02"]', "BadValue segment.1.flood"),
    ('flood = ["255.255.255.255"]', "BadValue segment.1.flood"),
    ('flood = ["192.0.2.1"]', "BadValue segment.1.flood"),
    ('flood = ["2001:db8::2"]', "BadValue segment.1.flood"),
    ('flood = ["192.0.2.2", "192.0.2.2"]', "BadValue segment.1.flood"),
    ("flood = [0, 0, 0, 0, 0, 0, 0, 0, 0, 0, 0, 0, 0, 0, 0, 0, 0]", "OverLimit segment.1.flood"),
    ("group = 0", "BadValue segment.1.*"),
    ("[[segment]]", "Missing segment.2.vid"),
    ("[[segment]]\nvid = 0", "BadValue segment.2.vid"),
    ("[[segment]]\nvid = 4095", "BadValue segment.2.vid"),
    ("[[segment]]\nvid = true", "BadValue segment.2.vid"),
    ("[[segment]]\nvid = 20", "Missing segment.2.vni"),
    ("[[segment]]\nvid = 20\nvni = -1", "BadValue segment.2.vni"),
    ("[[segment]]\nvid = 20\nvni = 16777216", "BadValue segment.2.vni"),
    ("[[segment]]\nvid = 20\nvni = 0", "Missing segment.2.tunnel"),
    ('[[segment]]\nvid = 20\nvni = 16777215\ntunnel = "gre"', "BadValue segment.2.tunnel"),
    ('[[segment]]\nvid = 10\nvni = 6000\ntunnel = "geneve"', "TwoSegments segment.2"),
    ('[[segment]]\nvid = 20\nvni = 5000\ntunnel = "vxlan"', "TwoSegments segment.2"),
    ('[[segment]]\nvid = 20\nvni = 5000\ntunnel = "geneve"', "ok"),
]

# Settings of version 2.

# The fewest keys, with comments that lines are put in place of.
FEWEST_2 = """version = 2
[underlay]
mac = "02:00:00:00:aa:01"
next_hop = "02:00:00:00:aa:fe"
ip4 = "192.0.2.1"
[[port]]
pvid = 10
[[segment]]
vid = 10
# segment
[[segment.tunnel]]
kind = "vxlan"
# first
vni = 5000
# second
"""

# The table of its tunnel.
TUNNEL = """[[segment.tunnel]]
kind = "vxlan"
# first
vni = 5000
"""

# Parts of the fewest keys, what is put in their place, and the fault that it is; where there are two, the first in
# the order of the keys.
PARTS_2 = [
    ("version = 2", "version = 2", "ok"),
    # The keys are those of version 1 as well.
    ("version = 2", "version = 1", "Missing segment.1.vni"),
    ("version = 2", "version = 0", "BadValue version"),
    # The keys of version 1.
    ("# segment", "vni = 5000", "BadValue segment.1.*"),
    ("# segment", "flood = []", "BadValue segment.1.*"),
    ("[[segment]]\nvid = 10\n", "[[segment]]\nvid = 0\nvni = 0\n", "BadValue segment.1.*"),
    (
        'vid = 10\n# segment\n[[segment.tunnel]]\nkind = "vxlan"\n',
        '[[segment.tunnel]]\nkind = "gre"\n',
        "Missing segment.1.vid",
    ),
    (TUNNEL, "", "Missing segment.1.tunnel"),
    (TUNNEL, "tunnel = []\n", "Missing segment.1.tunnel"),
    (TUNNEL, 'tunnel = "vxlan"\n', "BadValue segment.1.tunnel"),
    (TUNNEL, "tunnel = {}\n", "BadValue segment.1.tunnel"),
    (TUNNEL, "tunnel = [1]\n", "BadValue segment.1.tunnel.1"),
    # Its items aren't looked at.
    (TUNNEL, "tunnel = [1, 2, 3]\n", "OverLimit segment.1.tunnel"),
    (TUNNEL, "tunnel = [{}, 2]\n", "Missing segment.1.tunnel.1.kind"),
    (TUNNEL, 'tunnel = [{ kind = "geneve", vni = 0 }, 2]\n', "BadValue segment.1.tunnel.2"),
    (TUNNEL, "tunnel = [{ vni = 0, group = 0, flood = [] }]\n", "Missing segment.1.tunnel.1.kind"),
    (TUNNEL, 'tunnel = [{ kind = "gre" }]\n', "BadValue segment.1.tunnel.1.kind"),
    (TUNNEL, "tunnel = [{ kind = 4789 }]\n", "BadValue segment.1.tunnel.1.kind"),
    (TUNNEL, 'tunnel = [{ kind = "gre", name = 1 }]\n', "BadValue segment.1.tunnel.1.*"),
    (TUNNEL, 'tunnel = [{ kind = "vxlan", group = 256 }]\n', "Missing segment.1.tunnel.1.vni"),
    (TUNNEL, 'tunnel = [{ kind = "vxlan", vni = 16777216, group = 256 }]\n', "BadValue segment.1.tunnel.1.vni"),
    ("# first", "limit = 256", "BadValue segment.1.tunnel.1.*"),
    ("# first", "group = 255", "ok"),
    ("# first", "group = 256\nflood = 1", "BadValue segment.1.tunnel.1.group"),
    ("# first", "group = -1", "BadValue segment.1.tunnel.1.group"),
    ("# first", "flood = 1", "BadValue segment.1.tunnel.1.flood"),
    ("# first", 'flood = ["192.0.2.1"]', "BadValue segment.1.tunnel.1.flood"),
    ("# first", 'flood = ["192.0.2.2", "192.0.2.2"]', "BadValue segment.1.tunnel.1.flood"),
    ("# first", "flood = [0, 0, 0, 0, 0, 0, 0, 0, 0, 0, 0, 0, 0, 0, 0, 0, 0]", "OverLimit segment.1.tunnel.1.flood"),
    # The tunnels come behind `vid` and before the other keys.
    ("# segment", "limit = 0", "BadValue segment.1.limit"),
    (
        '# segment\n[[segment.tunnel]]\nkind = "vxlan"\n',
        "limit = 0\n[[segment.tunnel]]\n",
        "Missing segment.1.tunnel.1.kind",
    ),
    (
        '# segment\n[[segment.tunnel]]\nkind = "vxlan"\n# first\n',
        'limit = 0\n[[segment.tunnel]]\nkind = "vxlan"\nflood = 1\n',
        "BadValue segment.1.tunnel.1.flood",
    ),
    ("# second", "[[segment]]\nvid = 20", "Missing segment.2.tunnel"),
    ("# second", '[[segment]]\nvid = 10\n[[segment.tunnel]]\nkind = "geneve"\nvni = 0', "TwoSegments segment.2"),
    ("# second", '[[segment]]\nvid = 20\n[[segment.tunnel]]\nkind = "vxlan"\nvni = 5000', "TwoSegments segment.2"),
    ("# second", '[[segment]]\nvid = 20\n[[segment.tunnel]]\nkind = "geneve"\nvni = 5000', "ok"),
    (
        "# second",
        '[[segment]]\nvid = 20\n[[segment.tunnel]]\nkind = "geneve"\nvni = 1\n[[segment.tunnel]]\nkind = "vxlan"\nvni = 5000',
        "TwoSegments segment.2",
    ),
    # It comes last of all keys.
    (
        "# second",
        '[[segment]]\nvid = 10\ntagged = 1\n[[segment.tunnel]]\nkind = "vxlan"\nvni = 5000',
        "BadValue segment.2.tagged",
    ),
    (
        "# second",
        '[[segment]]\nvid = 10\n[[segment.tunnel]]\nkind = "vxlan"\nvni = 5000\nflood = 1',
        "BadValue segment.2.tunnel.1.flood",
    ),
]

# Settings of version 3: those of version 2, `limits`, `partial` and a word of `tags`.
FEWEST_3 = FEWEST_2.replace("version = 2", "version = 3")

# A key of the underlay, behind which lines are put.
OWN = 'ip4 = "192.0.2.1"\n'

PARTS_3 = [
    ("version = 3", "version = 3", "ok"),
    ("version = 3", "version = 3\n[limits]", "ok"),
    ("version = 3", "version = 3\n[limits]\nsegments = 1", "ok"),
    ("version = 3", "version = 3\nlimits = { segments = 4094 }", "ok"),
    ("version = 3", "version = 3\n[limits]\nsegments = 0", "BadValue limits.segments"),
    ("version = 3", "version = 3\n[limits]\nsegments = 4095", "BadValue limits.segments"),
    ("version = 3", "version = 3\n[limits]\nsegments = -1", "BadValue limits.segments"),
    ("version = 3", "version = 3\n[limits]\nsegments = 256.0", "BadValue limits.segments"),
    ("version = 3", 'version = 3\n[limits]\nsegments = "256"', "BadValue limits.segments"),
    ("version = 3", "version = 3\n[limits]\nsegment = 256", "BadValue limits.*"),
    ("version = 3", "version = 3\n[limits]\nports = 0\nport = 16", "BadValue limits.*"),
    ("version = 3", "version = 3\n[limits]\nports = 1", "ok"),
    ("version = 3", "version = 3\n[limits]\nports = 255", "ok"),
    ("version = 3", "version = 3\n[limits]\nports = 0", "BadValue limits.ports"),
    ("version = 3", "version = 3\n[limits]\nports = 256", "BadValue limits.ports"),
    ("version = 3", "version = 3\n[limits]\nports = -1", "BadValue limits.ports"),
    ("version = 3", "version = 3\n[limits]\nports = 16.0", "BadValue limits.ports"),
    ("version = 3", 'version = 3\n[limits]\nports = "16"', "BadValue limits.ports"),
    ("version = 3", "version = 3\n[limits]\nflood = 1", "ok"),
    ("version = 3", "version = 3\nlimits = { flood = 512 }", "ok"),
    ("version = 3", "version = 3\n[limits]\nflood = 0", "BadValue limits.flood"),
    ("version = 3", "version = 3\n[limits]\nflood = 513", "BadValue limits.flood"),
    ("version = 3", "version = 3\n[limits]\nflood = -1", "BadValue limits.flood"),
    ("version = 3", "version = 3\n[limits]\nflood = 16.0", "BadValue limits.flood"),
    ("version = 3", 'version = 3\n[limits]\nflood = "16"', "BadValue limits.flood"),
    ("version = 3", 'version = 3\n[limits]\nflood = ["192.0.2.2"]', "BadValue limits.flood"),
    ("version = 3", "version = 3\n[limits]\nfloods = 16", "BadValue limits.*"),
    ("version = 3", "version = 3\n[limits]\nhops = 1", "ok"),
    ("version = 3", "version = 3\n[limits]\nhops = 4096", "ok"),
    ("version = 3", "version = 3\n[limits]\nhops = 0", "BadValue limits.hops"),
    ("version = 3", "version = 3\n[limits]\nhops = 4097", "BadValue limits.hops"),
    ("version = 3", "version = 3\n[limits]\nhops = true", "BadValue limits.hops"),
    ("version = 3", "version = 3\n[limits]\nhops = []", "BadValue limits.hops"),
    ("version = 3", "version = 3\n[limits]\nentries = 1\naddresses = 1048576", "ok"),
    ("version = 3", "version = 3\n[limits]\nentries = 131072\naddresses = 256", "ok"),
    ("version = 3", "version = 3\n[limits]\nentries = 0", "BadValue limits.entries"),
    ("version = 3", "version = 3\n[limits]\nentries = 131073", "BadValue limits.entries"),
    ("version = 3", "version = 3\n[limits]\nentries = true", "BadValue limits.entries"),
    ("version = 3", "version = 3\n[limits]\naddresses = 0", "BadValue limits.addresses"),
    ("version = 3", "version = 3\n[limits]\naddresses = 1048577", "BadValue limits.addresses"),
    ("version = 3", "version = 3\n[limits]\naddresses = [1]", "BadValue limits.addresses"),
    # In this order: ports, segments, flood, hops, entries, addresses.
    ("version = 3", "version = 3\n[limits]\naddresses = 0\nentries = 0", "BadValue limits.entries"),
    ("version = 3", "version = 3\n[limits]\nentries = 0\nhops = 0", "BadValue limits.hops"),
    ("version = 3", "version = 3\n[limits]\nhops = 0\nflood = 0", "BadValue limits.flood"),
    ("version = 3", "version = 3\n[limits]\nflood = 0\nsegments = 0", "BadValue limits.segments"),
    ("version = 3", "version = 3\n[limits]\nsegments = 0\nports = 0", "BadValue limits.ports"),
    # Segments times remotes are at most 1,048,576.
    ("version = 3", "version = 3\n[limits]\nsegments = 2048\nflood = 512", "ok"),
    ("version = 3", "version = 3\n[limits]\nsegments = 2049\nflood = 512", "OverLimit limits.flood"),
    ("version = 3", "version = 3\n[limits]\nsegments = 4094\nflood = 256", "ok"),
    ("version = 3", "version = 3\n[limits]\nsegments = 4094\nflood = 257", "OverLimit limits.flood"),
    ("version = 3", "version = 3\n[limits]\nflood = 257\nsegments = 4094", "OverLimit limits.flood"),
    ("version = 3", "version = 3\n[limits]\nsegments = 4080\nflood = 257", "ok"),
    ("version = 3", "version = 3\n[limits]\nsegments = 4081\nflood = 257", "OverLimit limits.flood"),
    ("version = 3", "version = 3\n[limits]\nsegments = 4094\nflood = 512", "OverLimit limits.flood"),
    ("version = 3", "version = 3\nlimits = { flood = 512, segments = 4094 }", "OverLimit limits.flood"),
    # That is asked behind all keys of the table, and before what stands behind it. Where it is refused, a pool may have the most.
    ("version = 3", "version = 3\n[limits]\nsegments = 4094\nflood = 512\nfloods = 1", "BadValue limits.*"),
    ("version = 3", "version = 3\n[limits]\nsegments = 4095\nflood = 512", "BadValue limits.segments"),
    ("version = 3", "version = 3\n[limits]\nsegments = 4094\nflood = 513", "BadValue limits.flood"),
    ("version = 3", "version = 3\n[limits]\nsegments = 4094\nflood = 512\nhops = 0", "BadValue limits.hops"),
    ("version = 3", "version = 3\n[limits]\nsegments = 4094\nflood = 512\nentries = 0", "BadValue limits.entries"),
    ("version = 3", "version = 3\n[limits]\nsegments = 4094\nflood = 512\naddresses = 0", "BadValue limits.addresses"),
    ("version = 3", "version = 3\npool = 0\n[limits]\nsegments = 4094\nflood = 512", "BadValue pool"),
    ("version = 3", "version = 3\npool = 65537\n[limits]\nsegments = 4094\nflood = 256", "BadValue pool"),
    ("version = 3", "version = 3\npool = 65537\n[limits]\nsegments = 4094\nflood = 257", "OverLimit limits.flood"),
    ("version = 3", "version = 3\npool = 1048577\n[limits]\nsegments = 4094\nflood = 512", "BadValue pool"),
    (
        'version = 3\n[underlay]\nmac = "02',
        'version = 3\n[limits]\nsegments = 4094\nflood = 512\n[underlay]\nmac = "03',
        "OverLimit limits.flood",
    ),
    # A limit, within the most entries of a segment; where none is given it is 256, or the most.
    ("# segment", "limit = 8192", "ok"),
    ("# segment", "limit = 8193", "BadValue segment.1.limit"),
    ("version = 3", "version = 3\n[limits]\naddresses = 1048576", "ok"),
    ("version = 3", "version = 3\n[limits]\naddresses = 255", "OverLimit limit"),
    ("version = 3", "version = 3\n[limits]\nentries = 255\naddresses = 255", "ok"),
    ("version = 3", "version = 3\n[limits]\nentries = 255\naddresses = 254", "OverLimit limit"),
    # A pool, within the addresses.
    ("version = 3", "version = 3\npool = 65536", "ok"),
    ("version = 3", "version = 3\npool = 65537", "BadValue pool"),
    ("version = 3", "version = 3\npool = 65537\n[limits]\naddresses = 65537", "ok"),
    ("version = 3", "version = 3\npool = 1048576\n[limits]\naddresses = 1048576", "ok"),
    ("version = 3", "version = 3\npool = 1048577\n[limits]\naddresses = 1048576", "BadValue pool"),
    ("version = 3", "version = 3\npool = 65536\n[limits]\naddresses = 65535", "BadValue pool"),
    ("version = 3", "version = 3\npool = 65537\nlimits = 1", "BadValue limits"),
    ("version = 3", "version = 3\npool = 1048576\nlimits = 1", "BadValue limits"),
    ("version = 3", "version = 3\npool = 1048577\nlimits = 1", "BadValue pool"),
    ("version = 3", "version = 2\npool = 65537", "BadValue pool"),
    ("version = 3", "version = 3\nlimits = 256", "BadValue limits"),
    ("version = 3", "version = 3\n[[limits]]\nsegments = 256", "BadValue limits"),
    # They come behind `pool` and before `underlay`.
    ("version = 3", "version = 3\npool = 0\nlimits = 1", "BadValue pool"),
    ('version = 3\n[underlay]\nmac = "02', 'version = 3\n[limits]\nsegments = 0\n[underlay]\nmac = "03', "BadValue limits.segments"),
    # Where the version isn't 3 there is no such key, and no other one is like it.
    ("version = 3", "version = 2\n[limits]", "BadValue *"),
    ("version = 3", "version = 1\nlimits = { segments = 256 }", "BadValue *"),
    ("version = 3", "version = 2\n[limits]\nports = 16", "BadValue *"),
    ("version = 3", "version = 1\nlimits = { hops = 64 }", "BadValue *"),
    ("version = 3", "version = 2\n[limits]\nflood = 16", "BadValue *"),
    ("version = 3", "version = 1\nlimits = { flood = 16 }", "BadValue *"),
    ("version = 3", "version = 4\n[limits]", "BadValue *"),
    ("version = 3", "version = 3.0\n[limits]", "BadValue *"),
    ("version = 3", 'version = "3"\n[limits]', "BadValue *"),
    ("version = 3\n", "[limits]\n", "BadValue *"),
    ("version = 3", "version = 3\nlimit = 1", "BadValue *"),
    (OWN, OWN + "partial = true\n", "ok"),
    (OWN, OWN + "partial = false\n", "ok"),
    (OWN, OWN + "partial = 1\n", "BadValue underlay.partial"),
    (OWN, OWN + 'partial = "true"\n', "BadValue underlay.partial"),
    # It comes behind `zero6` and before `known`.
    (OWN, OWN + "partial = 1\nzero6 = 1\n", "BadValue underlay.zero6"),
    (OWN, OWN + "known = 1\npartial = 1\n", "BadValue underlay.partial"),
    # Other versions don't have it.
    ("version = 3\n[underlay]\n", "version = 2\n[underlay]\npartial = true\n", "BadValue underlay.*"),
    ('version = 3\n[underlay]\nmac = "02:00:00:00:aa:01"', "version = 1\n[underlay]\npartial = 1\nmac = 1", "BadValue underlay.*"),
    # A word of `tags` that other versions don't have.
    ("# segment", 'tags = "never"', "ok"),
    ("# segment", 'tags = "drop"', "ok"),
    ("# segment", 'tags = "pass"', "ok"),
    ("# segment", 'tags = "keep"', "BadValue segment.1.tags"),
    ("# segment", 'tags = "never"\nuntagged = 1', "BadValue segment.1.untagged"),
    ("# segment", 'tags = "never"\npeers = 1', "BadValue segment.1.peers"),
    # The tunnels are told as in version 2.
    ("# segment", "vni = 5000", "BadValue segment.1.*"),
    ("# segment", "flood = []", "BadValue segment.1.*"),
    (TUNNEL, "", "Missing segment.1.tunnel"),
    (TUNNEL, 'tunnel = "vxlan"\n', "BadValue segment.1.tunnel"),
    ("# first", "group = 256\nflood = 1", "BadValue segment.1.tunnel.1.group"),
]

# Lines behind the version 3, the limit of each segment, how many there are, and the fault that it is.
MANY = [
    ("", 1, 256, "ok"),
    ("", 1, 257, "OverLimit segment"),
    ("[limits]\n", 1, 257, "OverLimit segment"),
    ("[limits]\nsegments = 257\n", 1, 257, "ok"),
    ("[limits]\nsegments = 257\n", 0, 258, "OverLimit segment"),
    ("[limits]\nsegments = 2\n", 1, 2, "ok"),
    ("[limits]\nsegments = 2\n", 0, 3, "OverLimit segment"),
    ("[limits]\nsegments = 4094\n", 16, 4094, "ok"),
    ("[limits]\nsegments = 4094\n", 17, 4094, "OverLimit limit"),
    ("[limits]\nsegments = 4094\n", 0, 4095, "OverLimit segment"),
    # All share the pool.
    ("pool = 65503\n[limits]\nsegments = 4094\n", 16, 4094, "OverLimit pool"),
    ("pool = 65504\n[limits]\nsegments = 4094\n", 16, 4094, "ok"),
    ("[limits]\nsegments = 4094\naddresses = 262016\n", 64, 4094, "ok"),
    ("[limits]\nsegments = 4094\naddresses = 262015\n", 64, 4094, "OverLimit limit"),
    # The most of one segment is not that of all.
    ("[limits]\nentries = 131072\naddresses = 262144\n", 131072, 2, "ok"),
    ("[limits]\nentries = 131072\naddresses = 262144\n", 131072, 3, "OverLimit limit"),
    ("[limits]\nentries = 131072\naddresses = 1048576\n", 131072, 8, "ok"),
    ("[limits]\nentries = 131072\naddresses = 1048576\n", 131072, 9, "OverLimit limit"),
    ("[limits]\nentries = 131072\naddresses = 1048576\n", 131073, 1, "BadValue segment.1.limit"),
    ("[limits]\naddresses = 1048576\n", 8193, 1, "BadValue segment.1.limit"),
    ("[limits]\nentries = 256\n", 257, 1, "BadValue segment.1.limit"),
    ("[limits]\nentries = 131072\n", 65536, 1, "ok"),
    ("[limits]\nentries = 131072\n", 65537, 1, "OverLimit limit"),
]

# A port.
PORT = "[[port]]\npvid = 10\n"

# A next hop, to an address of the number `#`.
HOP_6 = """[[underlay.hop]]
addr = "2001:db8::#"
mac = "02:00:00:00:00:01"
"""

# Lines behind the version 3; the key or table behind which a table is put, the table, how often it stands there, each time with its
# number for `#`, and the fault. There is a port already.
TABLES_3 = [
    ("", PORT, PORT, 15, "ok"),
    ("", PORT, PORT, 16, "OverLimit port"),
    ("[limits]\n", PORT, PORT, 16, "OverLimit port"),
    ("[limits]\nsegments = 4094\nhops = 4096\n", PORT, PORT, 16, "OverLimit port"),
    ("[limits]\nports = 17\n", PORT, PORT, 16, "ok"),
    ("[limits]\nports = 17\n", PORT, PORT, 17, "OverLimit port"),
    ("[limits]\nports = 1\n", PORT, PORT, 0, "ok"),
    ("[limits]\nports = 1\n", PORT, PORT, 1, "OverLimit port"),
    ("[limits]\nports = 255\n", PORT, PORT, 254, "ok"),
    ("[limits]\nports = 255\n", PORT, PORT, 255, "OverLimit port"),
    # Its items aren't looked at.
    ("[limits]\nports = 2\n", PORT, "[[port]]\n", 2, "OverLimit port"),
    # The last of 255 ports, and the last of 4,096 next hops.
    ("[limits]\nports = 255\n", PORT, PORT * 253 + "[[port]]\npvid = 0\n", 1, "BadValue port.255.pvid"),
    ("[limits]\nports = 255\n", PORT, PORT * 253 + "[[port]]\npvid = 10\nspeed = 1\n", 1, "BadValue port.255.*"),
    ("", OWN, HOP_6, 64, "ok"),
    ("", OWN, HOP_6, 65, "OverLimit underlay.hop"),
    ("[limits]\nports = 255\nsegments = 4094\n", OWN, HOP_6, 65, "OverLimit underlay.hop"),
    ("[limits]\nhops = 65\n", OWN, HOP_6, 65, "ok"),
    ("[limits]\nhops = 65\n", OWN, HOP_6, 66, "OverLimit underlay.hop"),
    ("[limits]\nhops = 1\n", OWN, HOP_6, 1, "ok"),
    ("[limits]\nhops = 1\n", OWN, HOP_6, 2, "OverLimit underlay.hop"),
    ("[limits]\nhops = 4096\n", OWN, HOP_6, 4096, "ok"),
    ("[limits]\nhops = 4096\n", OWN, HOP_6, 4097, "OverLimit underlay.hop"),
    ("[limits]\nhops = 2\n", OWN, "[[underlay.hop]]\n", 3, "OverLimit underlay.hop"),
]

# Lines of the one segment where there are 255 ports, and the fault that they are.
MEMBERS_3 = [
    ("untagged = [255]", "ok"),
    ("untagged = [256]", "BadValue segment.1.untagged"),
    ("tagged = [256]", "BadValue segment.1.tagged"),
    ("untagged = [0]", "BadValue segment.1.untagged"),
    ("untagged = [255, 1, 255]", "BadValue segment.1.untagged"),
    ("untagged = [17]\ntagged = [16, 17]", "BadValue segment.1.tagged"),
    (f"untagged = {list(range(1, 256))}", "ok"),
    (f"tagged = {list(range(255, 0, -1))}", "ok"),
    (f"untagged = {list(range(1, 129))}\ntagged = {list(range(129, 256))}", "ok"),
    (f"untagged = {list(range(1, 129))}\ntagged = {list(range(128, 256))}", "BadValue segment.1.tagged"),
    (f"untagged = {list(range(1, 257))}", "BadValue segment.1.untagged"),
]

# Keys of a second table of tunnels, and the fault that they are. The first table floods to as many as are told.
SECOND = [
    (0, "", "Missing segment.1.tunnel.2.kind"),
    (0, 'kind = "vxlan"\nvni = 6000', "BadValue segment.1.tunnel.2.kind"),
    (0, 'kind = "vxlan"', "BadValue segment.1.tunnel.2.kind"),
    (0, 'kind = "vxlan"\nname = 1', "BadValue segment.1.tunnel.2.*"),
    (0, 'kind = "geneve"', "Missing segment.1.tunnel.2.vni"),
    (0, 'kind = "geneve"\nvni = -1', "BadValue segment.1.tunnel.2.vni"),
    (0, 'kind = "geneve"\nvni = 5000', "ok"),
    (0, 'kind = "geneve"\nvni = 9000\ngroup = true\nflood = 1', "BadValue segment.1.tunnel.2.group"),
    (1, 'kind = "geneve"\nvni = 9000\nflood = ["192.0.2.1"]', "BadValue segment.1.tunnel.2.flood"),
    (1, 'kind = "geneve"\nvni = 9000\nflood = ["198.51.100.1"]', "ok"),
    (15, 'kind = "geneve"\nvni = 9000\nflood = ["198.51.100.1"]', "ok"),
    (15, 'kind = "geneve"\nvni = 9000\nflood = [0, 0]', "OverLimit segment.1.tunnel.2.flood"),
    (16, 'kind = "geneve"\nvni = 9000\nflood = ["198.51.100.1"]', "OverLimit segment.1.tunnel.2.flood"),
    (16, 'kind = "geneve"\nvni = 9000\nflood = []', "ok"),
    (17, 'kind = "geneve"\nvni = 9000\nflood = [0]', "OverLimit segment.1.tunnel.1.flood"),
]

# Lines behind the version 3; how many remotes the first tunnel floods to, and the second, where there is one; and the fault.
FLOODS_3 = [
    ("", 16, None, "ok"),
    ("", 17, None, "OverLimit segment.1.tunnel.1.flood"),
    ("[limits]\n", 17, None, "OverLimit segment.1.tunnel.1.flood"),
    ("[limits]\nports = 255\nsegments = 4094\nhops = 4096\n", 17, None, "OverLimit segment.1.tunnel.1.flood"),
    ("", 15, 1, "ok"),
    ("", 16, 0, "ok"),
    ("", 16, 1, "OverLimit segment.1.tunnel.2.flood"),
    ("[limits]\nflood = 17\n", 17, None, "ok"),
    ("[limits]\nflood = 17\n", 18, None, "OverLimit segment.1.tunnel.1.flood"),
    ("[limits]\nflood = 17\n", 16, 1, "ok"),
    ("[limits]\nflood = 17\n", 16, 2, "OverLimit segment.1.tunnel.2.flood"),
    ("[limits]\nflood = 17\n", 17, 0, "ok"),
    ("[limits]\nflood = 17\n", 17, 1, "OverLimit segment.1.tunnel.2.flood"),
    ("[limits]\nflood = 17\n", 0, 17, "ok"),
    ("[limits]\nflood = 17\n", 0, 18, "OverLimit segment.1.tunnel.2.flood"),
    ("[limits]\nflood = 17\n", 18, 18, "OverLimit segment.1.tunnel.1.flood"),
    # Fewer than there may be without it.
    ("[limits]\nflood = 15\n", 15, None, "ok"),
    ("[limits]\nflood = 15\n", 16, None, "OverLimit segment.1.tunnel.1.flood"),
    ("[limits]\nflood = 15\n", 14, 2, "OverLimit segment.1.tunnel.2.flood"),
    ("[limits]\nflood = 1\n", 1, None, "ok"),
    ("[limits]\nflood = 1\n", 2, None, "OverLimit segment.1.tunnel.1.flood"),
    ("[limits]\nflood = 1\n", 0, 1, "ok"),
    ("[limits]\nflood = 1\n", 1, 1, "OverLimit segment.1.tunnel.2.flood"),
    ("[limits]\nflood = 40\n", 40, None, "ok"),
    ("[limits]\nflood = 40\n", 41, None, "OverLimit segment.1.tunnel.1.flood"),
    ("[limits]\nflood = 40\n", 1, 39, "ok"),
    ("[limits]\nflood = 40\n", 1, 40, "OverLimit segment.1.tunnel.2.flood"),
    ("[limits]\nsegments = 4094\nflood = 256\n", 256, None, "ok"),
    ("[limits]\nsegments = 4094\nflood = 256\n", 257, None, "OverLimit segment.1.tunnel.1.flood"),
    ("[limits]\nflood = 512\n", 512, None, "ok"),
    ("[limits]\nflood = 512\n", 513, None, "OverLimit segment.1.tunnel.1.flood"),
    ("[limits]\nflood = 512\n", 256, 256, "ok"),
    ("[limits]\nflood = 512\n", 256, 257, "OverLimit segment.1.tunnel.2.flood"),
    ("[limits]\nflood = 512\n", 512, 0, "ok"),
    ("[limits]\nflood = 512\n", 512, 1, "OverLimit segment.1.tunnel.2.flood"),
    ("[limits]\nflood = 512\n", 0, 512, "ok"),
    ("[limits]\nflood = 512\n", 0, 513, "OverLimit segment.1.tunnel.2.flood"),
    ("[limits]\nsegments = 2048\nflood = 512\n", 511, 1, "ok"),
]

# Where there may be 512: how many remotes stand in the first list, from 198.18.0.0 on, and the item behind them; the same of the
# second list; and the fault.
LAST_3 = [
    (16, '"198.18.0.1"', 0, "", "BadValue segment.1.tunnel.1.flood"),
    (16, '"192.0.2.1"', 0, "", "BadValue segment.1.tunnel.1.flood"),
    (511, '"239.1.1.1"', 0, "", "ok"),
    (511, '"198.18.0.1"', 0, "", "BadValue segment.1.tunnel.1.flood"),
    (511, '"198.18.1.254"', 0, "", "BadValue segment.1.tunnel.1.flood"),
    (511, '"192.0.2.1"', 0, "", "BadValue segment.1.tunnel.1.flood"),
    (511, '"2001:db8::2"', 0, "", "BadValue segment.1.tunnel.1.flood"),
    (511, '"255.255.255.255"', 0, "", "BadValue segment.1.tunnel.1.flood"),
    (511, "0", 0, "", "BadValue segment.1.tunnel.1.flood"),
    # An address that is the other tunnel's, too, is none twice.
    (255, '"239.1.1.1"', 255, '"239.1.1.1"', "ok"),
    (255, '"239.1.1.1"', 255, '"198.18.0.1"', "BadValue segment.1.tunnel.2.flood"),
    (255, '"239.1.1.1"', 255, "0", "BadValue segment.1.tunnel.2.flood"),
    # Items of a list that is too long aren't looked at.
    (512, "0", 0, "", "OverLimit segment.1.tunnel.1.flood"),
    (255, '"239.1.1.1"', 256, "0", "OverLimit segment.1.tunnel.2.flood"),
]

# How many remotes each segment floods to, where there may be 512, and the fault: each has as many to itself.
SEVERAL_3 = [
    ((512, 512, 512), "ok"),
    ((512, 512, 513), "OverLimit segment.3.tunnel.1.flood"),
    ((0, 513, 0), "OverLimit segment.2.tunnel.1.flood"),
    ((512, 17, 16, 0, 512), "ok"),
]

# A segment of the number `#` with two tunnels.
TWO = """[[segment]]
vid = #
[[segment.tunnel]]
kind = "geneve"
vni = #
[[segment.tunnel]]
kind = "vxlan"
vni = #
"""

# Segments whose tunnels are their parts, in place of the first segment, and the fault that they are.
SEGMENTS = [
    (
        'segment = [{ vid = 1, tunnel = [{ kind = "vxlan", vni = 1 }, { kind = "geneve", vni = 2 }] }, { vid = 2, '
        'tunnel = [{ kind = "geneve", vni = 2 }] }]',
        "TwoSegments segment.2",
    ),
    (
        'segment = [{ vid = 1, tunnel = [{ kind = "vxlan", vni = 1 }, { kind = "geneve", vni = 2 }] }, { vid = 2, '
        'tunnel = [{ kind = "geneve", vni = 1 }, { kind = "vxlan", vni = 2 }] }]',
        "ok",
    ),
    (
        'segment = [{ vid = 1, tunnel = [{ kind = "vxlan", vni = 1 }, { kind = "geneve", vni = 2 }] }, { vid = 2, '
        'tunnel = [{ kind = "vxlan", vni = 3 }] }, { vid = 3, tunnel = [{ kind = "geneve", vni = 1 }, '
        '{ kind = "vxlan", vni = 3 }] }]',
        "TwoSegments segment.3",
    ),
    (
        'segment = [{ vid = 1, tunnel = [{ kind = "vxlan", vni = 1 }] }, { vid = 1, tunnel = [{ kind = "geneve", vni = 1 }] }]',
        "TwoSegments segment.2",
    ),
]

# Settings of version 1 as those of version 2.

# Two segments, one of them without a flood list, with comments, and with keys in no order.
OLD = """# an endpoint
version = 1 # the first
[[port]]
up = false
pvid = 10
[[segment]]
vni = 5000
vid = 10
untagged = [1] # one port
tunnel = "vxlan"
flood = ["192.0.2.2", "192.0.2.3"]
limit = 7
[[segment]]
tunnel = "geneve"
vid = 20
vni = 6000
[underlay]
next_hop = "02:00:00:00:aa:fe"
mac = "02:00:00:00:aa:01"
ip4 = "192.0.2.1"
"""

# The same in version 2, written by hand: the keys of each table in the order of their octets, first those of one line,
# then the tables (TOML 1.0.0), and an empty line before each header.
NEW = """version = 2

[[port]]
pvid = 10
up = false

[[segment]]
limit = 7
untagged = [1]
vid = 10

[[segment.tunnel]]
flood = ["192.0.2.2", "192.0.2.3"]
kind = "vxlan"
vni = 5000

[[segment]]
vid = 20

[[segment.tunnel]]
kind = "geneve"
vni = 6000

[underlay]
ip4 = "192.0.2.1"
mac = "02:00:00:00:aa:01"
next_hop = "02:00:00:00:aa:fe"
"""

# Settings of version 3 keep their version and their keys.
NEW_3 = NEW.replace("version = 2", "version = 3") + "partial = true\n"

# Changes.

# The keys of one change, and the fault that they are; where there are two, the first in the order of the keys.
CHANGES = [
    ("at = 5", "Missing change.1.kind"),
    ('kind = "reset"', "BadValue change.1.kind"),
    ("kind = 1", "BadValue change.1.kind"),
    ('kind = "flush"\nport = 1', "BadValue change.1.*"),
    ('kind = "flush"', "Missing change.1.at"),
    ('kind = "flush"\nat = -1', "BadValue change.1.at"),
    ('kind = "flush"\nat = 4294967296000000000', "BadValue change.1.at"),
    ('kind = "flush"\nat = true', "BadValue change.1.at"),
    ('kind = "flush"\nat = 1.0', "BadValue change.1.at"),
    ('kind = "flush"\nat = 0', "Missing change.1.vid"),
    ('kind = "flush"\nat = 0\nvid = 0', "BadValue change.1.vid"),
    ('kind = "flush"\nat = 0\nvid = 4095', "BadValue change.1.vid"),
    ('kind = "flush"\nat = 0\nvid = "10"', "BadValue change.1.vid"),
    ('kind = "add_flood"\nat = 0\nvid = 1', "Missing change.1.addr"),
    ('kind = "add_flood"\nat = 0\nvid = 1\naddr = "1.2.3"', "BadValue change.1.addr"),
    ('kind = "add_flood"\nat = 0\nvid = 1\naddr = "1.2.3.4"\ntunnel = "gre"', "BadValue change.1.tunnel"),
    ('kind = "remove_flood"\nat = 0\nvid = 1\ntunnel = "gre"', "Missing change.1.addr"),
    ('kind = "remove_flood"\nat = 0\nvid = 1\naddr = "::1"\ntunnel = 1', "BadValue change.1.tunnel"),
    ('kind = "fix"\nat = 0\nvid = 1', "Missing change.1.mac"),
    ('kind = "fix"\nat = 0\nvid = 1\nmac = "02"', "BadValue change.1.mac"),
    ('kind = "fix"\nat = 0\nvid = 1\nmac = "02:00:00:00:00:01"', "Missing change.1.port"),
    ('kind = "fix"\nat = 0\nvid = 1\nmac = "02:00:00:00:00:01"\ntunnel = "gre"', "Missing change.1.port"),
    ('kind = "fix"\nat = 0\nvid = 1\nmac = "02:00:00:00:00:01"\nport = 256\nremote = "::1"', "BadValue change.1.port"),
    ('kind = "fix"\nat = 0\nvid = 1\nmac = "02:00:00:00:00:01"\nport = 1\nremote = "::1"', "BadValue change.1.remote"),
    ('kind = "fix"\nat = 0\nvid = 1\nmac = "02:00:00:00:00:01"\nremote = "1"', "BadValue change.1.remote"),
    (
        'kind = "fix"\nat = 0\nvid = 1\nmac = "02:00:00:00:00:01"\nport = 1\ntunnel = "vxlan"',
        "BadValue change.1.tunnel",
    ),
    ('kind = "fix"\nat = 0\nvid = 1\nmac = "02:00:00:00:00:01"\nport = 1\ntunnel = 1', "BadValue change.1.tunnel"),
    (
        'kind = "fix"\nat = 0\nvid = 1\nmac = "02:00:00:00:00:01"\nremote = "::1"\ntunnel = "gre"',
        "BadValue change.1.tunnel",
    ),
    ('kind = "unfix"\nat = 0\nvid = 1', "Missing change.1.mac"),
    ('kind = "unfix"\nat = 0\nvid = 1\nmac = "0:0:0:0:0:1"', "BadValue change.1.mac"),
    ('kind = "set_ageing"\nat = 0\nvid = 1', "Missing change.1.seconds"),
    ('kind = "set_ageing"\nat = 0\nvid = 1\nseconds = 4294967296', "BadValue change.1.seconds"),
    ('kind = "set_ageing"\nat = 0\nvid = 1\nseconds = 0', "ok"),
    ('kind = "set_learning"\nat = 0\nvid = 1', "Missing change.1.on"),
    ('kind = "set_learning"\nat = 0\nvid = 1\non = 1', "BadValue change.1.on"),
    ('kind = "set_member"\nat = 0\nvid = 1', "Missing change.1.port"),
    ('kind = "set_member"\nat = 0\nvid = 1\nport = -1', "BadValue change.1.port"),
    ('kind = "set_member"\nat = 0\nvid = 1\nport = 1', "Missing change.1.egress"),
    ('kind = "set_member"\nat = 0\nvid = 1\nport = 1\negress = false', "BadValue change.1.egress"),
    ('kind = "port_up"\nat = 0', "Missing change.1.port"),
    ('kind = "port_down"\nat = 0\nport = 256', "BadValue change.1.port"),
    ('kind = "port_down"\nat = 0\nport = 1\nvid = 1', "BadValue change.1.*"),
]

# Whole texts, and the fault that they are.
LISTS = [
    ("", "ok"),
    ("change = []", "ok"),
    ("change = 1", "BadValue change"),
    ("change = {}", "BadValue change"),
    ("change = [1]", "BadValue change.1"),
    ("changes = []", "BadValue *"),
    ("change = 1\nname = 1", "BadValue *"),
    ("version = 2", "ok"),
    ("change = []\nversion = 2", "ok"),
    ("version = 2\nname = 1", "BadValue *"),
    ("version = 1", "BadValue version"),
    ("version = 3\nchange = 1", "BadValue version"),
    ('version = "2"', "BadValue version"),
    ("[version]", "BadValue version"),
    ("version = 2\nchange = 1", "BadValue change"),
    ("version = 2\n[[change]]\nversion = 2", "Missing change.1.kind"),
    ("change", "NotToml"),
    ('change = [{ kind = "flush", at = 5, vid = 1 }, { kind = "flush", at = 4, vid = 1 }]', "NotRising change.2"),
    ('change = [{ kind = "flush", at = 5, vid = 1 }, { kind = "flush", at = 4, vid = 0 }]', "BadValue change.2.vid"),
    ('change = [{ kind = "flush", at = 5, vid = 1 }, { kind = "flush", at = 5, vid = 1 }]', "ok"),
]

# The keys of one change of the kind `add_segment`, and the fault that they are; where there are two, the first in the
# order of the keys.
ADDED = [
    ('vid = 1\nvni = 1\ntunnel = "vxlan"', "Missing change.1.at"),
    ("at = 0\nvni = 16777216", "Missing change.1.vid"),
    ("at = 0\nvid = 4095", "BadValue change.1.vid"),
    ('at = 0\nvid = 1\ntunnel = "gre"', "Missing change.1.vni"),
    ("at = 0\nvid = 1\nvni = 16777216", "BadValue change.1.vni"),
    ("at = 0\nvid = 1\nvni = 0\nlimit = -1", "Missing change.1.tunnel"),
    ('at = 0\nvid = 1\nvni = 0\ntunnel = "gre"\nlimit = -1', "BadValue change.1.tunnel"),
    ('at = 0\nvid = 1\nvni = 0\ntunnel = "gre"\ngroup = -1', "BadValue change.1.tunnel"),
    ('at = 0\nvid = 1\nvni = 0\ntunnel = "vxlan"\ngroup = 256\nvni2 = -1', "BadValue change.1.group"),
    ('at = 0\nvid = 1\nvni = 0\ntunnel = "vxlan"\nvni2 = 16777216\ngroup2 = -1', "BadValue change.1.vni2"),
    ('at = 0\nvid = 1\nvni = 0\ntunnel = "vxlan"\nvni2 = 0\ngroup2 = 256\nlimit = -1', "BadValue change.1.group2"),
    ('at = 0\nvid = 1\nvni = 0\ntunnel = "vxlan"\ngroup2 = 0', "BadValue change.1.group2"),
    ('at = 0\nvid = 1\nvni = 0\ntunnel = "vxlan"\ngroup2 = "two"\nlimit = -1', "BadValue change.1.group2"),
    ('at = 0\nvid = 1\nvni = 0\ntunnel = "vxlan"\nvni2 = 0\nlimit = -1', "BadValue change.1.limit"),
    ('at = 0\nvid = 1\nvni = 0\ntunnel = "vxlan"\nvni2 = 0\ntunnel2 = "geneve"', "BadValue change.1.*"),
    ('at = 0\nvid = 1\nvni = 7\ntunnel = "vxlan"\nvni2 = 7', "ok"),
    ('at = 0\nvid = 1\nvni = 0\ntunnel = "geneve"\ngroup = 0\nvni2 = 16777215\ngroup2 = 255', "ok"),
    ('at = 0\nvid = 1\nvni = 0\ntunnel = "vxlan"\nlimit = 4294967296\nageing = -1', "BadValue change.1.limit"),
    ('at = 0\nvid = 1\nvni = 0\ntunnel = "vxlan"\nlimit = -1', "BadValue change.1.limit"),
    ('at = 0\nvid = 1\nvni = 0\ntunnel = "vxlan"\nageing = 4294967296\nlearn = 1', "BadValue change.1.ageing"),
    ('at = 0\nvid = 1\nvni = 0\ntunnel = "vxlan"\nlearn = 1\npeers = 1', "BadValue change.1.learn"),
    ('at = 0\nvid = 1\nvni = 0\ntunnel = "vxlan"\npeers = "none"\ntags = 1', "BadValue change.1.peers"),
    ('at = 0\nvid = 1\nvni = 0\ntunnel = "vxlan"\ntags = "keep"', "BadValue change.1.tags"),
    ('at = 0\nvid = 1\nvni = 0\ntunnel = "vxlan"\ntags = "never"', "ok"),
    ('at = -1\nvid = 1\nvni = 0\ntunnel = "vxlan"\nflood = []', "BadValue change.1.*"),
    ('at = 0\nvid = 1\nvni = 0\ntunnel = "vxlan"\nuntagged = []', "BadValue change.1.*"),
    ('at = 0\nvid = 1\nvni = 0\ntunnel = "vxlan"\nlearning = true', "BadValue change.1.*"),
    ('at = 0\nvid = 1\nvni = 0\ntunnel = "vxlan"\nlimit = 8193\nageing = 9', "ok"),
    ('at = 0\nvid = 1\nvni = 0\ntunnel = "vxlan"\nlimit = 4294967295\nageing = 0', "ok"),
]

# The same of the kind `remove_segment`.
REMOVED = [
    ("vid = 1", "Missing change.1.at"),
    ("at = 0", "Missing change.1.vid"),
    ("at = 0\nvid = 0", "BadValue change.1.vid"),
    ("at = 0\nvid = 1\nvni = 1", "BadValue change.1.*"),
    ("at = 0\nvid = 1", "ok"),
]

# The same of the kind `set_limit`.
LIMITED = [
    ("at = 0\nlimit = true", "Missing change.1.vid"),
    ("at = 0\nvid = 1", "Missing change.1.limit"),
    ("at = 0\nvid = 1\nlimit = 4294967296", "BadValue change.1.limit"),
    ('at = 0\nvid = 1\nlimit = "1"', "BadValue change.1.limit"),
    ("at = 0\nvid = 1\nlimit = 1\nageing = 10", "BadValue change.1.*"),
    ("at = 0\nvid = 1\nseconds = 1", "BadValue change.1.*"),
    ("at = 0\nvid = 1\nlimit = 0", "ok"),
]

# Texts that nobody would write.

# Lines in place of the version, and the fault that they are.
STRANGE_LINES = [
    # an integer in other spellings; TOML has no others, and none beyond 64 bits
    ("version = +1\n", "ok"),
    ("version = 0x1\n", "ok"),
    ("version = 0o1\n", "ok"),
    ("version = 0b1\n", "ok"),
    ("version = 01\n", "NotToml"),
    ("version = _1\n", "NotToml"),
    ("version = 1_\n", "NotToml"),
    ("version = 1__0\n", "NotToml"),
    ("version = 0X1\n", "NotToml"),
    ("version = -0x1\n", "NotToml"),
    ("version = 0x\n", "NotToml"),
    ("version = 1_0\n", "BadValue version"),
    ("version = 4294967297\n", "BadValue version"),
    ("version = 9223372036854775807\n", "BadValue version"),
    ("version = -9223372036854775808\n", "BadValue version"),
    ("version = 9223372036854775808\n", "NotToml"),
    ("version = -9223372036854775809\n", "NotToml"),
    ("version = 18446744073709551617\n", "NotToml"),
    ("version = 340282366920938463463374607431768211457\n", "NotToml"),
    ("version = 0x10000000000000001\n", "NotToml"),
    # other types
    ("version = 1.0\n", "BadValue version"),
    ("version = 1e40\n", "BadValue version"),
    ("version = inf\n", "BadValue version"),
    ("version = -nan\n", "BadValue version"),
    ("version = 1.\n", "NotToml"),
    ("version = 1979-05-27T07:32:00Z\n", "BadValue version"),
    ("version = 1979-05-27\n", "BadValue version"),
    ("version = 07:32:00.999999\n", "BadValue version"),
    ("version = 1979-13-27\n", "NotToml"),
    ('version = "1"\n', "BadValue version"),
    ("version = '''1'''\n", "BadValue version"),
    ("version = {a = 1}\n", "BadValue version"),
    # a key twice
    ('version = 1\n"version" = 1\n', "NotToml"),
    ('version = 1\n"\\u0076ersion" = 1\n', "NotToml"),
    ("version.a = 1\nversion = 1\n", "NotToml"),
    ("version = {a = 1, a = 1}\n", "NotToml"),
    ("version = 1\n[underlay]\n", "NotToml"),
    # a key in another spelling, and the key of nothing
    ('"ver\\u0073ion" = 1\n', "ok"),
    ('version = 1\n"" = 1\n', "BadValue *"),
    # escapes: of surrogates, beyond Unicode, unknown; and of NUL, which is one
    ('version = "\\uD800"\n', "NotToml"),
    ('version = "\\uD83D\\uDE00"\n', "NotToml"),
    ('version = "\\UFFFFFFFF"\n', "NotToml"),
    ('version = "\\q"\n', "NotToml"),
    ('version = "\\u0000"\n', "BadValue version"),
    # what isn't closed, or isn't one value
    ('version = """1\n', "NotToml"),
    ("version = [1\n", "NotToml"),
    ("version = 1 1\n", "NotToml"),
    ("= 1\n", "NotToml"),
]

# Octets in place of the version's line: the settings in another encoding, overlong and surrogate characters, half a
# character, what is beyond Unicode, control characters in a comment, in a string and alone, a carriage return alone.
STRANGE_OCTETS = [
    b'\xff\xfev\x00e\x00r\x00s\x00i\x00o\x00n\x00 \x00=\x00 \x001\x00\n\x00',
    b'\x00v\x00e\x00r\x00s\x00i\x00o\x00n\x00 \x00=\x00 \x001\x00\n',
    b'version = 1 # \xc0\x80\n',
    b'version = 1 # \xed\xa0\x80\n',
    b'version = 1 # \xf4\x90\x80\x80\n',
    b'version = 1 # \x80\n',
    b'version = 1 # \xe2\x82\n',
    b'version = 1 # \x00\n',
    b'version = 1 # \x1b[2J\n',
    b'version = "\x7f"\n',
    b"version = '\x08'\n",
    b'version = """\x0c"""\n',
    b'\x1aversion = 1\n',
    b'version = 1\rversion = 1\n',
]

# Lines in front of the settings, with 100,000 characters or lines for `#`, and the fault that they are.
LONG_LINES = [
    ("# = 1\n", "x", "BadValue *"),
    ("'#' = 1\n", "x", "BadValue *"),
    ("a.# = 1\n", "x", "BadValue *"),
    ("#\n", "#", "ok"),
    ("#", "\n", "ok"),
]

# Texts, and the fault that they are.
STRANGE_CHANGES = [
    ("", "ok"),
    ("# nothing but a comment", "ok"),
    ("\ufeff\ufeff", "NotToml"),
    ("change", "NotToml"),
    ("change = [[[]]]\n", "BadValue change.1"),
    ("change = [[], {}]\n", "BadValue change.1"),
    ("change = [1.5]\n", "BadValue change.1"),
    ("[change]\n", "BadValue change"),
    ("[change.change]\n", "BadValue change"),
    ("[[change.change]]\n", "BadValue change"),
    ("[[change]]\n[change]\n", "NotToml"),
    ("change = []\n[[change]]\n", "NotToml"),
    ("[[change]]\n", "Missing change.1.kind"),
    ("[[change]]\nkind = 1979-05-27\n", "BadValue change.1.kind"),
    ("[[change]]\nkind = 'flush'\nat = 4294967295999999999\nvid = 10\n", "ok"),
    ("[[change]]\nkind = 'flush'\nat = 4294967296000000000\nvid = 10\n", "BadValue change.1.at"),
    ("[[change]]\nkind = 'flush'\nat = 18446744073709551616\nvid = 10\n", "NotToml"),
    ("[[change]]\nkind = 'flush'\nat = -1\nvid = 10\n", "BadValue change.1.at"),
    ("[[change]]\nkind = 'flush'\nat = 1.0\nvid = 10\n", "BadValue change.1.at"),
    ("[[change]]\nkind = 'flush'\nat = 0\nvid = 10\nvid = 10\n", "NotToml"),
]

# Addresses, each with its parts written out.
ADDRESSES = [
    ("192.0.2.235", "192.0.2.235"),
    ("0.10.100.255", "0.10.100.255"),
    ("198.51.100.7", "198.51.100.7"),
    ("ABCD:EF01:2345:6789:ABCD:EF01:2345:6789", "abcd:ef01:2345:6789:abcd:ef01:2345:6789"),
    ("2001:DB8:0:0:8:800:200C:417A", "2001:0db8:0000:0000:0008:0800:200c:417a"),
    ("2001:DB8::8:800:200C:417A", "2001:0db8:0000:0000:0008:0800:200c:417a"),
    ("2001:db8:0::8:800:200c:417a", "2001:0db8:0000:0000:0008:0800:200c:417a"),
    ("FF01:0:0:0:0:0:0:101", "ff01:0000:0000:0000:0000:0000:0000:0101"),
    ("FF01::101", "ff01:0000:0000:0000:0000:0000:0000:0101"),
    ("0:0:0:0:0:0:0:1", "0000:0000:0000:0000:0000:0000:0000:0001"),
    ("::1", "0000:0000:0000:0000:0000:0000:0000:0001"),
    ("::", "0000:0000:0000:0000:0000:0000:0000:0000"),
    ("0::0", "0000:0000:0000:0000:0000:0000:0000:0000"),
    ("1:2:3:4:5:6:7::", "0001:0002:0003:0004:0005:0006:0007:0000"),
]

# What is no address.
NO_ADDRESSES = [
    "",
    "localhost",
    "192.0.2",
    "192.0.2.1.1",
    "192.0.2.256",
    "192.0.2.01",
    "192.0.2.00",
    "192.0.2.",
    "192..2.1",
    "192.0.2.1 ",
    "192.0.2.-1",
    "192.0.2.0x1",
    "192.0.2.1000",
    ":",
    ":::",
    "1:2:3:4:5:6:7",
    "1:2:3:4:5:6:7:8:9",
    "1:2:3:4:5:6:7::8",
    "1:2:3:4::5:6:7:8",
    "2001:db8:0:0::8:800:200c:417a",
    "::1:2:3:4:5:6:7:8",
    "1::2::3",
    "1:::2",
    ":1::2",
    "1::2:",
    "12345::",
    "g::",
    "::192.0.2.1",
    "fe80::1%1",
    "2001:db8::/32",
]

# MAC addresses in small letters, and what is none.
MACS = [("02:00:5E:10:fa:Bc", "02:00:5e:10:fa:bc")]

NO_MACS = [
    "",
    "02:00:00:00:00",
    "02:00:00:00:00:00:00",
    "2:00:00:00:00:00",
    "002:00:00:00:00:00",
    "02-00-00-00-00-00",
    "02:00:00:00:00:0g",
    "02:00:00:00:00:00 ",
    ":02:00:00:00:00:00",
    "02:00:00:00:00:00:",
]

# Segments whose limits sum to 512, and to 73,728.
SMALL = '[[segment]]\nvid = #\n[[segment.tunnel]]\nkind = "vxlan"\nvni = #\n'
TWO_OF_256 = "".join(SMALL.replace("#", str(k)) for k in (1, 2))
NINE_OF_8192 = "".join(SMALL.replace("vid = #", "vid = #\nlimit = 8192").replace("#", str(k)) for k in range(1, 10))

# A flood list of 17 items, none of them an address.
NO_ADDRESS_17 = f"flood = {[0] * 17}"

# Settings in a file S that are refused, and all that is told of each.
TOLD_SETTINGS = [
    # A key misspelled.
    (
        'version = 1\n[underlay]\nmac = "02:00:00:00:00:01"\n  nexthop = "02:00:00:00:00:fe"\n',
        "S:4:3: BadValue underlay.*\n  found: nexthop\n  did you mean: next_hop\n  keys: mac next_hop ip4 ip6 mtu ttl"
        " vxlan_port geneve_port sum4 sum6 zero6 known hop\n",
    ),
    # A key of version 3, misspelled, and in version 2.
    (
        'version = 3\n[underlay]\nmac = "02:00:00:00:00:01"\nnext_hop = "02:00:00:00:00:fe"\npartal = true\n',
        "S:5:1: BadValue underlay.*\n  found: partal\n  did you mean: partial\n  keys: mac next_hop ip4 ip6 mtu ttl"
        " vxlan_port geneve_port sum4 sum6 zero6 partial known hop\n",
    ),
    (
        'version = 2\n[underlay]\nmac = "02:00:00:00:00:01"\nnext_hop = "02:00:00:00:00:fe"\npartial = true\n',
        "S:5:1: BadValue underlay.*\n  found: partial\n  keys: mac next_hop ip4 ip6 mtu ttl"
        " vxlan_port geneve_port sum4 sum6 zero6 known hop\n",
    ),
    (
        'version = 3\n[underlay]\nmac = "02:00:00:00:00:01"\nnext_hop = "02:00:00:00:00:fe"\nip4 = "192.0.2.1"\n'
        "partial = 1\n",
        "S:6:1: BadValue underlay.partial\n  found: 1\n  allowed: true or false\n",
    ),
    # The limits.
    (
        "version = 3\n[limit]\nsegments = 300\n",
        "S:2:1: BadValue *\n  found: limit\n  did you mean: limits\n  keys: version pool limits underlay port segment\n",
    ),
    (
        "version = 2\n[limits]\nsegments = 300\n",
        "S:2:1: BadValue *\n  found: limits\n  keys: version pool underlay port segment\n",
    ),
    (
        "version = 3\n[limits]\nsegment = 300\n",
        "S:3:1: BadValue limits.*\n  found: segment\n  did you mean: segments\n  keys: ports segments flood hops entries addresses\n",
    ),
    (
        "version = 3\n[limits]\nport = 17\n",
        "S:3:1: BadValue limits.*\n  found: port\n  did you mean: ports\n  keys: ports segments flood hops entries addresses\n",
    ),
    (
        "version = 3\n[limits]\nports = 256\n",
        "S:3:1: BadValue limits.ports\n  found: 256\n  allowed: a number, 1 to 255\n",
    ),
    (
        "version = 3\n[limits]\nfloods = 17\n",
        "S:3:1: BadValue limits.*\n  found: floods\n  did you mean: flood\n  keys: ports segments flood hops entries addresses\n",
    ),
    (
        "version = 3\n[limits]\nflood = 513\n",
        "S:3:1: BadValue limits.flood\n  found: 513\n  allowed: a number, 1 to 512\n",
    ),
    (
        "version = 3\n[limits]\nflood = 257 # each\nsegments = 4094\n",
        "S:3:1: OverLimit limits.flood\n  found: 257 # each\n  allowed: limits.segments times limits.flood is 1048576 at most\n",
    ),
    (
        "version = 3\n[limits]\nhops = 4097\n",
        "S:3:1: BadValue limits.hops\n  found: 4097\n  allowed: a number, 1 to 4096\n",
    ),
    (
        "version = 3\n[limits]\naddresses = 1048577\n",
        "S:3:1: BadValue limits.addresses\n  found: 1048577\n  allowed: a number, 1 to 1048576\n",
    ),
    (
        "version = 3\n[limits]\nsegments = 5000\n",
        "S:3:1: BadValue limits.segments\n  found: 5000\n  allowed: a number, 1 to 4094\n",
    ),
    (
        "version = 3\n[limits]\nentries = 131073\n",
        "S:3:1: BadValue limits.entries\n  found: 131073\n  allowed: a number, 1 to 131072\n",
    ),
    # What the limits may raise.
    (
        "version = 3\npool = 65537\n",
        "S:2:1: BadValue pool\n  found: 65537\n  allowed: a number, 1 to 65536, or to limits.addresses where it is given;"
        " limits.addresses raises it, up to 1048576\n",
    ),
    (
        "version = 2\npool = 65537\n",
        "S:2:1: BadValue pool\n  found: 65537\n  allowed: a number, 1 to 65536; version 3 with limits.addresses raises it\n",
    ),
    (
        FEWEST_2.replace("version = 2", "version = 3").replace("# segment", "limit = 8193"),
        "S:10:1: BadValue segment.1.limit\n  found: 8193\n"
        "  allowed: a number, 1 to 8192, or to limits.entries where it is given; limits.entries raises it, up to 131072\n",
    ),
    (
        FEWEST_2.replace("# segment", "limit = 8193"),
        "S:10:1: BadValue segment.1.limit\n  found: 8193\n"
        "  allowed: a number, 1 to 8192; version 3 with limits.entries raises it\n",
    ),
    # A port more than there may be.
    (
        FEWEST_2.split("[[port]]")[0].replace("version = 2", "version = 3\n[limits]\nports = 2") + "[[port]]\n" * 3,
        "S:8:1: OverLimit port\n  found: [[port]]\n"
        "  allowed: 1 to 16 tables, or to limits.ports where it is given, each headed [[port]];"
        " limits.ports raises it, up to 255\n",
    ),
    (
        FEWEST_2.split("[[port]]")[0] + "[[port]]\n" * 17,
        "S:6:1: OverLimit port\n  found: [[port]]\n"
        "  allowed: 1 to 16 tables, each headed [[port]]; version 3 with limits.ports raises it\n",
    ),
    # A next hop more than there may be.
    (
        FEWEST_2.split("[[port]]")[0].replace("version = 2", "version = 3\n[limits]\nhops = 1") + "[[underlay.hop]]\n" * 2,
        "S:8:1: OverLimit underlay.hop\n  found: [[underlay.hop]]\n"
        "  allowed: at most 64 tables with addr and mac, or as many as limits.hops says where it is given, each headed"
        " [[underlay.hop]]; limits.hops raises it, up to 4096\n",
    ),
    (
        FEWEST_2.split("[[port]]")[0] + "[[underlay.hop]]\n" * 65,
        "S:6:1: OverLimit underlay.hop\n  found: [[underlay.hop]]\n"
        "  allowed: at most 64 tables with addr and mac, each headed [[underlay.hop]]; version 3 with limits.hops raises it\n",
    ),
    # A remote more than a segment's flood list may have.
    (
        FEWEST.replace("# segment", NO_ADDRESS_17),
        "S:14:1: OverLimit segment.1.flood\n  found: [0, 0, 0, 0, 0, 0, 0, 0, 0, 0, 0, 0, 0, 0, 0, 0, 0]\n"
        "  allowed: a list of at most 16 addresses in quotes, groups too, none twice, none 0.0.0.0, 255.255.255.255, ::, an own"
        " address, or of a family without an own address; version 3 with limits.flood raises it\n",
    ),
    (
        FEWEST_2.replace("# first", NO_ADDRESS_17),
        "S:13:1: OverLimit segment.1.tunnel.1.flood\n  found: [0, 0, 0, 0, 0, 0, 0, 0, 0, 0, 0, 0, 0, 0, 0, 0, 0]\n"
        "  allowed: a list of addresses in quotes, groups too, at most 16 over both tables, none twice, none 0.0.0.0,"
        " 255.255.255.255, ::, an own address, or of a family without an own address; version 3 with limits.flood raises it\n",
    ),
    (
        FEWEST_2.replace("version = 2", "version = 3").replace("# first", NO_ADDRESS_17),
        "S:13:1: OverLimit segment.1.tunnel.1.flood\n  found: [0, 0, 0, 0, 0, 0, 0, 0, 0, 0, 0, 0, 0, 0, 0, 0, 0]\n"
        "  allowed: a list of addresses in quotes, groups too, at most 16 over both tables, or as many as limits.flood says"
        " where it is given, none twice, none 0.0.0.0, 255.255.255.255, ::, an own address, or of a family without an own"
        " address; limits.flood raises it, up to 512\n",
    ),
    (
        FEWEST_2.replace("version = 2", "version = 3\n[limits]\nflood = 2")
        .replace("# first", 'flood = ["192.0.2.2"]')
        .replace("# second", '[[segment.tunnel]]\nkind = "geneve"\nvni = 6000\nflood = ["192.0.2.2", "192.0.2.3"]'),
        'S:20:1: OverLimit segment.1.tunnel.2.flood\n  found: ["192.0.2.2", "192.0.2.3"]\n'
        "  allowed: a list of addresses in quotes, groups too, at most 16 over both tables, or as many as limits.flood says"
        " where it is given, none twice, none 0.0.0.0, 255.255.255.255, ::, an own address, or of a family without an own"
        " address; limits.flood raises it, up to 512\n",
    ),
    # An address that may not stand there, in version 3.
    (
        FEWEST_2.replace("version = 2", "version = 3").replace("# first", 'flood = ["192.0.2.1"]'),
        'S:13:1: BadValue segment.1.tunnel.1.flood\n  found: ["192.0.2.1"]\n'
        "  allowed: a list of addresses in quotes, groups too, at most 16 over both tables, or as many as limits.flood says"
        " where it is given, none twice, none 0.0.0.0, 255.255.255.255, ::, an own address, or of a family without an own"
        " address\n",
    ),
    # A segment more than there may be.
    (
        FEWEST_2.split("[[segment]]")[0].replace("version = 2", "version = 3\n[limits]\nsegments = 2") + "[[segment]]\n" * 3,
        "S:10:1: OverLimit segment\n  found: [[segment]]\n"
        "  allowed: 1 to 256 tables, or to limits.segments where it is given, each headed [[segment]];"
        " limits.segments raises it, up to 4094\n",
    ),
    (
        FEWEST_2.split("[[segment]]")[0] + "[[segment]]\n" * 257,
        "S:8:1: OverLimit segment\n  found: [[segment]]\n"
        "  allowed: 1 to 256 tables, each headed [[segment]]; version 3 with limits.segments raises it\n",
    ),
    # No segment at all.
    (
        FEWEST_2.split("[[segment]]")[0],
        "S: Missing segment\n  allowed: 1 to 256 tables, each headed [[segment]]\n",
    ),
    # More addresses than there may be.
    (
        FEWEST_2.split("[[segment]]")[0].replace("version = 2", "version = 2\npool = 511") + TWO_OF_256,
        "S:2:1: OverLimit pool\n  found: 511\n  allowed: the limits of all segments sum to the pool at most; pool raises it\n",
    ),
    (
        FEWEST_2.split("[[segment]]")[0].replace("version = 2", "version = 3\n[limits]\naddresses = 511") + TWO_OF_256,
        "S: OverLimit limit\n  allowed: the limits of all segments sum to 65536 at most, or to limits.addresses where it is"
        " given; limits.addresses raises it, up to 1048576\n",
    ),
    (
        FEWEST_2.split("[[segment]]")[0] + NINE_OF_8192,
        "S: OverLimit limit\n"
        "  allowed: the limits of all segments sum to 65536 at most; version 3 with limits.addresses raises it\n",
    ),
    # A table misspelled.
    (
        "version = 1\nunderlay.ttl = 1\n\n[[ports]]\npvid = 1\n",
        "S:4:1: BadValue *\n  found: ports\n  did you mean: port\n  keys: version pool underlay port segment\n",
    ),
    # A key that is near to none.
    (
        "version = 1 # of 2\nsize = 2\n",
        "S:2:1: BadValue *\n  found: size\n  keys: version pool underlay port segment\n",
    ),
    # A quote that is missing: the string ends with its line, behind 24 octets.
    (
        'version = 1\n[underlay]\nmac = "02:00:00:00:00:01\nnext_hop = "02:00:00:00:00:fe"\n',
        'S:3:25: NotToml\n  found: mac = "02:00:00:00:00:01\n  reason: invalid string\n',
    ),
    # A key twice.
    ("version = 1\npool = 2\nversion = 1\n", "S:3:1: NotToml\n  found: version = 1\n  reason: duplicate key\n"),
    # A key that is missing.
    (
        'version = 1\n[underlay] # ours\nmac = "02:00:00:00:00:01"\n',
        'S:2:1: Missing underlay.next_hop\n  allowed: a MAC address in quotes that is no group\'s, as "02:00:00:00:00:01"\n',
    ),
    # A number in quotes, in the second table of a list.
    (
        'version = 1\n[underlay]\nmac = "02:00:00:00:00:01"\nnext_hop = "02:00:00:00:00:fe"\nip4 = "192.0.2.1"\n[[port]'
        ']\npvid = 1\n[[port]]\n\tpvid = "1" # one\r\n',
        'S:9:2: BadValue port.2.pvid\n  found: "1" # one \n  allowed: a number, 1 to 4094\n',
    ),
    # An address that is none, with 61 octets behind the equals sign, of which 60 are shown.
    (
        'version = 1\n[underlay]\nmac = "02:00:00:00:00:01"\nnext_hop = "02:00:00:00:00:fe"\nip4 = "300.0.2.1" # 12345'
        "678901234567890123456789012345678901234567\n",
        'S:5:1: BadValue underlay.ip4\n  found: "300.0.2.1" # 1234567890123456789012345678901234567890123456 ...\n  '
        'allowed: an IPv4 address in quotes, as "192.0.2.1", not 0.0.0.0, '
        "255.255.255.255 or a group; one of ip4 and ip6 has to be there\n",
    ),
    # A number out of range, behind a list over several lines.
    (
        'version = 1\n[underlay]\nmac = "02:00:00:00:00:01"\nnext_hop = "02:00:00:00:00:fe"\nip4 = "192.0.2.1"\nknown ='
        " [\n  [1, 2],\n]\nttl = 0\n",
        "S:9:1: BadValue underlay.ttl\n  found: 0\n  allowed: a number, 1 to 255\n",
    ),
    (
        'version = 1\n[underlay]\nmac = "02:00:00:00:00:01"\nnext_hop = "02:00:00:00:00:fe"\nip4 = "192.0.2.1"\n[[port]'
        ']\npvid = 1\n[[segment]]\nvid = 1\nvni = 99999999\ntunnel = "vxlan"\n',
        "S:10:1: BadValue segment.1.vni\n  found: 99999999\n  allowed: a number, 0 to 16777215\n",
    ),
    # The tables of tables.
    (
        'version = 2\n[underlay]\nmac = "02:00:00:00:00:01"\nnext_hop = "02:00:00:00:00:fe"\nip4 = "192.0.2.1"\n[[port]'
        ']\npvid = 1\n[[segment]]\nvid = 1\n[[segment.tunnel]]\nkind = "vxlan"\nvni = 1\n[[segment]]\nvid = 2\n[[segment.tu'
        'nnel]]\nkind = "geneve"\nvni = 20000000\n',
        "S:17:1: BadValue segment.2.tunnel.1.vni\n  found: 20000000\n  allowed: a number, 0 to 16777215\n",
    ),
    # A byte order mark, and a key of version 1 in settings of version 2; vid is two edits from vni, too far for three letters.
    (
        '\ufeffversion = 2#\n[underlay]\nmac = "02:00:00:00:00:01"\nnext_hop = "02:00:00:00:00:fe"\nip4 = "192.0.2.1"\n[[por'
        "t]]\npvid = 1\n[[segment]]\nvid = 1\nvni = 5\n",
        "S:10:1: BadValue segment.1.*\n  found: vni\n  keys: vid tunnel limit ageing learn peers tags untagged tagged\n",
    ),
    # A table where tables of a list have to be.
    (
        'version = 1\n[underlay]\nmac = "02:00:00:00:00:01"\nnext_hop = "02:00:00:00:00:fe"\nip4 = "192.0.2.1"\n[port] '
        "# = 1\npvid = 1\n",
        "S:6:1: BadValue port\n  found: [port] # = 1\n  allowed: 1 to 16 tables, each headed [[port]]\n",
    ),
    # A segment like the first.
    (
        'version = 1\n[underlay]\nmac = "02:00:00:00:00:01"\nnext_hop = "02:00:00:00:00:fe"\nip4 = "192.0.2.1"\n[[port]'
        ']\npvid = 1\n[[segment]]\nvid = 1\nvni = 5\ntunnel = "vxlan"\n[[segment]]\n\nvid = 1\nvni = 6\ntunnel = "vxlan"\n',
        "S:12:1: TwoSegments segment.2\n  allowed: a vid, and for each tunnel a kind and VNI, that no earlier segment has\n",
    ),
    # A table that the search doesn't know.
    (
        "version = 1\nunderlay = { mac = 1 }\n",
        'S: BadValue underlay.mac\n  allowed: a MAC address in quotes that is no group\'s, as "02:00:00:00:00:01"\n',
    ),
]

# Changes in a file S that are refused.
TOLD_CHANGES = [
    (
        '[[change]]\nkind = "flush"\nat = 1\nvid = 1\n[[change]]\nkind = "flush"\nat = 0\nvid = 1\n',
        "S:5:1: NotRising change.2\n  allowed: a moment not below that of the change before\n",
    ),
    (
        "[[change]]\nkind = 'port_up'\nat = 1\nprt = 1\n",
        "S:4:1: BadValue change.1.*\n  found: prt\n  did you mean: port\n  keys: kind at port\n",
    ),
    (
        '[[change]]\nkind = "flash"\nat = 1\n',
        'S:2:1: BadValue change.1.kind\n  found: "flash"\n  allowed: "add_flood", "remove_flood", "fix", "unfix", '
        '"set_ageing", "set_learning", "set_member", "port_up", "port_down", "flush", "add_segment", '
        '"remove_segment" or "set_limit"\n',
    ),
    (
        '[[change]]\nkind = "flush"\nat = 1\nvid = 4095\n',
        "S:4:1: BadValue change.1.vid\n  found: 4095\n  allowed: a number, 1 to 4094\n",
    ),
    ("changes = []\n", "S:1:1: BadValue *\n  found: changes\n  did you mean: change\n  keys: version change\n"),
    (
        " version = 3\n",
        "S:1:2: BadValue version\n  found: 3\n"
        "  allowed: the number 2, for up to 100000 tables; or no version, for up to 10000\n",
    ),
    (
        "[[change]]\n" * 10_001,
        "S:1:1: OverLimit change\n  found: [[change]]\n"
        "  allowed: at most 10000 tables, each headed [[change]]; version = 2 raises it to 100000\n",
    ),
    (
        "version = 2\n" + "[[change]]\n" * 100_001,
        "S:2:1: OverLimit change\n  found: [[change]]\n  allowed: at most 100000 tables, each headed [[change]]\n",
    ),
]
