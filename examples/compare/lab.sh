#!/usr/bin/env bash
# Makes the captures beside it: what came in at three ports of a Linux bridge and at the link below its VXLAN device, and what
# the kernel sent there: where it does what settings.toml says, and where it doesn't. It needs root, ip, bridge and Python; all
# happens in network namespaces of its own.
#     lab.sh FOLDER
set -eu
here=$(cd "$(dirname "$0")" && pwd)
if [ $# -eq 1 ]; then
    for tool in unshare ip bridge python3; do
        command -v "$tool" >/dev/null || { echo "lab.sh: there is no $tool" >&2; exit 1; }
    done
    for case in same no_flood small_mtu own_traffic; do
        mkdir -p "$1/$case"
        unshare -n "$here/lab.sh" "$1/$case" "$case"
    done
    exit
fi
case=$2
sysctl -qw net.ipv6.conf.default.disable_ipv6=1

# A bridge with three ports, whose far ends are the hosts. Where it sends on its own it is of a spanning tree, which opens its
# ports four seconds later.
spanning=0
[ "$case" != own_traffic ] || spanning=1
ip link add br0 address 02:00:00:00:aa:00 type bridge mcast_snooping 0 forward_delay 200 stp_state $spanning
ip link set br0 up
for k in 1 2 3; do
    ip link add swp$k address 02:00:00:00:aa:1$k type veth peer name host$k
    ip link set swp$k master br0 up
    ip link set host$k up
done

# The underlay's link takes 50 octets more than a port, and VXLAN over it sends to the peer what is for everybody.
mtu=1550
[ "$case" != small_mtu ] || mtu=1500
ip link add underlay address 02:00:00:00:aa:01 mtu $mtu type veth peer name peer mtu 1550
ip link set underlay up
ip link set peer up
ip addr add 192.0.2.1/24 dev underlay
ip link add vxlan5000 address 02:00:00:00:aa:02 mtu $((mtu - 50)) type vxlan id 5000 dstport 4789 local 192.0.2.1 dev underlay ttl 64
ip link set vxlan5000 master br0 up
[ "$case" = no_flood ] || bridge fdb append 00:00:00:00:00:00 dev vxlan5000 dst 192.0.2.2
ip neigh replace 192.0.2.2 lladdr 02:00:00:00:aa:02 dev underlay nud permanent
[ "$case" != own_traffic ] || sleep 5
PYTHONPATH=$here/.. python3 -B "$here/both_ways.py" "$1" "$case"
