#!/usr/bin/env bash
# Makes the captures beside it: what came in at three ports of a Linux bridge and at the link below its VXLAN device, and what
# the kernel then sent there. It needs root, ip, bridge, tcpdump and Python; all happens in a network namespace of its own.
#     lab.sh FOLDER
set -eu
here=$(cd "$(dirname "$0")" && pwd)
[ "${2-}" = inside ] || exec unshare -n "$here/lab.sh" "$1" inside
cd "$1"
sysctl -qw net.ipv6.conf.default.disable_ipv6=1

# A bridge with three ports, whose far ends are the hosts.
ip link add br0 type bridge mcast_snooping 0
ip link set br0 up
for k in 1 2 3; do
    ip link add swp$k type veth peer name host$k
    ip link set swp$k master br0 up
    ip link set host$k up
done

# The underlay's link, and VXLAN over it.
ip link add underlay address 02:00:00:00:aa:01 type veth peer name peer
ip link set underlay up
ip link set peer up
ip addr add 192.0.2.1/24 dev underlay
ip link add vxlan5000 type vxlan id 5000 dstport 4789 local 192.0.2.1 dev underlay ttl 64
ip link set vxlan5000 master br0 up
bridge fdb append 00:00:00:00:00:00 dev vxlan5000 dst 192.0.2.2
ip neigh replace 192.0.2.2 lladdr 02:00:00:00:aa:02 dev underlay nud permanent

capturing=()
for link in swp1=port1 swp2=port2 swp3=port3 underlay=underlay; do
    tcpdump -i "${link%=*}" -Q in -U -s 0 --time-stamp-precision=nano -w "${link#*=}.pcap" 2>/dev/null &
    capturing+=($!)
    tcpdump -i "${link%=*}" -Q out -U -s 0 --time-stamp-precision=nano -w "sent_${link#*=}.pcap" 2>/dev/null &
    capturing+=($!)
done
sleep 2
PYTHONPATH=$here/.. python3 -B - <<'PYTHON'
import socket
import time

from captures import asks, sends, tunnelled

for device, octets in [
    ("host1", asks(1, 2)),
    ("host2", sends(2, 1)),
    ("host1", sends(1, 2)),
    ("peer", tunnelled(asks(5, 1))),
    ("host1", sends(1, 5)),
    ("host3", asks(3, 9)),
    ("peer", tunnelled(sends(5, 2))),
    ("host1", sends(1, 77)),
]:
    with socket.socket(socket.AF_PACKET, socket.SOCK_RAW) as link:
        link.bind((device, 0))
        link.send(octets)
    time.sleep(0.1)
PYTHON
sleep 1
kill -INT "${capturing[@]}"
wait
