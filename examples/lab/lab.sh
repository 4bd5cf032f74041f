#!/usr/bin/env bash
# Makes the captures beside it: a Linux bridge with a VXLAN device, two hosts behind it and one behind a peer, each in a network
# namespace, and what captures have of them where all is right, and where something is wrong. It needs root, ip, bridge,
# ethtool, tcpdump, dumpcap and Python. Its namespaces end with it.
#     lab.sh FOLDER
set -eu
here=$(cd "$(dirname "$0")" && pwd)

# Each case has mounts and namespaces of its own.
if [ $# -eq 1 ]; then
    for tool in ip bridge ethtool tcpdump dumpcap python3; do
        command -v "$tool" >/dev/null || { echo "lab.sh: there is no $tool" >&2; exit 1; }
    done
    for case in come_in offloads other_vni port_8472; do
        mkdir -p "$1/$case"
        unshare -n -m "$here/lab.sh" "$1/$case" "$case"
    done
    exit
fi
cd "$1"
case=$2
mkdir -p /run/netns
mount -t tmpfs none /run/netns

# within NAME COMMAND..: runs a command in a namespace
within() {
    ip netns exec "$@"
}

# space NAME: a namespace without IPv6
space() {
    ip netns add "$1"
    within "$1" sysctl -qw net.ipv6.conf.all.disable_ipv6=1 net.ipv6.conf.default.disable_ipv6=1
}

# tunnel NAME NUMBER VNI: the endpoint 192.0.2.NUMBER: a bridge, the link to the underlay, and VXLAN over it to the other one
tunnel() {
    local far=$((3 - $2)) port="dstport 4789"
    [ "$case" != port_8472 ] || port=""
    ip -n "$1" link add br0 type bridge mcast_snooping 0
    ip -n "$1" link set br0 up
    ip -n "$1" link set underlay address "02:00:00:00:aa:0$2" up
    ip -n "$1" addr add "192.0.2.$2/24" dev underlay
    ip -n "$1" neigh replace "192.0.2.$far" lladdr "02:00:00:00:aa:0$far" dev underlay nud permanent
    # shellcheck disable=SC2086
    ip -n "$1" link add vxlan type vxlan id "$3" $port local "192.0.2.$2" dev underlay ttl 64 udpcsum
    ip -n "$1" link set vxlan master br0 up
    bridge -n "$1" fdb append 00:00:00:00:00:00 dev vxlan dst "192.0.2.$far"
}

# host NUMBER ENDPOINT PORT: the host 10.0.0.NUMBER at a port of an endpoint's bridge; it asks once for an address
host() {
    space "host$1"
    ip link add "$3" netns "$2" type veth peer name eth0 netns "host$1"
    ip -n "$2" link set "$3" master br0 up
    ip -n "host$1" link set eth0 address "02:00:00:00:00:0$1" mtu 1450 up
    ip -n "host$1" addr add "10.0.0.$1/24" dev eth0
    within "host$1" sysctl -qw net.ipv4.neigh.eth0.mcast_solicit=1
}

space endpoint
space peer
ip link add underlay netns endpoint type veth peer name underlay netns peer
far_vni=5000
[ "$case" != other_vni ] || far_vni=5001
tunnel endpoint 1 5000
tunnel peer 2 "$far_vni"
host 1 endpoint swp1
host 2 endpoint swp2
host 5 peer swp1

# Who sends leaves checksums, and the cutting of what is long, to its card, unless the card says that it does neither.
if [ "$case" != offloads ]; then
    for link in host1:eth0 host2:eth0 host5:eth0 endpoint:underlay peer:underlay; do
        within "${link%:*}" ethtool -K "${link#*:}" tx off tso off gso off gro off >/dev/null
    done
fi

# capture PROGRAM WORD..: runs a capturing program in the endpoint's namespace, until it is told to end
capture() {
    exec ip netns exec endpoint "$@" 2>/dev/null
}
links=(swp1=port1 swp2=port2 underlay=underlay)
capturing=()
trap 'kill "${capturing[@]}" 2>/dev/null' EXIT
for link in "${links[@]}"; do
    capture tcpdump -i "${link%=*}" -Q in -U -s 0 --time-stamp-precision=nano -w "${link#*=}.pcap" &
    capturing+=($!)
done
sockets=3
if [ "$case" = come_in ]; then
    mkdir -p ../both
    for link in "${links[@]}"; do
        capture tcpdump -i "${link%=*}" -U -s 0 --time-stamp-precision=nano -w "../both/${link#*=}.pcap" &
        capturing+=($!)
    done
    capture dumpcap -q -i swp1 -i swp2 -i underlay -w ../both/all.pcapng &
    capturing+=($!)
    sockets=9
fi
for _ in {1..200}; do
    [ "$(within endpoint grep -vc Type /proc/net/packet)" -lt "$sockets" ] || break
    sleep 0.1
done
sleep 2

case $case in
    come_in | offloads) sent=('1>2' '2>1' '1>5' '5>1' '2>5' '1>5*2') ;;
    *) sent=('1>2' '1>5' '5>1') ;;
esac
python3 -B "$here/lab.py" send "${sent[@]}"
sleep 1
kill "${capturing[@]}"
wait || true
trap - EXIT
if [ "$case" = come_in ]; then
    python3 -B "$here/lab.py" unnamed ../both/all.pcapng
    chmod a+r ../both/all.pcapng
fi
