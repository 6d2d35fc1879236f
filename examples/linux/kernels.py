"""Routers as network namespaces of this machine, with what can be seen of them: the kernels' tables and counters, and probes.

Make a lab only in a network and with mounts of your own, as the program `lab` does: all of it then ends with your process.
"""

import contextlib
import errno
import socket
import struct
import time
from collections import Counter

from namespaces import Counters, Devices, beside, entered, ip, link_lines, set_sysctls

# An address behind the gateway, and a port of it.
TARGET, PORT = "10.255.255.1", 7
# The namespace that takes the errors of probes, and drops them: here they only have to be sent, so that they are counted.
HUB = "hub"
SECONDS_TO_SETTLE = 5
# the device of a route that drops, in /proc/net/route
DROPS = "*"


class Wrong(Exception):
    """A run has to end, and why."""


class Router(Devices, Counters):
    """What can be seen of a router, and the socket that its probes leave by."""

    def __init__(self, name, address, ttl):
        Counters.__init__(self, name, ("route", "snmp"))
        with entered(name):
            Devices.__init__(self, socket.socket(socket.AF_INET, socket.SOCK_DGRAM))
        self.socket.bind((address, 0))
        self.socket.setsockopt(socket.IPPROTO_IP, socket.IP_TTL, ttl)

    def close(self):
        self.socket.close()
        super().close()

    def routes(self):
        """The device and the address of each next hop to the target, by rising metric. A route that drops has none."""
        lines = [line.split() for line in self.read("route")[1:]]
        routes = [(int(metric), device, hop) for device, target, hop, _, _, _, metric, *_ in lines if target == hex_of(TARGET)]
        return [it[1:] for it in sorted(routes) if it[1] != DROPS]

    def probe(self, data=b""):
        """Sends a probe, and returns whether the router had a route."""
        try:
            self.socket.sendto(data, (TARGET, PORT))
        except OSError as error:
            # without any route, or by a route that drops
            if error.errno not in (errno.ENETUNREACH, errno.EHOSTUNREACH):
                raise
            return False
        return True


class Lab:
    """Routers with their links, and the probes that they have sent. The first router is the gateway.

    A probe's TTL is twice the number of routers. In push order that is enough, even if hops are pushed while it is under way.
    """

    def __init__(self, addresses, links):
        self.addresses, self.gateway = addresses, next(iter(addresses))
        self.hex_addresses = {name: hex_of(address) for name, address in addresses.items()}
        # how many probes have arrived, in all, and from each address since the caller has cleared that
        self.sent, self.delivered, self.lost, self.arrived = 0, 0, 0, Counter()
        build(addresses, links)
        self.routers = {name: Router(name, address, 2 * len(addresses)) for name, address in addresses.items()}
        with entered(self.gateway):
            self.sink = socket.socket(socket.AF_INET, socket.SOCK_DGRAM)
        self.sink.bind((TARGET, PORT))
        self.sink.setblocking(False)
        for u, v in links:
            self.wait_for_link(u, v)

    def close(self):
        self.sink.close()
        for router in self.routers.values():
            router.close()
        ip(*(f"netns del {name}" for name in (*self.addresses, HUB)))

    def set_link(self, u, v, state):
        for router, device in ((u, v), (v, u)):
            ip(f"link set dev {device} {state}", inside=router)
        if state == "up":
            self.wait_for_link(u, v)

    def fail_link(self, u, v):
        """Sets the end of a link at u down, and waits until v has no carrier."""
        self.routers[u].set_device(v, False)
        if not wait(lambda: not self.routers[v].is_running(u)):
            raise Wrong(f"{v} does not lose the carrier of its link to {u}")

    def wait_for_link(self, u, v):
        if not wait(lambda: self.routers[u].is_running(v) and self.routers[v].is_running(u)):
            raise Wrong(f"the link of {u} and {v} does not come up")

    def tables(self):
        """The next hop of each router that has a route, as its kernel has it."""
        return {name: ways[0] for name, ways in self.ways().items() if ways}

    def ways(self):
        """The next hops of each router by rising metric, as its kernel has them."""
        return {name: self.ways_of(name) for name in self.routers}

    def ways_of(self, router):
        return [*map(self.hop, self.routers[router].routes())]

    def hop(self, route):
        """The router that a route leads to. A route over another device than that to its next hop is told as it is, which is no
        hop of any table."""
        device, address = route
        return device if address == self.hex_addresses.get(device) else route

    def probe(self):
        """Sends a probe from each router but the gateway, and takes those that have arrived."""
        self.sent += sum(router.probe() for name, router in self.routers.items() if name != self.gateway)
        self.receive()

    def receive(self):
        with contextlib.suppress(BlockingIOError):
            while True:
                self.arrived[self.sink.recvfrom(1)[1][0]] += 1
                self.delivered += 1

    def expired(self):
        return sum(router.count("snmp", "Icmp", "OutTimeExcds") for router in self.routers.values())

    def count_lost(self):
        """How many probes have ended on the way: routers have received them, and neither delivered nor sent them on. No
        counter of its own has those that a route drops."""
        counts = (router.counts("snmp", "Ip") for router in self.routers.values())
        return sum(it["InReceives"] - it["InDelivers"] - it["ForwDatagrams"] for it in counts)

    def under_way(self):
        """How many probes have neither arrived nor been lost. The counters are read only if they can have changed."""
        self.receive()
        if self.sent - self.delivered - self.lost:
            self.lost = self.count_lost()
            if not self.sent - self.delivered - self.lost:
                # a probe that a router has received and not sent on yet seems to be lost, so this looks again
                self.lost = self.count_lost()
        return self.sent - self.delivered - self.lost

    def settle(self):
        """Waits until no probe is under way."""
        if not wait(lambda: not self.under_way()):
            raise Wrong(f"{self.under_way()} probes have neither arrived nor been counted as lost")


def wait(is_so):
    """Waits until something is so, and returns whether it came to that in time."""
    end = time.monotonic() + SECONDS_TO_SETTLE
    while not is_so():
        if time.monotonic() > end:
            return False
        time.sleep(0.0005)
    return True


def build(addresses, links):
    """Makes the namespaces, and their links by veth, each end with the name of the router at the other."""
    ip(*(f"netns add {name}" for name in (*addresses, HUB)))
    for name in addresses:
        set_sysctls(name)
    # All namespaces share one table of neighbours, which several labs could fill. Neighbours without ARP can be dropped from it.
    dropped = [f"link add name {name} up type veth peer name mgmt arp off netns {name}" for name in addresses]
    ip(*dropped, inside=HUB)
    ip(*link_lines([*addresses], links))
    for name, address in addresses.items():
        devices = ["lo", "mgmt", *beside(name, links)]
        ip(f"address add {address}/24 dev mgmt", *(f"link set dev {it} up" for it in devices), inside=name)
    ip(f"address add {TARGET}/32 dev lo", inside=next(iter(addresses)))


def hex_of(address):
    """An address as /proc/net/route has it."""
    return f"{struct.unpack('=I', socket.inet_aton(address))[0]:08X}"
