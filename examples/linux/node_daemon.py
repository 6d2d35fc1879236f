"""A router without a controller: a daemon that drives the kernel of its router, and talks to its neighbours by UDP
over their links.

The ways are routes by rising metric over nexthop objects, so the kernel turns to the next way by itself when a link
loses its carrier. Below them is a route that drops: without it, a router without a way would send packets by its
default route, past the gates. A rule for each neighbour says that TARGET is unreachable for packets from it: a closed
gate. An open gate is a rule before that one. So to close a gate is to delete a rule, which needs no memory.

The carrier says that a link is lost, and so does silence for DEAD seconds. A link is up only if both ends hear each
other, so each datagram says which start of the neighbour its sender has heard lately. The datagrams go to a multicast
group of the link, so they need no ARP. Each names the target, its sender and the neighbour that it is for.
"""

import os
import select
import signal
import socket
import struct
import sys
import time
import zlib

from netlink import Carriers, Routes
from node_options import MOST_NEIGHBOURS, number, options, shown
from revroute import LaterStart, Node, NotAMessage

HELLO, DEAD, GROUP, PORT = 0.1, 0.5, "224.0.0.254", 6464
# By this number the kernel marks all routes, rules and nexthop objects of these daemons. A daemon removes what has it
# and is for its own target.
PROTOCOL = 76
# The metric of the last route for the target, which drops. All ways have lower ones.
LAST = 4_000_000
# A link that was taken from the command line stays closed for so many seconds. By then its other end has noticed the
# silence.
SECONDS_CLOSED = 4 * DEAD
# How many datagrams of a neighbour are taken before a write.
MOST_AT_ONCE = 64
# How often a daemon that ends tries to empty the table, every HELLO seconds, if the kernel refuses.
TRIES = 50
# The nexthop objects of a target have the numbers of a block, which a hash of the target chooses. So daemons for
# several targets run in one kernel, and each finds what an earlier process for the same target left.
BLOCK = MOST_NEIGHBOURS + 1
# What a datagram begins with: its form, the target and the length of that prefix, the sender, the neighbour that it
# is for, the boot number of the sender, and that of the neighbour, if it was heard in the last DEAD seconds, or 0. A
# message of the node may follow.
HEADER, FORM = struct.Struct("!4s4sB3xIIQQ"), b"RRD\1"


class Refused(Exception):
    """The daemon does not start, and why."""


class Table:
    """The ways and gates in the kernel. `links` has the link to each neighbour by its number."""

    def __init__(self, target, links):
        self.target, self.links = target, links
        self.routes = Routes(str(target), {it.device: it.index for it in links.values()}, PROTOCOL)
        first = zlib.crc32(str(target).encode()) & -BLOCK
        self.block = range(first, first + BLOCK)
        self.ids = {number: first + at for at, number in enumerate(links, 1)}
        # The longer a prefix is, the earlier its gates come: an open gate of a prefix opens none of a longer one
        # within it.
        self.open, self.closed = (100 + 2 * (32 - target.prefixlen) + it for it in (0, 1))
        # the ways that the kernel holds, or None if that is not known, and the highest metric that a route may have
        self.ways, self.highest = [], 0
        # whether the gate of each neighbour is open, or None if that is not known
        self.gates = dict.fromkeys(links, False)
        # devices of links that an earlier process had, and this one has not
        self.former = []

    def expect_room(self, is_gateway):
        """Refuses to start beside routes that would be used before the ways, or that use the numbers of the nexthop
        objects."""
        for it in self.routes.routes():
            is_used_first = it.protocol != PROTOCOL and it.metric < LAST
            if self.is_for_target(it) and is_used_first and not is_gateway:
                raise Refused(f"there is a route to {shown(self.target)} already, which this daemon has not made")
            if not self.is_for_target(it) and it.nexthop in self.block:
                other = f"{socket.inet_ntoa(it.target)}/{it.length}"
                raise Refused(f"the route to {other} uses nexthop {it.nexthop}, which {shown(self.target)} needs")

    def is_for_target(self, route):
        return (route.target, route.length) == (self.target.network_address.packed, self.target.prefixlen)

    def clear(self):
        """Empties the table of what earlier processes left. First of all, a last route drops what has no way."""
        self.do(f"route replace unreachable {self.target} metric {LAST}")
        for it in self.links.values():
            self.do(f"rule add pref {self.closed} iif {it.device} to {self.target} unreachable")
        rules = self.routes.rules()
        for at, device, is_open in rules:
            if is_open:
                self.do(f"rule del pref {at} iif {device} to {self.target}")
        self.remove_ways()
        known = {it.device for it in self.links.values()}
        self.former = [device for _, device, is_open in rules if not is_open and device not in known]

    def remove_ways(self):
        """Removes all routes but the last, and all nexthop objects of the target."""
        for it in self.routes.routes(PROTOCOL):
            if self.is_for_target(it) and it.metric != LAST:
                self.do(f"route del {self.target} metric {it.metric}")
        for it in self.routes.nexthops():
            if it in self.block:
                self.do(f"nexthop del id {it}")

    def forget_former(self):
        """Leaves the devices alone that are no link of this process."""
        try:
            for it in self.former:
                self.do(f"rule del pref {self.closed} iif {it} to {self.target}")
            self.former = []
        except OSError:
            # it tries again
            pass

    def empty(self):
        """Closes all gates, and then removes all ways. Returns whether all was done."""
        try:
            self.set_gates((), False)
            self.remove_ways()
        except OSError:
            return False
        return True

    def lack(self):
        """The kernel may have deleted ways."""
        self.ways = None

    def write(self, ways, gates):
        """Closes gates, changes the ways, and then opens gates. Stops at what the kernel refuses, and returns whether
        all was done."""
        try:
            return self.set_gates(gates, False) and self.change(ways) and self.set_gates(gates, True)
        except OSError:
            return False

    def set_gates(self, gates, is_open):
        """Opens those that are to be open, or closes all others."""
        some = [it for it, state in self.gates.items() if (it in gates) == is_open and state is not is_open]
        return all(self.set_gate(it, is_open) for it in some)

    def set_gate(self, neighbour, is_open):
        verb, action = ("add", "lookup main") if is_open else ("del", "")
        self.gates[neighbour] = None
        is_done = self.do(f"rule {verb} pref {self.open} iif {self.links[neighbour].device} to {self.target} {action}")
        if is_done:
            self.gates[neighbour] = is_open
        return is_done

    def change(self, ways):
        if ways == self.ways:
            return True
        self.ways, old = None, self.highest
        self.highest = max(old, len(ways))
        done = all(self.set_way(metric, way) for metric, way in enumerate(ways, 1))
        if done:
            for metric in range(len(ways) + 1, old + 1):
                self.do(f"route del {self.target} metric {metric}")
            self.ways, self.highest = ways, len(ways)
        return done

    def set_way(self, metric, way):
        id, link = self.ids[way], self.links[way]
        is_there = self.do(f"nexthop replace id {id} via {link.address} dev {link.device} onlink")
        return is_there and self.do(f"route replace {self.target} nhid {id} metric {metric}")

    def do(self, line):
        return self.routes.do(*line.split())


class Link:
    """The link to a neighbour, with what its datagrams say."""

    def __init__(self, device, address):
        self.device, self.address, self.index = device, address, socket.if_nametoindex(device)
        self.socket = opened(device)
        self.has_carrier, self.is_up = False, False
        # the boot number of the neighbour that was heard last, or 0 if it was silent for DEAD seconds, and when it
        # was heard
        self.boot, self.heard_at = 0, 0

    def received(self):
        """The datagrams that wait, the oldest first."""
        try:
            for _ in range(MOST_AT_ONCE):
                yield self.socket.recv(2048)
        except OSError:
            # no more wait, or the device is down
            return

    def hear(self, boot):
        """Notes that a datagram was heard, and returns whether the neighbour was not heard before."""
        is_new = boot != self.boot
        self.boot, self.heard_at = boot, time.monotonic()
        return is_new

    def is_silent(self):
        return bool(self.boot) and time.monotonic() - self.heard_at > DEAD


class Router:
    """A node with its kernel and its neighbours."""

    # each link costs 1, and a route has less than 64
    policy = {"ceiling": 64}

    def __init__(self, options):
        self.me, self.target, self.is_gateway, self.state = options.me, options.target, options.gateway, options.state
        self.lock = locked(self.target)
        self.links = {it.number: Link(it.device, it.address) for it in options.neighbours}
        self.table = Table(self.target, self.links)
        self.table.expect_room(self.is_gateway)
        self.boot = self.next_boot()
        self.node = self.made_node()
        self.table.clear()
        self.carriers, self.devices = Carriers(), {it.index: number for number, it in self.links.items()}
        self.is_written, self.is_over, self.start = True, False, time.monotonic()

    def next_boot(self):
        return next_boot(self.state, file_name(self.me, self.target))

    def made_node(self):
        node = Node.gateway(self.me, self.boot) if self.is_gateway else Node(self.me, self.boot, **self.policy)
        for number in self.links:
            node.know(number)
        return node

    def run(self):
        """Runs until TERM or INT, or until a neighbour knows a later start of this router. Then it empties the table,
        and returns what is wrong, or None."""
        for it in (signal.SIGTERM, signal.SIGINT):
            signal.signal(it, self.end)
        wrong = None
        try:
            self.work()
        except LaterStart:
            file = self.state / file_name(self.me, self.target)
            why = f"the number in {file} has gone back, or another router has the number {self.me}"
            wrong = f"a neighbour knows a later start: {why}"
        return wrong if self.empty() else "the kernel does not let the daemon remove its ways and gates"

    def end(self, *_):
        self.is_over = True

    def empty(self):
        """Closes all gates and then removes all ways. Returns whether that was done."""
        for _ in range(TRIES):
            if self.table.empty():
                return True
            time.sleep(HELLO)
        return False

    def work(self):
        poll, next_time = select.poll(), time.monotonic()
        handlers = {it.socket.fileno(): (self.listen, number) for number, it in self.links.items()}
        handlers[self.carriers.socket.fileno()] = (self.follow_carriers,)
        for it in handlers:
            poll.register(it, select.POLLIN)
        while not self.is_over:
            for it, _ in poll.poll(1000 * max(next_time - time.monotonic(), 0)):
                handler, *words = handlers[it]
                handler(*words)
            is_time = time.monotonic() >= next_time
            if is_time:
                next_time = time.monotonic() + HELLO
                self.look_around()
            self.answer(is_time)

    def look_around(self):
        """Notices silence, and the end of the time in which former links are closed."""
        for number, link in self.links.items():
            if link.is_silent():
                link.boot = 0
                self.lose(number)
        if time.monotonic() - self.start > SECONDS_CLOSED:
            self.table.forget_former()

    def answer(self, is_time):
        """Writes what is not written, and only then says what is new, or everything when it is time. After a refusal
        of the kernel it says only that it is there, and tries again at the next turn."""
        if not self.is_written:
            self.write()
        self.speak(is_time)

    def listen(self, number):
        """Takes the datagrams from a neighbour. After a long write there may be many, and only the last one says what
        is so now."""
        link = self.links[number]
        for data in link.received():
            if link.has_carrier and (parts := self.parts(number, data)):
                self.take(number, *parts)

    def take(self, number, boot, echo, message):
        is_new = self.links[number].hear(boot)
        self.judge(number, echo)
        if is_new:
            # so the neighbour learns at once that it is heard
            self.send(number, b"")
        self.hear(message)

    def parts(self, number, data):
        """The boot number of the neighbour, that of this router which it has heard, and the message of its node, if a
        datagram is from this neighbour and for this router and target."""
        if len(data) < HEADER.size:
            return None
        *names, boot, echo = HEADER.unpack_from(data)
        is_ours = names == [FORM, self.target.network_address.packed, self.target.prefixlen, number, self.me]
        return (boot, echo, data[HEADER.size :]) if is_ours else None

    def judge(self, number, echo):
        """A link is up while each end hears the other one."""
        link = self.links[number]
        hears_us = echo == self.boot
        if link.is_up and not hears_us:
            self.lose(number)
        elif hears_us and not link.is_up:
            link.is_up = True
            self.event(self.node.link_up, number)

    def hear(self, message):
        try:
            if message:
                self.event(self.node.hear, message)
        except NotAMessage:
            pass

    def follow_carriers(self):
        """The kernels at both ends of a link that loses its carrier delete the way over it, and bring it back by no
        means."""
        try:
            news = self.carriers.read()
        except OSError:
            # there was too much news to keep, so each link may have been lost
            news = [(device, False) for device in self.devices]
            self.carriers.ask()
        for device, is_running in news:
            if (number := self.devices.get(device)) is None or is_running == self.links[number].has_carrier:
                continue
            link = self.links[number]
            link.has_carrier, link.boot = is_running, 0
            if is_running:
                self.send(number, b"")
            else:
                self.table.lack()
                self.lose(number)

    def lose(self, number):
        self.links[number].is_up = False
        self.event(self.node.link_down, number)

    def event(self, happens, *words):
        happens(*words)
        while self.node.act():
            pass
        self.is_written = False

    def wanted(self):
        """The ways and gates of the node, and the number of its state."""
        return self.node.table()

    def write(self):
        ways, gates, state = self.wanted()
        if self.table.write(ways, gates):
            self.node.written(state)
            self.is_written = True

    def speak(self, is_time):
        for number in self.links:
            if self.is_written and (is_time or self.node.has_news(number)):
                self.send(number, self.node.say(number) or b"")
            elif is_time:
                self.send(number, b"")

    def send(self, number, message):
        """Sends a message of the node, or only says that this router is there."""
        link, target = self.links[number], self.target
        names = FORM, target.network_address.packed, target.prefixlen, self.me, number
        try:
            link.socket.sendto(HEADER.pack(*names, self.boot, link.boot) + message, (GROUP, PORT))
        except OSError:
            # a message is lost
            pass


def opened(device):
    """A socket for one link. Daemons for several targets hear the same datagrams."""
    it = socket.socket(socket.AF_INET, socket.SOCK_DGRAM)
    it.setsockopt(socket.SOL_SOCKET, socket.SO_REUSEADDR, 1)
    it.setsockopt(socket.SOL_SOCKET, socket.SO_BINDTODEVICE, device.encode())
    where = struct.pack("=4s4si", socket.inet_aton(GROUP), bytes(4), socket.if_nametoindex(device))
    for option in (socket.IP_ADD_MEMBERSHIP, socket.IP_MULTICAST_IF):
        it.setsockopt(socket.IPPROTO_IP, option, where)
    # it need not hear what it sends itself
    it.setsockopt(socket.IPPROTO_IP, socket.IP_MULTICAST_LOOP, 0)
    it.bind((GROUP, PORT))
    it.setblocking(False)
    return it


def locked(target):
    """A socket whose name only one process in a network namespace can have. The name is free again when the process
    ends."""
    it = socket.socket(socket.AF_UNIX, socket.SOCK_DGRAM)
    try:
        it.bind(f"\0revroute {target}")
    except OSError:
        raise Refused(f"another process runs for {shown(target)} on this router") from None
    return it


def file_name(me, target):
    """The file of the boot number of a router, for one target."""
    return f"{me}-{shown(target).replace('/', '-')}"


def next_boot(folder, name):
    """A boot number that is greater than at all earlier starts. When this returns, it is on the disk. A first start
    takes the clock, so that a lost file does little harm."""
    file = folder / name
    try:
        folder.mkdir(exist_ok=True)
        boot = number(file.read_text().strip(), 64) + 1 if file.exists() else time.time_ns()
        keep(file, f"{number(str(boot), 64)}\n")
    except OSError as error:
        raise Refused(f"the boot number cannot be kept in {file}: {error.strerror}") from None
    except ValueError:
        raise Refused(f"{file} does not have a boot number, which is a number below 2^64 - 1") from None
    return boot


def keep(file, text):
    """Replaces what a file has. After this, a loss of power brings back no earlier text."""
    new = file.with_name(f"{file.name}.new")
    new.write_text(text)
    os.replace(new, file)
    for it in (file, file.parent, file.parent.parent):
        opened = os.open(it, os.O_RDONLY)
        os.fsync(opened)
        os.close(opened)


def main(words, kind=Router):
    """Runs a daemon until it ends."""
    try:
        router = kind(options(words))
    except Refused as why:
        print(f"node_daemon.py: {why}", file=sys.stderr)
        sys.exit(2)
    except OSError as error:
        print(f"node_daemon.py: the kernel refuses the first write: {error.strerror}", file=sys.stderr)
        sys.exit(2)
    sys.exit(router.run())


if __name__ == "__main__":
    main(sys.argv[1:])
