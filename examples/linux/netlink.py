"""The routes of a network namespace to one target, its rules for packets that come in, and the carriers of its devices, by netlink: a
read or a push takes some 50 microseconds, and no process is started."""

import errno
import os
import socket
import struct
from collections import namedtuple

REQUEST, ACK, REPLACE, EXCLUSIVE, CREATE, DUMP = 0x1, 0x4, 0x100, 0x200, 0x400, 0x300
NEWROUTE, DELROUTE, GETROUTE, NEWNEXTHOP, DELNEXTHOP, GETNEXTHOP = 24, 25, 26, 104, 105, 106
NEWLINK, GETLINK, GETADDRESS, NEWRULE, DELRULE, GETRULE = 16, 18, 22, 32, 33, 34
ERROR, DONE = 2, 3
RTA_DST, RTA_OIF, RTA_GATEWAY, RTA_PRIORITY, RTA_MULTIPATH, RTA_NH_ID = 1, 4, 5, 6, 9, 30
NHA_ID, NHA_OIF, NHA_GATEWAY, IFA_LOCAL = 1, 5, 6, 2
FRA_DST, FRA_IIFNAME, FRA_PRIORITY, FRA_PROTOCOL, TO_TABLE, UNREACHABLE = 1, 3, 6, 21, 1, 7
RUNNING, LINK_GROUP = 0x40, 1
DEAD, ONLINK, LINKDOWN = 0x1, 0x4, 0x10
MAIN, UNICAST, STATIC, HOST = 254, 1, 4, 32
NETLINK_ROUTE, SOL_NETLINK, STRICT = 0, 270, 12
# what is asked for in a list of routes, and in one of rules
ROUTES, RULES = (struct.pack("=8BI", socket.AF_INET, 0, 0, 0, table, 0, 0, 0, 0) for table in (MAIN, 0))
# What is refused in pushes without harm: what is to be deleted is gone, what is to be added is there, or a way has no carrier.
GONE, THERE, NO_CARRIER = (errno.ESRCH, errno.ENOENT), (errno.EEXIST,), (errno.ENETDOWN, errno.EINVAL)


Route = namedtuple("Route", "target length metric protocol nexthop")


class Routes:
    """Make it within the namespace. The target is an address or a prefix. `index` has the number of each device by its
    name.

    The kernel keeps a protocol number with each route, rule and nexthop object, which says whose it is. With a `protocol`,
    all that is made has this number. Of rules and nexthop objects only those that have it are listed, and of rules and
    routes only those are deleted.
    """

    def __init__(self, target, index, protocol=0):
        self.socket = socket.socket(socket.AF_NETLINK, socket.SOCK_RAW, NETLINK_ROUTE)
        self.socket.setsockopt(socket.SOL_SOCKET, socket.SO_RCVBUF, 1 << 20)
        self.socket.setsockopt(SOL_NETLINK, STRICT, 1)
        self.socket.bind((0, 0))
        address, _, length = target.partition("/")
        self.target, self.length = socket.inet_aton(address), int(length or HOST)
        self.index, self.protocol, self.number, self.ids = index, protocol, 0, {}

    def close(self):
        self.socket.close()

    def read(self):
        """The devices of each route that the kernel would use, by rising metric. A device without carrier is left out."""
        routes = filter(None, (self.route_in(*it) for it in self.listed(GETROUTE, ROUTES)))
        return [devices for _, devices in sorted(routes) if devices]

    def open_gates(self):
        """The names of the devices whose packets to the target are let in by a rule."""
        return {device for _, device, is_open in self.rules() if is_open}

    def rules(self):
        """The rules for packets to the target that come in by a device: the preference of each, the name of the device, and
        whether it lets them in."""
        return [*filter(None, (self.rule_in(*it) for it in self.listed(GETRULE, RULES)))]

    def routes(self, protocol=0):
        """All routes of the main table, or those with a protocol number, also routes to other targets."""
        found = []
        asked = struct.pack("=8BI", socket.AF_INET, 0, 0, 0, MAIN, protocol, 0, 0, 0)
        for said, begin, end in self.listed(GETROUTE, asked):
            parts = parts_in(said, begin + 12, end)
            metric, nexthop = (number_in(parts, it) for it in (RTA_PRIORITY, RTA_NH_ID))
            if said[begin + 4] == MAIN:
                found.append(Route(parts.get(RTA_DST, bytes(4)), said[begin + 1], metric, said[begin + 5], nexthop))
        return found

    def nexthops(self):
        """The numbers of all nexthop objects that are owned, also those for other targets."""
        some = (it for it in self.listed(GETNEXTHOP, bytes(8)) if it[0][it[1] + 2] == self.protocol)
        return [number_in(parts_in(said, begin + 8, end), NHA_ID) for said, begin, end in some]

    def addresses(self):
        """The addresses of the namespace."""
        some = self.listed(GETADDRESS, struct.pack("=4BI", socket.AF_INET, 0, 0, 0, 0))
        return [parts_in(said, begin + 8, end).get(IFA_LOCAL) for said, begin, end in some]

    def listed(self, kind, body):
        """What the kernel lists: the messages, where each begins, and where it ends."""
        self.send(kind, REQUEST | DUMP, body)
        while True:
            said = self.socket.recv(1 << 16)
            for kind, begin, end in messages(said):
                if kind in (ERROR, DONE):
                    return
                yield said, begin, end

    def rule_in(self, said, begin, end):
        """The rule in a message, or None if it is no gate to the target."""
        parts = parts_in(said, begin + 12, end)
        is_for_target = said[begin + 1] == self.length and parts.get(FRA_DST) == self.target
        is_owned = not self.protocol or parts.get(FRA_PROTOCOL) == bytes([self.protocol])
        if not is_for_target or not is_owned or FRA_IIFNAME not in parts:
            return None
        return number_in(parts, FRA_PRIORITY), parts[FRA_IIFNAME].rstrip(b"\0").decode(), said[begin + 7] == TO_TABLE

    def route_in(self, said, begin, end):
        """The metric and the devices of the route in a message, or None if it is for another target."""
        length, table, flags = said[begin + 1], said[begin + 4], struct.unpack_from("=I", said, begin + 8)[0]
        parts = parts_in(said, begin + 12, end)
        if length != self.length or table != MAIN or parts.get(RTA_DST) != self.target:
            return None
        metric = number_in(parts, RTA_PRIORITY)
        # a route that drops packets has no hop
        hops = several(parts.get(RTA_MULTIPATH, b"")) or [(flags, *struct.unpack("=I", parts[RTA_OIF])) for it in parts if it == RTA_OIF]
        return metric, [device for flags, device in hops if not flags & (DEAD | LINKDOWN)]

    def do(self, *words):
        """Does what `ip` would do for these words, as the controllers and the daemon beside this file use them. Returns whether it was
        done."""
        match words:
            case "nexthop", "flush", "dev", device:
                return self.ask(DELNEXTHOP, 0, nexthop(self.ids[device]), may=GONE) in (0, *GONE)
            case "nexthop", "replace", "id", id, "via", address, "dev", device, "onlink":
                self.ids[device] = int(id)
                via = number(NHA_OIF, self.index[device]) + attribute(NHA_GATEWAY, socket.inet_aton(address))
                body = nexthop(int(id), ONLINK, self.protocol or STATIC) + via
                return not self.ask(NEWNEXTHOP, REPLACE | CREATE, body, may=NO_CARRIER)
            case "nexthop", "del", "id", id:
                return self.ask(DELNEXTHOP, 0, nexthop(int(id)), may=GONE) in (0, *GONE)
            case "route", "replace", _, "nhid", id, "metric", metric:
                body = self.route(UNICAST) + number(RTA_PRIORITY, int(metric)) + number(RTA_NH_ID, int(id))
                return not self.ask(NEWROUTE, REPLACE | CREATE, body, may=NO_CARRIER)
            case "route", "replace", "unreachable", _, *metric:
                at = number(RTA_PRIORITY, int(metric[1])) if metric else b""
                return not self.ask(NEWROUTE, REPLACE | CREATE, self.route(UNREACHABLE) + at)
            case "route", "del", _, "metric", metric:
                return not self.ask(DELROUTE, 0, self.route() + number(RTA_PRIORITY, int(metric)), may=GONE)
            case "route", "replace", _, "via", address, "dev", device, "onlink":
                via = attribute(RTA_GATEWAY, socket.inet_aton(address)) + number(RTA_OIF, self.index[device])
                return not self.ask(NEWROUTE, REPLACE | CREATE, self.route(UNICAST, ONLINK) + via)
            case "rule", "add", "pref", at, "iif", device, "to", _, *action:
                kind = UNREACHABLE if action == ["unreachable"] else TO_TABLE
                return self.ask(NEWRULE, EXCLUSIVE | CREATE, self.rule(at, device, kind), may=THERE) in (0, *THERE)
            case "rule", "del", "pref", at, "iif", device, "to", _:
                return self.ask(DELRULE, 0, self.rule(at, device), may=GONE) in (0, *GONE)
        raise ValueError(f"no message for {' '.join(words)}")

    def route(self, kind=0, flags=0):
        """The beginning of a message about the route to the target: a kind of 0 fits any."""
        protocol = self.protocol or (STATIC if kind else 0)
        words = socket.AF_INET, self.length, 0, 0, MAIN, protocol, 0, kind, flags
        return struct.pack("=8BI", *words) + attribute(RTA_DST, self.target)

    def rule(self, at, device, action=0):
        """A rule for packets to the target that come in by a device. An action of 0 fits any."""
        table = MAIN if action == TO_TABLE else 0
        header = struct.pack("=8BI", socket.AF_INET, self.length, 0, 0, table, 0, 0, action, 0)
        parts = attribute(FRA_DST, self.target) + attribute(FRA_IIFNAME, device.encode() + b"\0")
        return header + parts + number(FRA_PRIORITY, int(at)) + attribute(FRA_PROTOCOL, bytes([self.protocol]))

    def ask(self, kind, flags, body, may=()):
        """Sends a message, and returns the kernel's error, which is 0 or one that may come."""
        self.send(kind, REQUEST | ACK | flags, body)
        while True:
            said = self.socket.recv(1 << 16)
            _, kind, _, number, _, error = struct.unpack_from("=IHHIIi", said)
            if kind == ERROR and number == self.number:
                if error and -error not in may:
                    raise OSError(-error, os.strerror(-error))
                return -error

    def send(self, kind, flags, body):
        self.number += 1
        self.socket.send(struct.pack("=IHHII", 16 + len(body), kind, flags, self.number, 0) + body)


class Carriers:
    """Says which devices have their carrier, and each loss and return. Make it within the namespace."""

    def __init__(self):
        self.socket = socket.socket(socket.AF_NETLINK, socket.SOCK_RAW, NETLINK_ROUTE)
        self.socket.setsockopt(socket.SOL_SOCKET, socket.SO_RCVBUF, 1 << 20)
        self.socket.bind((0, LINK_GROUP))
        self.ask()

    def ask(self):
        """Has the kernel list all devices. It answers to `read`."""
        self.socket.send(struct.pack("=IHHIIBxHiII", 32, GETLINK, REQUEST | DUMP, 0, 0, socket.AF_UNSPEC, 0, 0, 0, 0))

    def read(self):
        """Reads what the kernel has said. Returns the number of each device that it names, and whether that has its carrier, in the order
        in which it happened. Without news it waits."""
        said = self.socket.recv(1 << 16)
        found = [struct.unpack_from("=iI", said, begin + 4) for kind, begin, _ in messages(said) if kind == NEWLINK]
        return [(device, bool(flags & RUNNING)) for device, flags in found]


def messages(said):
    """The messages in what the kernel says: their kind, and where they begin and end."""
    at = 0
    while at + 16 <= len(said):
        size, kind = struct.unpack_from("=IH", said, at)
        yield kind, at + 16, at + size
        at += size + 3 & ~3


def attributes(said, at, end):
    """The attributes of a message: their kind, and where their value begins and ends."""
    while at + 4 <= end:
        size, kind = struct.unpack_from("=HH", said, at)
        yield kind, at + 4, at + size
        at += size + 3 & ~3


def parts_in(said, at, end):
    """The attributes of a message by their kind."""
    return {kind: said[begin:to] for kind, begin, to in attributes(said, at, end)}


def several(hops):
    """The flags and the device of each hop of a route with several."""
    at, found = 0, []
    while at + 8 <= len(hops):
        size, flags, _, device = struct.unpack_from("=HBBI", hops, at)
        found.append((flags, device))
        at += size + 3 & ~3
    return found


def attribute(kind, value):
    return struct.pack("=HH", 4 + len(value), kind) + value + bytes(-len(value) % 4)


def number(kind, value):
    return attribute(kind, struct.pack("=I", value))


def number_in(parts, kind):
    """The number in the attribute of a kind, or 0 if there is none."""
    return struct.unpack("=I", parts[kind])[0] if kind in parts else 0


def nexthop(id, flags=0, protocol=0):
    family = socket.AF_INET if flags else socket.AF_UNSPEC
    return struct.pack("=4BI", family, 0, protocol, 0, flags) + number(NHA_ID, id)
