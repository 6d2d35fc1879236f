"""Four routers with the daemon on one bridge, and a host that runs none, in network namespaces.

usage: checks/daemon/lan.py REVROUTED

Each router has one device, by which it hears all others. A thread reads all tables, gates and maps of senders again and again, and
follows all prefixes: no loop may be seen in two reads. Meanwhile two routers are kept from hearing each other, and processes are
killed, ended and started again.
"""

import json
import os
import re
import signal
import socket
import subprocess
import sys
import threading
import time
from pathlib import Path

TOP = Path(__file__).resolve().parents[2]
sys.dont_write_bytecode = True
sys.path.insert(0, str(TOP / "examples" / "linux"))
import inside  # noqa: E402
from namespaces import RUN, die_with_parent, entered, ip, run, set_sysctls  # noqa: E402

STATE, ROUTERS, HOST, SWITCH, DEVICE, PORT = Path(RUN, "lan"), (1, 2, 3, 4), 9, "switch", "lan", 7
SECONDS, SECONDS_IN_ALL, MINE = 40, 300, "77"
CONFIGURATION = """
router = {number}
interfaces = ["lan"]
announce = ["10.0.{number}.0/24", "fd00:{number}::/48"]
state = "{state}"
control = "{state}.control"
hello = 0.5
dead = 2.0
[interface.lan]
lan = true
"""
SIX = {"conf/all/forwarding": 1, "conf/default/accept_dad": 0, "conf/all/accept_dad": 0}
APART = """
table bridge apart {{
    chain apart {{
        type filter hook forward priority 0
        iifname "p{0}" oifname "p{1}" drop
        iifname "p{1}" oifname "p{0}" drop
    }}
}}
"""


class Wrong(Exception):
    """The lab has to end, and why."""


def name(number):
    return f"r{number}"


def mac(number):
    return f"02:00:00:00:00:{number:02x}"


def link_local(number):
    return f"fe80::ff:fe00:{number:x}"


def address(number, family):
    return f"10.0.{number}.1" if family == 4 else f"fd00:{number}::1"


def prefixes(family):
    return {it: f"10.0.{it}.0/24" if family == 4 else f"fd00:{it}::/48" for it in ROUTERS}


def said(number, *words):
    """What a command prints in a router, or an empty text if it fails."""
    ran = subprocess.run(["ip", "netns", "exec", name(number), *map(str, words)], stdout=subprocess.PIPE, stderr=subprocess.DEVNULL, text=True)
    return ran.stdout if ran.returncode == 0 else ""


def make():
    """The bridge, and all that is on it."""
    ip(f"netns add {SWITCH}")
    ip("link add name bridge type bridge mcast_snooping 0", "link set bridge up", inside=SWITCH)
    for it in (*ROUTERS, HOST):
        ip(f"netns add {name(it)}")
        set_sysctls(name(it))
        set_sysctls(name(it), 6, SIX)
        ip(f"link add name {DEVICE} address {mac(it)} netns {name(it)} type veth peer name p{it} netns {SWITCH}")
        ip(f"link set p{it} master bridge up", inside=SWITCH)
        ip("link set lo up", f"link set {DEVICE} up", inside=name(it))
        ip(*(f"address add {address(it, family)}/{24 if family == 4 else 48} dev lo" for family in (4, 6)), inside=name(it))
    STATE.mkdir(parents=True)


class Routers:
    """The processes."""

    def __init__(self, program):
        self.program, self.running = program, {}

    def start(self, number):
        file, folder = STATE / f"{number}.toml", STATE / str(number)
        folder.mkdir(exist_ok=True)
        file.write_text(CONFIGURATION.format(number=number, state=folder))
        words = ["ip", "netns", "exec", name(number), self.program, "run", "--config", file]
        with open(STATE / f"{number}.log", "a") as log:
            self.running[number] = subprocess.Popen([*map(str, words)], stdout=log, stderr=log, preexec_fn=die_with_parent)

    def end(self, number, how):
        self.running[number].send_signal(how)
        self.running.pop(number).wait()

    def routes(self, number):
        asked = [self.program, "routes", "--json", "--control", STATE / f"{number}.control"]
        ran = subprocess.run([*map(str, asked)], stdout=subprocess.PIPE, stderr=subprocess.DEVNULL, text=True)
        return {it["prefix"]: it for it in json.loads(ran.stdout)} if ran.returncode == 0 else {}

    def log(self, number):
        return (STATE / f"{number}.log").read_text()


class Kernel:
    """What the kernel of a router has: the neighbours to which it sends for each prefix, and those that it lets in."""

    def __init__(self, number):
        self.ways, gates = {}, set()
        for family in (4, 6):
            for it in json.loads(said(number, "ip", "-j", f"-{family}", "route", "show", "table", "all", "proto", MINE) or "[]"):
                prefix, table = it["dst"], it.get("table", "main")
                via = it.get("gateway") or it.get("via", {}).get("host")
                if it.get("type") == "throw":
                    gates.add((int(table), prefix))
                elif via:
                    self.ways.setdefault(prefix, set()).update(at for at in ROUTERS if link_local(at) == via)
        senders = re.findall(r"([0-9a-f:]{17}) : (0x[0-9a-f]+)", said(number, "nft", "list", "map", "inet", "revrouted", "senders"))
        tables = {at: int(mark, 16) for it, mark in senders for at in ROUTERS if mac(at) == it}
        self.lets_in = {(at, prefix) for at, table in tables.items() for of, prefix in gates if of == table}


def loops():
    """The prefixes for which the tables have a loop, as far as one read shows."""
    kernels = {it: Kernel(it) for it in ROUTERS}
    for prefix in (it for family in (4, 6) for it in prefixes(family).values()):
        used = {u: {v for v in kernels[u].ways.get(prefix, ()) if (u, prefix) in kernels[v].lets_in} for u in ROUTERS}
        while ends := [u for u, ways in used.items() if not ways]:
            for it in ends:
                used.pop(it)
            used = {u: {v for v in ways if v in used} for u, ways in used.items()}
        if used:
            yield prefix, str(used)


class Reader(threading.Thread):
    """Reads all kernels until it is told to end."""

    def __init__(self):
        super().__init__(daemon=True)
        self.count, self.seen, self.is_over, self.failed = 0, [], threading.Event(), ""

    def run(self):
        try:
            while not self.is_over.is_set():
                self.count += 1
                if first := dict(loops()):
                    self.seen += [(prefix, how) for prefix, how in loops() if prefix in first]
        except Exception as why:
            self.failed = repr(why)


def arrives(source, to, family, by=None):
    """Whether a datagram arrives. `by` is a router over which it is sent, whatever the tables of its sender say."""
    kind = socket.AF_INET if family == 4 else socket.AF_INET6
    route = f"route replace {address(to, family)} via {'inet6 ' if family == 4 else ''}{link_local(by)} dev {DEVICE} metric 1" if by else None
    with entered(name(to)):
        sink = socket.socket(kind, socket.SOCK_DGRAM)
    with entered(name(source)):
        sender = socket.socket(kind, socket.SOCK_DGRAM)
    with sink, sender:
        if route:
            run("ip", "-n", name(source), f"-{family}", *route.split())
        try:
            sink.bind((address(to, family), PORT))
            sink.settimeout(1)
            sender.bind((address(source, family), 0))
            sender.sendto(b"?", (address(to, family), PORT))
            return sink.recv(8) == b"?"
        except OSError:
            return False
        finally:
            if route:
                run("ip", "-n", name(source), f"-{family}", *route.replace("replace", "delete").split())


def all_arrive(*routers):
    return all(arrives(u, v, family) for u in routers for v in routers if u != v for family in (4, 6))


def expect(is_so, wrong):
    begun = time.monotonic()
    while not is_so():
        if time.monotonic() - begun > SECONDS:
            raise Wrong(wrong)
        time.sleep(0.1)


def kept_apart(routers):
    """Two routers do not hear each other: packets between them go over a third one, by the same device."""
    run("ip", "netns", "exec", SWITCH, "nft", "-f", "-", given=APART.format(1, 2))
    expect(lambda: "router 2 is down: its kernel does not answer" in routers.log(1), "router 1 still hears router 2")
    expect(lambda: all_arrive(*ROUTERS), "not all arrive while two do not hear each other")
    if routers.routes(1)["10.0.2.0/24"]["ways"][0] not in (3, 4):
        raise Wrong(f"router 1 has {routers.routes(1)}")
    run("ip", "netns", "exec", SWITCH, "nft", "delete", "table", "bridge", "apart")
    expect(lambda: routers.routes(1)["10.0.2.0/24"]["ways"][:1] == [2] and all_arrive(*ROUTERS), "the two do not hear each other again")


def closed_neighbour(routers):
    """The process of router 4 is killed. Router 1 drops what its kernel sends, and what a host sends that is no router, though it lets in what
    router 3 sends by the same device."""
    routers.end(4, signal.SIGKILL)
    expect(lambda: "router 4 is down: nothing is heard from it" in routers.log(1), "router 1 still hears router 4")
    for family in (4, 6):
        expect(lambda: arrives(3, 2, family, by=1), f"router 1 does not let in router 3 by IPv{family}")
        for source in (4, HOST):
            if arrives(source, 2, family, by=1):
                raise Wrong(f"router 1 lets in {name(source)} by IPv{family}")
    routers.start(4)
    expect(lambda: all_arrive(*ROUTERS), "not all arrive after router 4 was started again")
    if not arrives(4, 2, 4, by=1) or arrives(HOST, 2, 4, by=1):
        raise Wrong("router 1 does not let in router 4 again, or lets in a host")


def ended_process(routers):
    """TERM removes the map of senders, closes gates and removes ways. The next start removes the rest of the gates' tables."""
    routers.end(3, signal.SIGTERM)
    left = said(3, "ip", "route", "show", "table", "all", "proto", MINE)
    if "throw" in left or "nhid" in left or said(3, "nft", "list", "table", "inet", "revrouted"):
        raise Wrong(f"router 3 keeps {left}")
    if arrives(1, 2, 4, by=3):
        raise Wrong("router 3 still forwards")
    file = STATE / "3.toml"
    routers.start(3)
    expect(lambda: all_arrive(*ROUTERS), "not all arrive after router 3 was started again")
    rules = [it for it in said(3, "ip", "rule").splitlines() if "fwmark" in it]
    if len(rules) != 2 * (len(ROUTERS) - 1):
        raise Wrong(f"{file.stem} has the rules {rules}")


def check(program):
    make()
    routers, reader = Routers(program), Reader()
    try:
        for it in ROUTERS:
            routers.start(it)
        reader.start()
        expect(lambda: all_arrive(*ROUTERS), "not all arrive")
        kept_apart(routers)
        closed_neighbour(routers)
        ended_process(routers)
        reader.is_over.set()
        reader.join()
        if reader.seen or reader.failed:
            raise Wrong(f"{reader.failed} loops {reader.seen}")
    except (Wrong, OSError) as it:
        for number in ROUTERS:
            print(f"router {number}:", routers.log(number))
        print("WRONG:", it)
        return 1
    finally:
        for it in [*routers.running]:
            routers.end(it, signal.SIGKILL)
    print(f"daemon: four routers on one bridge, {reader.count} reads of their kernels without a loop; what a closed neighbour or a host sends is dropped")
    return 0


def main():
    program = Path(sys.argv[1]).resolve()
    signal.signal(signal.SIGALRM, inside.take_too_long)
    signal.alarm(SECONDS_IN_ALL)
    try:
        inside.go_inside({"nft": "nftables"})
        inside.try_out()
    except inside.LeftOut as it:
        print(f"skipped: the daemon on one bridge, since {' '.join(str(it.why).split())}: {it.package}")
        return 0
    return check(program)


if __name__ == "__main__":
    sys.exit(main())
