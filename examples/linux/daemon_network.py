"""A network of routers in namespaces, each with a daemon that routes, and what is seen of them: probes, loops, bytes and processors."""

import os
import signal
import socket
import subprocess
from collections import namedtuple
from pathlib import Path
from threading import Thread

import revrouted
from namespaces import RUN, Counters, Devices, beside, die_with_parent, entered, ip, libc, link_lines, run, set_sysctls

HERE = Path(__file__).resolve().parent
FOLDER = Path(RUN, "daemons")
SIXES = {
    "icmp/ratelimit": 0,
    "conf/all/forwarding": 1,
    "conf/all/ignore_routes_with_linkdown": 1,
    # addresses of links are ready at once
    "conf/all/accept_dad": 0,
    "conf/default/accept_dad": 0,
}
# Enough for the number of the last start, but not for another file beside it.
STATE_SIZE = "8k"
# Of so many loops the tables are kept, as they are once each loop is seen.
MOST_LOOPS_KEPT = 10
TICKS = 1e9

# A prefix that routers announce, and an address in it that they have.
Announced = namedtuple("Announced", "prefix address routers")
# When a round of probes was sent, its family, and for each router and each target by how many links the probe came.
Round = namedtuple("Round", "time family steps")


def addresses_of(number):
    return f"10.0.0.{number + 1}", f"fd00::{number + 1:x}"


def announced_by_all(names):
    """An address of each family for each router."""
    return [Announced(it, it, [name]) for at, name in enumerate(names) for it in addresses_of(at)]


class Router(Devices, Counters):
    """A router's namespace."""

    def __init__(self, name):
        Counters.__init__(self, name, ("dev", "snmp", "snmp6", "if_inet6"))
        with entered(name):
            Devices.__init__(self, socket.socket(socket.AF_INET, socket.SOCK_DGRAM))

    def close(self):
        self.socket.close()
        super().close()

    def sent(self):
        """The bytes and the packets that it has sent over links."""
        lines = [line.replace(":", " ").split() for line in self.read("dev")[2:]]
        return [sum(int(it[at]) for it in lines if it[0] != "lo") for at in (9, 10)]

    def expired(self):
        """The packets that came with the last step that they had left."""
        sixes = dict(line.split() for line in self.read("snmp6"))
        return self.count("snmp", "Ip", "InHdrErrors") + int(sixes["Ip6InHdrErrors"])

    def link_local(self, device):
        """The address of the link at a device, or None while it has none."""
        lines = [line.split() for line in self.read("if_inet6")]
        found = [it[0] for it in lines if it[5] == device and it[3] == "20"]
        return socket.inet_ntop(socket.AF_INET6, bytes.fromhex(found[0])) if found else None


class Network:
    """The routers, their links, and their daemons. All of it ends with this process. `daemon` says how a router's daemon is run, as
    revrouted.Daemon does."""

    def __init__(self, names, links, announced, daemon):
        self.names, self.links, self.announced, self.daemon = names, links, announced, daemon
        # the processes of each router whose daemon runs: some daemons have several
        self.running, self.ended, self.starts, self.taken = {}, [], 0, 0
        # the number with which each router has started last, its costs that are not 1, by the device, and who announces nothing
        self.numbers, self.costs, self.silent = {}, {it: {} for it in names}, set()
        run("mkdir", "-p", FOLDER)
        ip(*(f"netns add {name}" for name in names))
        for name in names:
            set_sysctls(name)
            set_sysctls(name, 6, SIXES)
        ip(*link_lines(names, links))
        for name in names:
            up = [f"link set dev {it} up" for it in ("lo", *beside(name, links))]
            ip(*up, *(f"address add {it} dev lo" for it in self.addresses(name)), inside=name)
            self.mount_state(name)
        self.routers = {it: Router(it) for it in names}

    def close(self):
        self.kill(*self.running)
        for it in self.routers.values():
            it.close()
        run("umount", *(self.state(it) for it in self.names))
        ip(*(f"netns del {it}" for it in self.names))

    def addresses(self, name):
        """The addresses that a router has, one in each prefix that it announces."""
        return [it.address for it in self.announced if name in it.routers]

    # Links

    def set_link(self, u, v, is_up):
        """Sets the end of a link at u down or up, so v loses or gets its carrier."""
        self.routers[u].set_device(v, is_up)

    def deafen(self, u, v, is_deaf):
        """Has u lose all that comes from v, or no more."""
        table = f"table inet deaf_{v}"
        chain = f"{{ chain ear {{ type filter hook prerouting priority -400; iifname {v} drop; }}; }}"
        with entered(u):
            run("nft", f"add {table}; delete {table}" + f"; {table} {chain}" * is_deaf)

    def add_default(self, name, device):
        """Gives a router a default route for IPv4 over a device. It has none to a neighbour whose end of the link is down."""
        if via := self.routers[device].link_local(name):
            run("ip", "-4", "-n", name, "route", "replace", "default", "via", "inet6", via, "dev", device)

    # Daemons

    def state(self, name):
        return FOLDER / name

    def mount_state(self, name):
        """Gives a router a small disk of its own."""
        run("mkdir", "-p", self.state(name))
        run("mount", "-t", "tmpfs", "-o", f"size={STATE_SIZE}", "tmpfs", self.state(name))

    def fill_disk(self, name):
        try:
            with open(self.state(name) / "filler", "wb", buffering=0) as file:
                while True:
                    file.write(bytes(1024))
        except OSError:
            pass

    def empty_disk(self, name):
        (self.state(name) / "filler").unlink(missing_ok=True)

    def start(self, *some, number=None, environment=None):
        """Starts daemons, perhaps with the number of another router."""
        for name in some:
            self.numbers[name] = self.names.index(name) if number is None else number
            self.running[name] = []
            for words in self.daemon.commands(self, name):
                self.running[name].append(self.spawn(name, words, environment))
            self.starts += 1

    def spawn(self, name, words, environment):
        with open(self.log(name), "ab") as log, entered(name):
            how = {"stdin": subprocess.DEVNULL, "stdout": log, "stderr": log, "preexec_fn": die_with_parent}
            return subprocess.Popen([*map(str, words)], env={**os.environ, **(environment or {})}, **how)

    def processes(self):
        return [it for some in self.running.values() for it in some]

    def write_configuration(self, name):
        """Writes the configuration in one step: a daemon may read it at any time."""
        file, new = FOLDER / f"{name}.toml", FOLDER / f"{name}.toml.new"
        prefixes = [it.prefix for it in self.announced if name in it.routers and name not in self.silent]
        new.write_text(revrouted.configuration(self.numbers[name] + 1, self.state(name), prefixes, self.daemon.timers, self.costs[name]))
        return new.replace(file)

    def set_costs(self, name, costs):
        """It costs a router something else to send packets over some devices."""
        self.costs[name] |= costs
        self.reload(name)

    def withdraw(self, name, is_silent):
        """Has a router announce no prefix, or all of its own again."""
        self.silent = self.silent | {name} if is_silent else self.silent - {name}
        self.reload(name)

    def reload(self, name):
        """Has a daemon read its configuration, once it takes the signal."""
        self.write_configuration(name)
        if all(takes(it.pid, signal.SIGHUP) for it in self.running.get(name, ())):
            self.signal(name, signal.SIGHUP)

    def kill(self, *some):
        """Kills daemons. Their kernels keep what they were told."""
        ended = [it for name in [*some] for it in self.running.pop(name, ())]
        for it in ended:
            self.taken += seconds_of(it.pid)
            it.kill()
        for it in ended:
            it.wait()

    def signal(self, name, what):
        for it in self.running.get(name, ()):
            it.send_signal(what)

    def gone(self):
        """The routers whose daemons have ended by themselves, each with its status and the last line that it said."""
        found = {}
        for name, some in self.running.items():
            for it in some:
                if it.poll() is not None:
                    found[name] = f"the daemon of {name} has ended with status {it.returncode}: {self.last_line(name)}"
        self.kill(*found)
        return found

    def log(self, name):
        return FOLDER / f"{name}.log"

    def keep_tables(self, what, address, *names):
        """Writes what the kernels of some routers have for packets to an address now, into a file beside what the daemons say."""
        family = "-6" if ":" in address else "-4"
        asked = ((family, "route", "show", "to", "match", address, "table", "all"), (family, "rule"), ("nexthop",))
        with open(self.log(what), "w") as log:
            for name in names:
                for words in asked:
                    print(f"--- {name}, for packets to {address}: ip {' '.join(words)}", file=log, flush=True)
                    subprocess.run(["ip", "-n", name, *words], stdout=log, stderr=log)

    def last_line(self, name):
        return (self.log(name).read_text(errors="replace").splitlines() or [""])[-1]

    # Measures

    def seconds(self):
        """The seconds of a processor that all daemons have taken."""
        return self.taken + sum(seconds_of(it.pid) for it in self.processes())

    def memory(self):
        """The KiB that each daemon takes, with its share of what several use."""
        return [sum(memory_of(it.pid) for it in some) for some in self.running.values()]

    def sent(self):
        """The bytes and packets that all routers have sent."""
        return [sum(some) for some in zip(*(it.sent() for it in self.routers.values()))]

    def expired(self):
        return sum(it.expired() for it in self.routers.values())


def seconds_of(pid):
    try:
        return int(Path("/proc", str(pid), "schedstat").read_text().split()[0]) / TICKS
    except (OSError, IndexError):
        return 0


def takes(pid, number):
    """Whether a process has a handler for a signal."""
    lines = Path("/proc", str(pid), "status").read_text().splitlines()
    caught = next((line.split()[1] for line in lines if line.startswith("SigCgt")), "0")
    return bool(int(caught, 16) >> number - 1 & 1)


def memory_of(pid):
    lines = Path("/proc", str(pid), "smaps_rollup").read_text().splitlines()
    return sum(int(line.split()[1]) for line in lines if line.startswith("Pss:"))


def built(source, *words):
    """What a source in C makes."""
    made = Path(RUN, source).with_suffix("")
    run("cc", "-O2", "-o", made, HERE / source, *words)
    return made


class Watch:
    """The program of watch.c over a network: rounds of probes and loops, as they come."""

    def __init__(self, network, probe_ms, read_ms):
        self.network, self.rounds, self.loops, self.reads, self.targets = network, [], [], None, network.announced
        lab = FOLDER / "lab"
        routers = [f"router {name} {' '.join(addresses_of(at))}" for at, name in enumerate(network.names)]
        targets = [f"target {it.address} {' '.join(str(network.names.index(name)) for name in it.routers)}" for it in network.announced]
        lab.write_text("\n".join([*routers, *targets]) + "\n")
        pipes = {"stdin": subprocess.PIPE, "stdout": subprocess.PIPE, "text": True, "preexec_fn": hurry}
        program = Path(RUN, "watch")
        if not program.exists():
            built("watch.c", "-lpthread")
        self.process = subprocess.Popen([*map(str, (program, lab, probe_ms, read_ms))], **pipes)
        self.thread = Thread(target=self.follow)
        self.thread.start()

    def follow(self):
        for line in self.process.stdout:
            kind, *words = line.split()
            if kind == "round":
                self.rounds.append(Round(float(words[0]), int(words[1]), bytes.fromhex("".join(words[2:]))))
            elif kind == "loop":
                if len(self.loops) < MOST_LOOPS_KEPT:
                    self.network.keep_tables(f"loop-{len(self.loops) + 1}", *words[1:])
                self.loops.append((float(words[0]), words[1], words[2:]))
            elif kind == "reads":
                self.reads = Reads(*map(int, words[:4]), float(words[4]))

    def last(self, family):
        """The last round of a family, or None."""
        return next((it for it in reversed(self.rounds) if it.family == family), None)

    def close(self):
        """Ends the program, once the last probes are back. Returns what it says of its reads."""
        self.process.stdin.close()
        self.thread.join()
        if self.process.wait() or not self.reads:
            raise OSError("watch has failed")
        return self.reads


# How often all kernels were read; how many loops were seen at a first look, how many of them were gone after their tables had changed
# during the second look, and how many count; and the milliseconds of a read.
Reads = namedtuple("Reads", "count once unclear twice milliseconds")


def hurry():
    """The program that watches should not wait for what it watches."""
    die_with_parent()
    libc.nice(-5)
