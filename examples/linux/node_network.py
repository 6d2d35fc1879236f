"""Routers without a controller in the kernels of a lab: their processes, what their kernels hold, and loops in that.
"""

import graphlib
import subprocess
import sys
from pathlib import Path

import inside
from kernels import TARGET, Lab
from namespaces import RUN, die_with_parent, entered
from netlink import Routes

DAEMON = Path(__file__).resolve().with_name("node_daemon.py")
# where daemons keep their boot numbers
STATE = Path(RUN, "state")


class Network(Lab):
    """The lab of the other programs here, with reads of gates, and probes that say in which round they were sent."""

    def __init__(self, addresses, links):
        super().__init__(addresses, links)
        self.links, self.names, self.kernels, self.round, self.came = links, [*addresses], {}, 0, {}
        for name in self.names:
            with entered(name):
                self.kernels[name] = Routes(TARGET, {})

    def close(self):
        for it in self.kernels.values():
            it.close()
        super().close()

    def probe(self):
        """Begins a round: sends a probe from each router but the gateway."""
        self.round += 1
        self.came[self.round] = set()
        for name, router in self.routers.items():
            if name != self.gateway:
                router.probe(self.round.to_bytes(4, "big"))
        self.receive()

    def receive(self):
        try:
            while True:
                data, (address, _) = self.sink.recvfrom(8)
                self.came[int.from_bytes(data, "big")].add(address)
        except BlockingIOError:
            pass

    def held(self, name):
        """The ways and the open gates in a router's kernel."""
        kernel = self.kernels[name]
        return {self.names[it - 100] for devices in kernel.read() for it in devices}, kernel.open_gates()

    def words(self, name, beside=None):
        """The words for the daemon of a router: with all its neighbours, or with some."""
        beside = beside or [v if u == name else u for u, v in self.links if name in (u, v)]
        options = ["--state", STATE, *(["--gateway"] if name == self.gateway else [])]
        neighbours = [f"{self.names.index(it)}:{it}:{self.addresses[it]}" for it in beside]
        return [*options, self.names.index(name), TARGET, *neighbours]

    def start(self, name, *words, **how):
        """Starts a Python program on a router. Without the folders of installed packages it starts sooner."""
        how |= {"env": inside.environment(), "preexec_fn": die_with_parent}
        with entered(name):
            return subprocess.Popen([sys.executable, "-S", *map(str, words)], **how)


def used(held):
    """The routers to which each router uses a link: it has a way there, and is let in there. The gateway sends to
    none, so it is in no loop."""
    return {it: {way for way in ways if way in held and it in held[way][1]} for it, (ways, _) in held.items()}


def find_loop(ways):
    try:
        graphlib.TopologicalSorter(ways).prepare()
    except graphlib.CycleError as error:
        return error.args[1]
    return None
