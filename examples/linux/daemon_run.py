"""A run of a network of daemons, with all that is looked at meanwhile: its options, its events, and what is wrong in the end."""

import os
import random
import statistics
import time
from pathlib import Path

import daemon_events
import daemon_figures
import mesh
from daemon_network import FOLDER, Watch

NETWORKS = "ring", "geometric", "fat-tree"
# The events of the calm part, by their names in daemon_events.py.
PLAN = "link:8,double:4,triple:4,kill:2,restart:2,flap:2,one-way:2,stop:1,costs:1"
SEED, ROUTERS, PROBE_MS, READ_MS, DWELL, QUIET = 22, 28, 50, 20, 2.5, 8
NEEDED = {"nft": "nftables", "cc": "gcc"}
SECONDS_TO_START, SECONDS_TO_REPAIR = 60, 60


class Wrong(Exception):
    """A run has to end, and why."""


def add_options(parser):
    """The options that say which network there is, what happens to it, and how it is watched."""
    parser.add_argument("--network", choices=NETWORKS, default="ring", help="how the routers are connected (%(default)s)")
    parser.add_argument("--routers", metavar="N", type=int, default=ROUTERS, help="how many there are (%(default)s)")
    parser.add_argument("--seed", metavar="N", type=int, default=SEED, help="draws the network and the events (%(default)s)")
    parser.add_argument("--plan", metavar="EVENTS", default=PLAN, help="the events of a calm part, with counts (%(default)s)")
    parser.add_argument("--dwell", metavar="SECONDS", type=float, default=DWELL, help="the time after each of them (%(default)s)")
    parser.add_argument("--quiet", metavar="SECONDS", type=float, default=QUIET, help="how long bytes are counted while all is idle (%(default)s)")
    parser.add_argument("--probe", metavar="MS", type=int, default=PROBE_MS, help="milliseconds between rounds of probes (%(default)s)")
    parser.add_argument("--read", metavar="MS", type=int, default=READ_MS, help="milliseconds between reads of all kernels (%(default)s)")
    parser.add_argument("--logs", metavar="FOLDER", type=Path, help="where what the daemons say is kept, and the tables of routers with a loop")


def drawn_links(asked):
    """The names of the routers, and their links."""
    names, draw = mesh.named(asked.routers), random.Random(asked.seed)
    if asked.network == "geometric":
        return names, mesh.geometric(draw, asked.routers, 2 * asked.routers)
    if asked.network == "fat-tree":
        return names, mesh.fat_tree(asked.routers)
    return names, mesh.mesh(draw, asked.routers, asked.routers if asked.routers > 8 else asked.routers // 2)[1]


class Run:
    """A network with daemons, and what watches it. `asked` has the options of daemon-lab that are about the network and its events."""

    def __init__(self, asked, network):
        names, links = network.names, network.links
        self.asked, self.network, self.wrong = asked, network, []
        self.report = {"network": asked.network, "seed": asked.seed, "routers": len(names), "links": len(links)}
        self.all_up = daemon_events.Event(0, "", links, names)

    def close(self):
        if self.asked.logs:
            self.asked.logs.mkdir(parents=True, exist_ok=True)
            for it in FOLDER.glob("*.log"):
                (self.asked.logs / it.name).write_bytes(it.read_bytes())
        self.network.close()

    def wait_for_all(self, watch, seconds):
        """Waits until probes of all pairs arrive, and returns after how many seconds they did."""
        begun = time.monotonic()
        expected = daemon_figures.Expected(self.network.names, self.network.announced, self.all_up)
        while True:
            rounds = [watch.last(family) for family in (4, 6)]
            if all(it and it.time >= begun and not expected.missing(it) for it in rounds):
                return max(it.time for it in rounds) - begun
            if time.monotonic() - begun > seconds:
                missing = " and ".join(expected.told(it) for it in rounds if it)
                raise Wrong(f"after {seconds} seconds, probes do not arrive of {missing}")
            time.sleep(0.05)

    def start(self):
        """Starts all daemons, and waits until all pairs have routes. Sends no probes after that."""
        watch = Watch(self.network, 100, self.asked.read)
        begun = time.monotonic()
        try:
            self.network.start(*self.network.names)
            self.wait_for_all(watch, SECONDS_TO_START)
            self.report["ready"] = round(time.monotonic() - begun, 2)
        finally:
            self.take(watch)

    def take(self, watch):
        """Ends what watches, and takes what it has seen."""
        reads = watch.close()
        for key, value in reads._asdict().items():
            self.report[key] = value if key == "milliseconds" else self.report.get(key, 0) + value
        if watch.loops:
            _, address, routers = watch.loops[0]
            self.wrong.append(f"{len(watch.loops)} loops in {reads.count} reads, the first to {address} by {' '.join(routers)}")

    def look_at_the_end(self):
        self.report["expired"] = self.network.expired()
        if self.report["expired"]:
            self.wrong.append(f"{self.report['expired']} packets expired")
        self.wrong += self.network.gone().values()
        memory = self.network.memory()
        self.report |= {"memory KiB": [round(statistics.median(memory)), max(memory)], "starts": self.network.starts, "load": round(os.getloadavg()[0], 1)}

    def measured(self, key, doing):
        """Notes what was sent, and the processors that all daemons took, while something was done."""
        sent, taken, begun = self.network.sent(), self.network.seconds(), time.monotonic()
        doing()
        seconds = time.monotonic() - begun
        per = [round((after - before) / seconds) for before, after in zip(sent, self.network.sent())]
        self.report[key] = {"seconds": round(seconds, 1), "processors": round((self.network.seconds() - taken) / seconds, 4)}
        # probes are sent as well while something happens
        self.report[key] |= {"bytes/s": per[0], "packets/s": per[1]} if key == "idle" else {}

    def calm(self):
        """Waits until all pairs have routes, measures what the daemons take while nothing happens, and goes through the plan of events.
        Returns what the probes showed, by the kind of event."""
        asked = self.asked
        self.start()
        self.measured("idle", lambda: time.sleep(asked.quiet))
        watch = Watch(self.network, asked.probe, asked.read)
        events = daemon_events.Events(self.network, asked.seed, asked.dwell)
        plan = {kind: int(count or 1) for kind, _, count in (it.partition(":") for it in asked.plan.split(",") if it)}
        try:
            time.sleep(1)
            self.measured("busy", lambda: events.run(plan))
            self.wait_for_all(watch, SECONDS_TO_REPAIR)
        finally:
            self.take(watch)
        self.look_at_the_end()
        found = daemon_figures.parts(self.network.names, self.network.announced, events.past, watch.rounds)
        some = [it for kind in found.values() for it in kind]
        self.report |= {"plan": asked.plan, "lost": [sum(it.lost for it in some), sum(it.asked for it in some)]}
        return found
