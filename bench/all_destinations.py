"""Compares daemons on routers each of which is a destination: what bench/routers does with `all`."""

import argparse
import statistics
import sys

import daemon_network
import daemon_run
import inside
import routing
from daemon_figures import ms
from daemon_network import FOLDER, Announced, addresses_of
from namespaces import beside, ip

# The events of the calm part of examples/linux/daemon-lab, without other costs, which each daemon has in a form of its own.
PLAN = "link:8,double:4,triple:4,kill:2,restart:2,flap:2,one-way:2,stop:1"
# Probes go to IPv4 by turns with IPv6, where nothing is announced.
PROBE_MS = 25
FAILURES = "link", "double", "triple", "flap"
COLUMNS = (
    "Engine|Loops|Expired|Lost|Failures with an outage|Outage, ms: median; most|One-way loss|Started again|Shortest again after a repair"
    "|Route|Idle: bytes/s, processors|Busy: processors|KiB of a router"
)


class Daemon:
    """How a network of daemon_network.py runs the daemon of a protocol."""

    def __init__(self, protocol):
        self.protocol = protocol

    def commands(self, network, name):
        announced = {it.prefix: it.routers for it in network.announced}
        own = [prefix for prefix, routers in announced.items() if name in routers]
        number = network.names.index(name) + 1
        return self.protocol.commands(routing.Place(FOLDER, number, name, beside(name, network.links), own, [*announced]))


class Network(daemon_network.Network):
    """Routers whose links have addresses of IPv4, which most protocols need."""

    def __init__(self, names, links, daemon):
        own = {name: addresses_of(at) for at, name in enumerate(names)}
        super().__init__(names, links, [Announced(f"{own[name][0]}/32", own[name][0], [name]) for name in names], daemon)
        for name in names:
            # probes of IPv6 come from there
            ip(*routing.addressed(name, links), f"address add {own[name][1]} dev lo", inside=name)


def row(name, run, found):
    """The row of a table."""
    report, outages = run.report, lambda *kinds: [it.outage for kind in kinds for it in found.get(kind, ()) if it.lost]
    lost, asked = report["lost"]
    failures = [it for kind in FAILURES for it in found.get(kind, ())]
    cells = (
        f"{report['twice']:,} in {report['count']:,} reads",
        f"{report['expired']:,}",
        f"{lost:,} of {asked:,}: {100 * lost / max(1, asked):.2f} %",
        f"{len(outages(*FAILURES))} of {len(failures)}",
        ms(outages(*FAILURES)),
        ms(outages("one-way")),
        ms(outages("restart")),
        ms([it.settled for it in found.get("repair", ())]),
        f"{statistics.mean(it.ratio for some in found.values() for it in some):.3f}",
        f"{report['idle']['bytes/s']:,}, {report['idle']['processors']:.4f}",
        f"{report['busy']['processors']:.4f}",
        f"{report['memory KiB'][0]:,}",
    )
    return "|".join([name, *cells])


def measure(name, protocol, asked):
    """Drives the daemons of a protocol through the events, and prints the row."""
    run = daemon_run.Run(asked, Network(*daemon_run.drawn_links(asked), Daemon(protocol)))
    try:
        print(row(name, run, run.calm()), flush=True)
    except (daemon_run.Wrong, OSError) as why:
        print(f"bench/routers: {name}: {why}", file=sys.stderr)
    finally:
        run.close()


def main(words):
    parser = argparse.ArgumentParser(prog="bench/routers all", description=__doc__)
    parser.add_argument("rows", metavar="ROW", nargs="*", help="a word of the names of the rows to measure")
    daemon_run.add_options(parser)
    parser.set_defaults(plan=PLAN, probe=PROBE_MS)
    asked = parser.parse_args(words)
    protocols = routing.protocols()
    try:
        inside.go_inside(daemon_run.NEEDED)
        inside.try_out()
    except inside.LeftOut as it:
        sys.exit(f"bench/routers: no routers, since {it.why}")
    print(f"{asked.network}, seed {asked.seed}, {asked.plan}: {', '.join(routing.versions())}\n")
    print(COLUMNS)
    print("|".join("---" for _ in COLUMNS.split("|")))
    for name, it in protocols.items():
        if not asked.rows or any(word in name for word in asked.rows):
            measure(name, it, asked)
