"""Figures of a run: from rounds of probes and events, what was lost, for how long, and by which steps probes came."""

import statistics
from collections import defaultdict

from mesh import steps

# A round that was sent so many seconds before the next event may have met it.
SECONDS_BEFORE = 0.3
COLUMNS = "Event|How many|With an outage|Outage, ms: median; most|Lost|Shortest again, ms: median; most|Steps"


class Expected:
    """The pairs of routers and targets that have a path after an event, each with its place in a round, and the fewest steps."""

    def __init__(self, names, targets, event):
        live = {*event.live}
        links = [it for it in event.links if live.issuperset(it)]
        far = {name: steps(links, name) for name in event.live}
        self.of, self.names, self.targets = {}, names, {}
        for family in (4, 6):
            some = self.targets[family] = [it for it in targets if (":" in it.address) == (family == 6)]
            self.of[family] = [
                (row * len(some) + column, min(far[name][it] for it in target.routers if it in far[name]))
                for row, name in enumerate(names)
                if name in live
                for column, target in enumerate(some)
                if name not in target.routers and any(it in far[name] for it in target.routers)
            ]

    def missing(self, it):
        return [place for place, _ in self.of[it.family] if not it.steps[place]]

    def told(self, it):
        """The pairs that are missing in a round, as a text."""
        some = self.targets[it.family]
        pairs = [(self.names[place // len(some)], some[place % len(some)].address) for place in self.missing(it)]
        return f"{len(pairs)} pairs of IPv{it.family}" + "".join(f", as {name} to {address}" for name, address in pairs[:1])


class Part:
    """What the probes showed after one event."""

    def __init__(self, expected, event, rounds):
        self.asked = self.lost = 0
        # seconds until the last round in which a probe was lost, and until the last one that took more steps than it could
        self.outage = self.settled = 0
        for it in rounds:
            pairs = expected.of[it.family]
            missing = sum(not it.steps[place] for place, _ in pairs)
            self.asked += len(pairs)
            self.lost += missing
            if missing:
                self.outage = it.time - event.time
            if any(it.steps[place] != fewest for place, fewest in pairs):
                self.settled = it.time - event.time
        last = {it.family: it for it in rounds}
        came = [(it.steps[place], fewest) for it in last.values() for place, fewest in expected.of[it.family] if it.steps[place]]
        self.ratio = sum(it for it, _ in came) / max(1, sum(it for _, it in came))


def parts(names, targets, events, rounds):
    """The parts of a run by the kind of their event."""
    found = defaultdict(list)
    for event, after in zip(events, events[1:]):
        some = [it for it in rounds if event.time <= it.time < after.time - SECONDS_BEFORE]
        if some:
            found[event.kind].append(Part(Expected(names, targets, event), event, some))
    return found


def ms(times):
    """The median and the most of some seconds, in milliseconds."""
    return f"{1000 * statistics.median(times):.0f}; {1000 * max(times):.0f}" if times else "-"


def row(kind, some):
    """A row of the table."""
    outages = [it.outage for it in some if it.lost]
    lost = f"{sum(it.lost for it in some):,} of {sum(it.asked for it in some):,}"
    settled = ms([it.settled for it in some])
    ratio = statistics.mean(it.ratio for it in some)
    return "|".join(map(str, (kind, len(some), len(outages), ms(outages), lost, settled, f"{ratio:.3f}")))


def table(found):
    """The lines of a table of all kinds of events."""
    yield COLUMNS
    yield "|".join("---" for _ in COLUMNS.split("|"))
    for kind, some in found.items():
        yield row(kind, some)
    if found:
        yield row("all", [it for some in found.values() for it in some])
