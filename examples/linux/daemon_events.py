"""What happens to a network of routers, drawn from a seed: a plan of events with time between them, or a storm."""

import random
import signal
import time
from collections import namedtuple

from namespaces import beside

# When something happened, and what; the links that then carry packets both ways, and the routers whose daemons run.
Event = namedtuple("Event", "time kind links live")
SECONDS_OF_A_FLAP, SECONDS_OF_A_STOP = 0.05, 2
# What a start takes, beyond the time between events, and how long one end of a link is deaf.
SECONDS_OF_A_START, SECONDS_OF_DEAFNESS = 1, 2
# What a link costs once it is dear. In a storm, costs are drawn from some.
DEAR, SOME_COSTS = 3, (1, 2, 4)


class Events:
    """The links and daemons of a network, as events have changed them."""

    def __init__(self, network, seed, dwell):
        self.network, self.draw, self.dwell = network, random.Random(seed), dwell
        self.up, self.deaf, self.live, self.past = [*network.links], [], [*network.names], []

    def note(self, kind):
        usable = [it for it in self.up if it not in self.deaf]
        self.past.append(Event(time.monotonic(), kind, usable, [*self.live]))

    def wait(self, more=0):
        time.sleep(self.dwell + more)

    def run(self, plan):
        """Goes through the events of a plan, whose names have counts, in a drawn order."""
        order = [kind for kind, count in plan.items() for _ in range(count)]
        self.draw.shuffle(order)
        for kind in order:
            getattr(self, kind.replace("-", "_"))()
        self.note("end")

    def some_end(self, link):
        return self.draw.choice([link, link[::-1]])

    def fail(self, count, kind):
        """Links fail at once, each at one end, and come back."""
        some = self.draw.sample(self.up, count)
        self.up = [it for it in self.up if it not in some]
        ends = [self.some_end(it) for it in some]
        self.note(kind)
        for u, v in ends:
            self.network.set_link(u, v, False)
        self.wait()
        self.up += some
        self.note("repair")
        for u, v in ends:
            self.network.set_link(u, v, True)
        self.wait()

    def link(self):
        self.fail(1, "link")

    def double(self):
        self.fail(2, "double")

    def triple(self):
        self.fail(3, "triple")

    def kill(self):
        """A daemon is killed, and starts again later."""
        name = self.draw.choice(self.network.names)
        self.live.remove(name)
        self.note("kill")
        self.network.kill(name)
        self.wait()
        self.live.append(name)
        self.note("start")
        self.network.start(name)
        self.wait(SECONDS_OF_A_START)

    def restart(self):
        """A daemon is killed, and starts again at once."""
        name = self.draw.choice(self.network.names)
        self.note("restart")
        self.network.kill(name)
        self.network.start(name)
        self.wait(SECONDS_OF_A_START)

    def flap(self):
        """A link fails and comes back several times in a row."""
        u, v = self.some_end(self.draw.choice(self.up))
        self.note("flap")
        flap(self.network, self.draw, u, v)
        self.wait()

    def one_way(self):
        """One end of a link hears nothing, and both have their carrier."""
        link = self.draw.choice(self.up)
        u, v = self.some_end(link)
        self.deaf.append(link)
        self.note("one-way")
        self.network.deafen(u, v, True)
        self.wait(SECONDS_OF_DEAFNESS)
        self.deaf.remove(link)
        self.note("both ways")
        self.network.deafen(u, v, False)
        self.wait()

    def costs(self):
        """All links get dear, router by router, and then cheap. Paths of the fewest links stay the cheapest in the end."""
        for kind, cost in (("dear", DEAR), ("cheap", 1)):
            self.note(kind)
            for name in self.network.names:
                self.network.set_costs(name, {it: cost for it in beside(name, self.network.links)})
            self.wait()

    def stop(self):
        """A daemon stands still for a while. Its kernel goes on."""
        name = self.draw.choice(self.network.names)
        self.note("stop")
        self.network.signal(name, signal.SIGSTOP)
        time.sleep(SECONDS_OF_A_STOP)
        self.note("go on")
        self.network.signal(name, signal.SIGCONT)
        self.wait()


def flap(network, draw, u, v):
    for _ in range(draw.choice([1, 2, 3])):
        for is_up in (False, True):
            network.set_link(u, v, is_up)
            time.sleep(draw.random() * SECONDS_OF_A_FLAP)


# Names of events of a storm, how often each is drawn, and how many can last at the same time.
KINDS = {
    "fail": (6, 8),
    "kill": (3, 5),
    "restart": (3, 1),
    "flap": (2, 1),
    "deafen": (2, 3),
    "stop": (2, 3),
    "fill": (1, 2),
    "double": (1, 2),
    "cost": (2, 1),
    "withdraw": (2, 3),
}
# The daemons of a storm lose datagrams, get some late, write slowly and are refused writes: see storm.c.
STORM = "lost=0.2 late=0.2 mute=0.01 slow=0.02 refused=0.02"
SECONDS_LASTING, SECONDS_BETWEEN = (0.2, 6), (0.02, 0.4)
# A day, by which the clock of a router goes back at a start.
CLOCK_BACK = -86400
SECONDS_TO_REFUSE, SHARE_OF_DEFAULTS, FOREVER = 5, 0.7, float("inf")


class Storm:
    """Events in quick succession, each of which ends later. A router has one of them at a time, and so has a link."""

    def __init__(self, network, seed, library, kinds=KINDS):
        self.network, self.draw, self.library, self.kinds = network, random.Random(seed), library, kinds
        # what lasts: when it ends, its kind, the routers and links that it has, and how it ends
        self.lasting, self.counts, self.wrong, self.has_defaults = [], {}, [], False

    def environment(self):
        """That of a daemon that starts: the clock of the day may be set back."""
        clock = self.draw.choice([0, CLOCK_BACK, CLOCK_BACK * 365])
        return {"LD_PRELOAD": str(self.library), "STORM": f"{STORM} clock={clock} seed={self.draw.randrange(1 << 30)}"}

    def start(self, *some, number=None):
        for name in some:
            self.network.start(name, number=number, environment=self.environment())

    def add_defaults(self):
        """Gives each router a default route for IPv4 to a neighbour."""
        self.has_defaults = True
        for name in self.network.names:
            self.network.add_default(name, self.draw.choice(beside(name, self.network.links)))

    def repair(self, u, v):
        """Sets the end of a link at u up. The kernel has lost a default route over it."""
        self.network.set_link(u, v, True)
        if self.has_defaults and self.draw.random() < SHARE_OF_DEFAULTS:
            self.network.add_default(u, v)

    def run(self, seconds, is_over=lambda: False):
        """A storm of so many seconds, unless something is over before. In the end all is as it was."""
        end = time.monotonic() + seconds
        while time.monotonic() < end and not is_over():
            self.end_some(time.monotonic())
            self.revive()
            kind = self.draw.choices([*self.kinds], [often for often, _ in self.kinds.values()])[0]
            if sum(it[1] == kind for it in self.lasting) < self.kinds[kind][1]:
                self.counts[kind] = self.counts.get(kind, 0) + 1
                getattr(self, kind)()
            time.sleep(self.draw.uniform(*SECONDS_BETWEEN))
        self.end_some(FOREVER)
        self.revive()

    def last(self, kind, what, ends):
        self.lasting.append((time.monotonic() + self.draw.uniform(*SECONDS_LASTING), kind, what, ends))

    def end_some(self, now):
        over = [it for it in self.lasting if it[0] <= now]
        self.lasting = [it for it in self.lasting if it[0] > now]
        for _, _, what, ends in over:
            ends(*what)

    def free(self, all_of):
        """Those that no event has, in a drawn order."""
        busy = [it for _, _, what, _ in self.lasting for it in what]
        some = [it for it in all_of if it not in busy]
        return self.draw.sample(some, len(some))

    def revive(self):
        """Starts daemons that have ended by themselves, which none may do."""
        for name, why in self.network.gone().items():
            self.wrong.append(why)
            self.start(name)

    def fail(self):
        links = self.free(self.network.links)[: self.draw.choice([1, 2, 3])]
        ends = {it: self.draw.choice([it, it[::-1]]) for it in links}
        for it in links:
            self.network.set_link(*ends[it], False)
        self.last("fail", links, lambda *some: [self.repair(*ends[it]) for it in some])

    def kill(self):
        some = self.free(self.network.names)[: self.draw.choice([1, 1, 2, 4])]
        self.network.kill(*some)
        self.last("kill", some, self.start)

    def restart(self):
        for name in self.free(self.network.names)[:1]:
            self.network.kill(name)
            self.start(name)

    def flap(self):
        for u, v in self.free(self.network.links)[:1]:
            flap(self.network, self.draw, *self.draw.choice([(u, v), (v, u)]))

    def deafen(self):
        for link in self.free(self.network.links)[:1]:
            u, v = self.draw.choice([link, link[::-1]])
            self.network.deafen(u, v, True)
            self.last("deafen", [link], lambda _: self.network.deafen(u, v, False))

    def cost(self):
        for name in self.free(self.network.names)[:1]:
            other = self.draw.choice([*beside(name, self.network.links)])
            self.network.set_costs(name, {other: self.draw.choice(SOME_COSTS)})

    def withdraw(self):
        """A router announces nothing for a while."""
        for name in self.free(self.network.names)[:1]:
            self.network.withdraw(name, True)
            self.last("withdraw", [name], lambda name: self.network.withdraw(name, False))

    def stop(self):
        for name in self.free(self.network.names)[:1]:
            self.network.signal(name, signal.SIGSTOP)
            self.last("stop", [name], lambda name: self.network.signal(name, signal.SIGCONT))

    def fill(self):
        """A daemon is to start while its disk is full: it must end, and say why."""
        for name in self.free(self.network.names)[:1]:
            self.network.kill(name)
            self.network.fill_disk(name)
            self.start(name)
            (process,) = self.network.running.pop(name)
            try:
                status = process.wait(SECONDS_TO_REFUSE)
            except Exception:
                status = None
                process.kill()
                process.wait()
            if not status or "No space left" not in self.network.last_line(name):
                self.wrong.append(f"with a full disk {name} ends with status {status}: {self.network.last_line(name)}")
            self.last("fill", [name], self.start_emptied)

    def start_emptied(self, name):
        self.network.empty_disk(name)
        self.start(name)

    def double(self):
        """A daemon starts with the number of another router."""
        for name in self.free(self.network.names)[:1]:
            other = self.draw.choice([it for it in self.network.names if it != name])
            self.network.kill(name)
            self.start(name, number=self.network.names.index(other))
            self.last("double", [name], self.start_as_itself)

    def start_as_itself(self, name):
        self.network.kill(name)
        self.start(name)
