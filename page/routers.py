"""Routers that act by themselves: what the lab's server keeps of them.

Each router is a node of the library (docs/NODES.md), which talks to its neighbours by messages. Nothing happens by
itself here. An action lets one thing happen: a message arrives or is lost, an end of a link notices that the link is up
or down, a table is written, a router restarts. So the user can hold back whatever he likes.

The rules of a daemon are kept. The table of a router is apart from its node. It is written after an event, then the
node is told so, and only then the router sends its news. Loops are looked for in the tables as they are written, since
packets follow these.
"""

import json
import random
import struct
import sys
import tempfile
import threading
import zipfile

MOST_ROUTERS, MOST_LINKS = 64, 256
# So many messages are under way on a link at once, in each direction. If one more is sent, the oldest is lost.
MOST_ON_A_LINK = 4
# A router starts this high. So the gateway is below it, whatever their numbers are.
BEGIN = 64
# A message of a node (docs/MESSAGES.md): who sends it and to whom, its distance, its boot number
# and the receiver's that it knows, the number and the height of its announcement, the number that it has heard, and its
# stamp.
FORM = struct.Struct(">4s3I6Q")


class NotDone(Exception):
    """An action that cannot be done, and why."""


def node_of(wheel):
    """The class `Node` of the package in this wheel. The files are needed only until the library is loaded."""
    with tempfile.TemporaryDirectory(prefix="revroute-lab-") as room:
        try:
            with zipfile.ZipFile(wheel) as it:
                it.extractall(room)
            sys.path.insert(0, room)
            try:
                import revroute
            finally:
                sys.path.remove(room)
        except (OSError, ImportError, zipfile.BadZipFile) as error:
            raise NotDone(f"The library in {wheel} cannot be loaded: {error}.") from None
    return revroute.Node


def listed(numbers):
    """Numbers as words: 1, 2 and 3."""
    *first, last = map(str, numbers)
    return f"{', '.join(first)} and {last}" if first else last


def loop_in(used):
    """A loop of links, each from a router to another: its routers, of which the last is the first; or no routers."""
    follows = {}
    for tail, head in used:
        follows.setdefault(tail, []).append(head)
    done = set()
    for start in follows:
        path, rest = [start], [iter(follows[start])]
        while path:
            head = next(rest[-1], None)
            if head is None:
                done.add(path.pop())
                rest.pop()
            elif head in path:
                return [*path[path.index(head) :], head]
            elif head not in done:
                path.append(head)
                rest.append(iter(follows.get(head, ())))
    return []


class Router:
    """A node, and the table of its router as it is written: the ways, and the neighbours that are let in. `up` has the
    neighbours to which it takes the link for up."""

    def __init__(self, node, neighbours, boot):
        self.node, self.neighbours, self.boot = node, neighbours, boot
        for it in neighbours:
            node.know(it)
        # A router starts with an empty table, whatever an earlier start has left.
        self.ways, self.gates, self.up, self.is_written = [], set(), set(), True

    def notice(self, neighbour, is_up):
        """An event: the link to a neighbour is up or down."""
        self.is_written = False
        if is_up:
            self.up.add(neighbour)
            self.node.link_up(neighbour)
        else:
            self.up.discard(neighbour)
            self.node.link_down(neighbour)

    def hear(self, neighbour, data):
        """A message arrives. So the link to its sender is up. It is an event, unless this message or a later one has
        arrived before: then the node ignores it."""
        if neighbour not in self.up:
            self.notice(neighbour, True)
        before = self.node.table().state
        self.node.hear(data)
        if self.node.table().state != before:
            self.is_written = False

    def write(self):
        """Closes gates, changes the ways, and then opens gates. Only then the node may say something."""
        ways, gates, state = self.node.table()
        self.gates &= {*gates}
        self.ways = ways
        self.gates = {*gates}
        self.node.written(state)
        self.is_written = True


class Message:
    """A message under way. One that is held back arrives only if somebody wants just this one to arrive."""

    def __init__(self, number, data):
        self.number, self.data, self.is_held = number, data, False
        _, self.tail, self.head, _, _, self.echo, _, self.height, _, _ = FORM.unpack(data)

    def text(self, boot):
        """What the message is to its receiver: a height. It counts only if the sender knows the receiver's present
        start. Until then it is a greeting, or is for an earlier start."""
        return str(self.height) if self.echo == boot else "old" if self.echo else "hello"


class Routers:
    """A network of routers: `home` is the gateway. With `lower` a router also comes down to its distance. With
    `at_once` each table is written after each event; otherwise by an action."""

    def __init__(self, node, nodes, home, links, lower, at_once):
        self.node, self.home, self.lower, self.at_once = node, home, lower, at_once
        self.links = {frozenset(it): True for it in links}
        self.near = [sorted(other for it in self.links if x in it for other in it - {x}) for x in range(nodes)]
        self.under_way, self.sent, self.said = {}, 0, ""
        # For each router and neighbour the message that was sent last; and those that have to say it again, because it
        # was lost.
        self.last, self.again = {}, set()
        # In the present action: each router and neighbour with too many messages between them.
        self.crowded = set()
        self.routers = [self.started(x, 1) for x in range(nodes)]
        for x in range(nodes):
            self.find_links(x)
        self.said = "Each router has sent its first messages. None has arrived."

    def started(self, x, boot):
        """A router that starts. Without a ceiling it acts by full link reversal: without a way it rises above all its
        neighbours. Without a wait it uses its new height at once, and closes its gates meanwhile: this can be seen."""
        if x == self.home:
            return Router(self.node.gateway(x, boot), self.near[x], boot)
        return Router(self.node(x, boot, BEGIN, lower=self.lower, wait=False), self.near[x], boot)

    def find_links(self, x):
        """A router that starts finds the links that are up, writes its table, and says its first messages."""
        for it in self.near[x]:
            if self.links[frozenset((x, it))]:
                self.routers[x].notice(it, True)
        self.write(x)

    def write(self, x):
        """Writes the table of a router, and then sends its news."""
        router = self.routers[x]
        router.write()
        for it in router.neighbours:
            if router.node.has_news(it):
                self.send(x, it)

    def send(self, x, neighbour):
        """Sends the message of a router to a neighbour. On a link that is down it is lost, and so is the oldest one
        where there are too many."""
        data = self.routers[x].node.say(neighbour)
        if data is None:
            return
        self.sent += 1
        self.last[x, neighbour], self.under_way[self.sent] = self.sent, Message(self.sent, data)
        older = [it.number for it in self.under_way.values() if (it.tail, it.head) == (x, neighbour)]
        if not self.links[frozenset((x, neighbour))]:
            self.drop(self.sent)
        elif len(older) > MOST_ON_A_LINK:
            self.drop(older[0])
            self.crowded.add((x, neighbour))

    def drop(self, number):
        it = self.under_way.pop(number)
        if self.last[it.tail, it.head] == number:
            self.again.add((it.tail, it.head))

    def settle(self, x):
        """After an event of a router: its table is written, if this is not somebody's choice."""
        if self.at_once:
            self.write(x)

    def changed(self, x, act):
        """Does what concerns a router, and says what that changed of it."""
        router = self.routers[x]
        old, ways, gates = router.node.height, router.ways, set(router.gates)
        act()
        height, told = router.node.height, []
        if height > old:
            told.append(f"It has no way, so it rises from {old} to {height}.")
        elif height < old:
            told.append(f"It comes down from {old} to {height}.")
        if router.ways != ways:
            told.append(f"It now sends to {listed(router.ways)}." if router.ways else "It now has no way.")
        if opened := router.gates - gates:
            told.append(f"It now lets in {listed(sorted(opened))}.")
        if closed := gates - router.gates:
            told.append(f"It no longer lets in {listed(sorted(closed))}.")
        if not router.is_written:
            told.append("Its table is not written yet.")
        return told or ["Nothing changes."]

    # What may happen next.

    def notices(self):
        """The ends of links that do not know whether the link is up: a router and the neighbour at the other end."""
        ends = [(x, it) for x, near in enumerate(self.near) for it in near]
        return [(x, it) for x, it in ends if self.links[frozenset((x, it))] != (it in self.routers[x].up)]

    def free(self):
        """The messages that are not held back."""
        return [it for it in self.under_way.values() if not it.is_held]

    def missing(self):
        """The routers, each with a neighbour that has to hear it again, where that is possible. A message that is held
        back may be what the neighbour has to hear."""
        held = {(it.tail, it.head) for it in self.under_way.values() if it.is_held}
        again = sorted(self.again - held)
        return [(x, it) for x, it in again if self.links[frozenset((x, it))] and it in self.routers[x].up]

    def unwritten(self):
        return [x for x, it in enumerate(self.routers) if not it.is_written]

    # The actions. Each says what has happened.

    def deliver(self, message):
        self.arrive(message, False)

    def copy(self, message):
        """The message arrives, and a copy of it stays under way."""
        self.arrive(message, True)

    def arrive(self, message, is_kept):
        it = self.under_way[message.number] if is_kept else self.under_way.pop(message.number)
        if self.last[it.tail, it.head] == it.number:
            self.again.discard((it.tail, it.head))
        router, text = self.routers[it.head], self.text_of(it)
        told = self.changed(it.head, lambda: (router.hear(it.tail, it.data), self.settle(it.head)))
        what = {
            "hello": f"router {it.tail}, which does not know yet that router {it.head} has started.",
            "old": f"router {it.tail}, which knows only an earlier start of router {it.head}.",
        }.get(text, f"that router {it.tail} is at height {text}.")
        self.said = " ".join([f"Router {it.head} hears {what}", *told])

    def hold(self, message):
        """The message is held back, or no longer."""
        message.is_held = not message.is_held
        what = "held back" if message.is_held else "no longer held back"
        self.said = f"The message from {message.tail} to {message.head} is {what}."

    def lose(self, message):
        self.drop(message.number)
        self.said = f"The message from {message.tail} to {message.head} is lost."

    def notice(self, router, neighbour):
        if (router, neighbour) not in self.notices():
            raise NotDone(f"Router {router} has noticed already what its link to {neighbour} is.")
        is_up = self.links[frozenset((router, neighbour))]
        told = self.changed(router, lambda: (self.routers[router].notice(neighbour, is_up), self.settle(router)))
        what = f"Router {router} notices that its link to {neighbour} is {'up' if is_up else 'down'}."
        self.said = " ".join([what, *told])

    def write_table(self, router):
        if self.routers[router].is_written:
            raise NotDone(f"The table of router {router} is written.")
        told = self.changed(router, lambda: self.write(router))
        self.said = " ".join([f"Router {router} writes its table, and sends its news.", *told])

    def say_again(self, router):
        """The timer of a router runs out. A router whose table is not written says nothing."""
        if not self.routers[router].is_written:
            raise NotDone(f"Router {router} says nothing before its table is written.")
        for it in self.near[router]:
            self.send(router, it)
        self.said = f"Router {router} says everything again."

    def all_again(self):
        for x, router in enumerate(self.routers):
            for it in self.near[x] if router.is_written else ():
                self.send(x, it)
        self.said = "Each router says everything again."

    def restart(self, router):
        self.routers[router].node.close()
        self.routers[router] = self.started(router, self.routers[router].boot + 1)
        self.find_links(router)
        self.said = f"Router {router} restarts. It has forgotten everything, and its table is empty."

    def cut(self, link):
        """The link fails. What is under way on it is lost. Its ends have to notice that."""
        if not self.links[link]:
            raise NotDone("This link is down already.")
        self.links[link] = False
        for it in [it.number for it in self.under_way.values() if {it.tail, it.head} == link]:
            self.drop(it)
        self.said = f"The link between {listed(sorted(link))} fails. Its ends have not noticed that yet."

    def join(self, link):
        if self.links[link]:
            raise NotDone("This link is up already.")
        self.links[link] = True
        self.said = f"The link between {listed(sorted(link))} is back. Its ends have not noticed that yet."

    def write_at_once(self, is_chosen):
        self.at_once = is_chosen
        for x in self.unwritten() if is_chosen else ():
            self.write(x)
        self.said = "Each table is written at once." if is_chosen else "Each table waits until you let it be written."

    def step(self, loss):
        """One thing happens, whichever: with this chance in percent a message is lost."""
        things = [*((self.notice, it) for it in self.notices()), *((self.write_table, (x,)) for x in self.unwritten())]
        things += [(self.deliver, (it,)) for it in self.free()]
        if not things:
            return self.rest()
        act, words = random.choice(things)
        if act == self.deliver and random.random() * 100 < loss:
            act = self.lose
        act(*words)

    def everything(self):
        """All that may happen now happens once. What follows from it has to wait."""
        notices, unwritten, messages = self.notices(), self.unwritten(), self.free()
        if not (notices or unwritten or messages):
            return self.rest()
        for it in notices:
            self.notice(*it)
        # A message may be lost meanwhile, where a link has too many.
        arrived = [it for it in messages if it.number in self.under_way and not self.deliver(it)]
        for x in unwritten:
            self.write_table(x)
        told = [f"{len(arrived)} messages arrive." if len(arrived) != 1 else "One message arrives."] if messages else []
        told += ["The ends of links notice that they are up or down."] if notices else []
        self.said = " ".join(told + (["Tables are written."] if unwritten else []))

    def rest(self):
        """Nothing is under way but what is held back. Where a message has to be said again, the timer of its router
        runs out."""
        missing = self.missing()
        for x, it in missing:
            self.send(x, it)
        self.said = "Nothing is under way. All messages have arrived."
        if self.under_way:
            self.said = "Only messages that are held back are under way."
        if missing:
            routers = sorted({x for x, _ in missing})
            who = f"Routers {listed(routers)} say" if routers[1:] else f"Router {routers[0]} says"
            self.said = f"Messages were lost, so timers run out. {who} it again."

    # What the page shows.

    def used(self):
        """The links that routers use, by their tables as they are written: one end sends, the other lets packets in."""
        return [(x, it) for x, router in enumerate(self.routers) for it in router.ways if x in self.routers[it].gates]

    def state(self):
        notices, unwritten = self.notices(), self.unwritten()
        return {
            "home": self.home,
            "lower": self.lower,
            "at_once": self.at_once,
            "said": self.said + self.crowd(),
            "quiet": not (notices or unwritten or self.under_way or self.missing()),
            "idle": not (notices or unwritten or self.free() or self.missing()),
            "loop": loop_in(self.used()),
            "routers": [self.state_of(it) for it in self.routers],
            "links": [[*sorted(it), is_up] for it, is_up in self.links.items()],
            "notices": notices,
            "messages": [[it.number, it.tail, it.head, self.text_of(it), it.is_held] for it in self.under_way.values()],
        }

    def text_of(self, message):
        return message.text(self.routers[message.head].boot)

    def crowd(self):
        """What is said where the oldest messages were lost because there were too many."""
        if len(self.crowded) > 1:
            return f" Too many messages were under way on {len(self.crowded)} links, so the oldest ones are lost."
        what = "Too many messages were under way from"
        return "".join(f" {what} {x} to {w}, so the oldest is lost." for x, w in self.crowded)

    def state_of(self, router):
        words = {"height": router.node.height, "boot": router.boot, "distance": router.node.distance}
        return words | {"ways": router.ways, "gates": sorted(router.gates), "written": router.is_written}


# What an action needs: the names of its words, in the order in which its method takes them.
ACTIONS = {
    "deliver": ("message",),
    "copy": ("message",),
    "hold": ("message",),
    "lose": ("message",),
    "notice": ("router", "neighbour"),
    "write_table": ("router",),
    "say_again": ("router",),
    "all_again": (),
    "restart": ("router",),
    "cut": ("link",),
    "join": ("link",),
    "write_at_once": ("chosen",),
    "step": ("loss",),
    "everything": (),
}


class Mode:
    """The mode of the lab in which routers act by themselves. `load` returns the class of nodes, or raises NotDone. The
    page begins with this mode if it `is_first`."""

    def __init__(self, load, is_first):
        self.load, self.is_first = load, is_first
        self.node, self.routers, self.lock = None, None, threading.Lock()
        # How often routers were started. An action names the start that it is for, since another page may start others.
        self.starts = 0

    def begin(self):
        self.node = self.node or self.load()

    def answer(self, data):
        """The state after an action, as JSON. The action is an object: `do` names it, and it has the words that are
        needed."""
        try:
            asked = json.loads(data)
        except (ValueError, RecursionError):
            raise NotDone("The action is no JSON.") from None
        if not isinstance(asked, dict):
            raise NotDone("The action is no object.")
        with self.lock:
            if asked.get("do") == "start":
                self.start(asked)
            else:
                self.act(asked)
            return json.dumps({"start": self.starts, **self.routers.state()}).encode()

    def start(self, asked):
        nodes, home, links = (asked.get(it) for it in ("nodes", "home", "links"))
        chosen = [flag(asked.get(it)) for it in ("lower", "at_once")]
        if number(nodes) > MOST_ROUTERS or not isinstance(links, list) or len(links) > MOST_LINKS:
            raise NotDone(f"The lab has at most {MOST_ROUTERS} routers that act by themselves, and {MOST_LINKS} links.")
        ends = [pair(it) for it in links]
        if number(home) >= nodes or any(max(it) >= nodes for it in ends) or len({*ends}) < len(ends):
            raise NotDone("This is no network.")
        self.begin()
        self.routers = Routers(self.node, nodes, home, ends, *chosen)
        self.starts += 1

    def act(self, asked):
        name = asked.get("do")
        if not isinstance(name, str) or name not in ACTIONS:
            raise NotDone("There is no such action.")
        if not self.routers:
            raise NotDone("No routers have been started since the lab began. Go back, and begin again.")
        if number(asked.get("start")) != self.starts:
            raise NotDone("Another page of this lab has started other routers. Go back, or start again.")
        words = [getattr(self, f"a_{it}")(asked.get(it)) for it in ACTIONS[name]]
        self.routers.crowded.clear()
        getattr(self.routers, name)(*words)

    # Each word that an action needs, as it is meant. What is not there is refused.

    def a_router(self, given):
        if number(given) >= len(self.routers.routers):
            raise NotDone(f"There is no router {given}.")
        return given

    a_neighbour = a_router

    def a_message(self, given):
        if number(given) not in self.routers.under_way:
            raise NotDone("This message is not under way any more.")
        return self.routers.under_way[given]

    def a_link(self, given):
        ends = pair(given)
        if ends not in self.routers.links:
            raise NotDone(f"There is no link between {listed(sorted(ends))}.")
        return ends

    def a_loss(self, given):
        if number(given) > 100:
            raise NotDone("The loss is more than 100 percent.")
        return given

    def a_chosen(self, given):
        return flag(given)


def number(given):
    """A number that is not below 0. JSON's true is none."""
    if isinstance(given, bool) or not isinstance(given, int) or given < 0:
        raise NotDone("A number is missing, or is none.")
    return given


def flag(given):
    if not isinstance(given, bool):
        raise NotDone("A choice is missing, or is none.")
    return given


def pair(given):
    """The ends of a link."""
    if not isinstance(given, list) or len(given) != 2 or len({*map(number, given)}) != 2:
        raise NotDone("A link has two ends.")
    return frozenset(given)
