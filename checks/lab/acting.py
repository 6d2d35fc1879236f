"""The mode of the lab in which routers act by themselves: by requests to its server, and as a person uses its page.

What is seen is compared with the rules of full link reversal and of a daemon, and never with what the library answers here. After each action no loop may
be among the used links. An action may change only what it is about. Once all is quiet, heights alone say who sends to whom.
"""

import itertools
import json
import random

import viewed
from said import same, stop

BEGIN, MOST_ON_A_LINK = 64, 4
# A ring of four routers. Router 1 loses its way if the link to 0 fails.
RING = {"nodes": 4, "home": 0, "links": [[1, 0], [2, 1], [3, 2], [3, 0]]}
MESH = {"nodes": 9, "home": 0, "links": [[1, 0], [2, 0], [3, 1], [4, 2], [4, 3], [5, 3], [6, 4], [6, 5], [7, 5], [8, 7], [8, 6], [5, 4], [7, 6], [6, 1]]}

# What is drawn, by its looks: heights; arrows by where they begin and end, and whether they are thick; messages and ends that have not noticed something, by
# what they say to a screen reader; links, and whether they look down; and texts.
SEEN = """(() => {
  const net = document.getElementById('net'), style = it => getComputedStyle(it), all = selector => [...net.querySelectorAll(selector)].filter(it => style(it).display !== 'none');
  const nodes = all('.node'), spots = nodes.map(it => it.getAttribute('transform').match(/-?[0-9.]+/g).map(Number)), numbers = it => it.getAttribute('d').match(/-?[0-9.]+/g).map(Number);
  const near = (x, y) => { const far = spots.map(at => Math.hypot(at[0] - x, at[1] - y)); return far.indexOf(Math.min(...far)); };
  const isThick = it => parseFloat(style(it.querySelector('path')).strokeWidth) > 3 && style(it.querySelector('path')).strokeDasharray === 'none';
  const isDown = it => style(it.querySelector('path')).strokeDasharray.startsWith('2');
  const words = it => it.getAttribute('aria-label').match(/[0-9]+/g).map(Number), text = id => document.getElementById(id).textContent;
  return {
    heights: nodes.map(it => Number(it.querySelector('.count').textContent)),
    sends: all('.send').map(it => [near(...numbers(it.querySelector('path')).slice(0, 2)), near(...numbers(it.querySelector('.tip')).slice(0, 2)), isThick(it)]),
    messages: all('.mail:not(.notice)').map(it => [Number(it.dataset.message), ...words(it).slice(0, 2), it.querySelector('text').textContent, style(it.querySelector('rect:not(.hit)')).strokeDasharray !== 'none']),
    near: all('.mail').map(it => { const at = it.getAttribute('transform').match(/-?[0-9.]+/g).map(Number), [from, to] = words(it).slice(0, 2).map(node => Math.hypot(at[0] - spots[node][0], at[1] - spots[node][1])); return from < to; }),
    notices: all('.mail.notice').map(it => words(it).slice(0, 2)),
    down: all('.wire').filter(isDown).map(words),
    crosses: all('.broken').length,
    unwritten: nodes.map((it, node) => style(it.querySelector('.ring')).strokeDasharray !== 'none' ? node : -1).filter(it => it >= 0),
    picked: nodes.map((it, node) => it.getAttribute('aria-pressed') === 'true' ? node : -1).filter(it => it >= 0),
    listed: [...document.querySelectorAll('#under li button:first-child')].map(it => it.textContent),
    loops: text('loops'), say: text('say'), hint: text('hint'), run: text('run'), said: [...document.getElementById('loops').attributes].map(it => it.value)
  };
})()"""
# The middle of what a selector finds, where a click finds it.
MIDDLE = """(it => {
  const box = (it.querySelector('.hit, .face') ?? it).getBoundingClientRect(), x = box.left + box.width / 2, y = box.top + box.height / 2, found = document.elementFromPoint(x, y);
  return found && it.contains(found) ? [x, y] : null;
})"""
# A point of a link at which a click finds it.
ON_A_LINK = """(it => {
  const line = it.querySelector('.hit'), to = line.getScreenCTM();
  for (const part of [0.5, 0.45, 0.55, 0.4, 0.6, 0.35, 0.65, 0.3, 0.7]) {
    const at = line.getPointAtLength(part * line.getTotalLength()).matrixTransform(to), found = document.elementFromPoint(at.x, at.y);
    if (found && it.contains(found)) return [at.x, at.y];
  }
  return null;
})"""


def loop_from(used):
    """Whether the used links have a loop: some router comes back to itself."""
    after = {tail: {head for it, head in used if it == tail} for tail, _ in used}
    for start in after:
        seen, rest = set(), [start]
        while rest:
            for head in after.get(rest.pop(), ()):
                if head == start:
                    return True
                if head not in seen:
                    seen.add(head)
                    rest.append(head)
    return False


class View:
    """What is seen at a moment, however it was found out."""

    def __init__(self, heights, sends, messages, notices, down, unwritten):
        self.heights, self.sends = heights, {(tail, head): used for tail, head, used in sends}
        self.messages = {number: (tail, head, text) for number, tail, head, text, _ in messages}
        self.held = {number for number, _, _, _, is_held in messages if is_held}
        self.notices, self.down, self.unwritten = {*map(tuple, notices)}, {frozenset(it) for it in down}, {*unwritten}

    def used(self):
        return {link for link, is_used in self.sends.items() if is_used}

    def between(self, tail, head):
        return [it for it, (x, w, _) in self.messages.items() if (x, w) == (tail, head)]


def only(told, before, after, router):
    """An event of a router changes only its height, whom it sends to, and whom it lets in."""
    for x, height in enumerate(before.heights):
        if x != router:
            same(f"{told}: the height of router {x}", after.heights[x], height)
    for (tail, head), used in before.sends.items():
        if router not in (tail, head):
            same(f"{told}: whether {tail} sends to {head}", after.sends.get((tail, head)), used)
    for tail, head in {*before.sends} ^ {*after.sends}:
        same(f"{told}: who sends to another one now, or does not", tail, router)
    for link in {*before.sends} & {*after.sends}:
        if before.sends[link] != after.sends[link]:
            same(f"{told}: the gate that opens or closes", link[1], router)


class Rules:
    """What each action may change. `do` makes an action, and `view` says what is seen after it."""

    def __init__(self, network, view, lower, at_once):
        self.network, self.view, self.lower, self.at_once = network, view, lower, at_once
        self.links = [frozenset(it) for it in network["links"]]
        self.home, self.last = network["home"], view("the beginning")
        ends = sorted((x, w) for link in self.links for x, w in itertools.permutations(link))
        same("the first messages", sorted(it[:2] for it in self.last.messages.values()), ends)
        same("the first heights", self.last.heights, [0 if x == self.home else BEGIN for x in range(network["nodes"])])
        same("who sends before a message has arrived", self.last.sends, {})
        self.check_moment("the beginning")

    def check_moment(self, told):
        if loop_from(self.last.used()):
            stop(f"{told}: a loop is among the used links {sorted(self.last.used())}")
        for x, w in self.last.sends:
            same(f"{told}: a way without a link", frozenset((x, w)) in self.links, True)
            same(f"{told}: a gateway that sends", x == self.home, False)

    def after(self, told, router, gone=(), written=True, may_be_old=False):
        """The view after an action. The messages that go are those, and those of links that have too many. New ones come from the router. `router` is None
        if no router may change."""
        before, after = self.last, self.view(told)
        only(told, before, after, router)
        same(f"{told}: messages that have to go", [it for it in gone if it in after.messages], [])
        for it, (x, _, _) in after.messages.items():
            if it not in before.messages:
                same(f"{told}: who sends a new message", x, router)
        for it in {*before.messages} - {*after.messages} - {*gone}:
            x, w, _ = before.messages[it]
            later = [new for new in after.between(x, w) if new not in before.messages]
            same(f"{told}: why message {it} is lost", (x, len(after.between(x, w)), bool(later)), (router, MOST_ON_A_LINK, True))
        sides = [(x, w) for x, w, _ in after.messages.values()]
        same(f"{told}: more messages than a link keeps", [it for it in {*sides} if sides.count(it) > MOST_ON_A_LINK], [])
        if not written:
            same(f"{told}: arrows before the table is written", after.sends, before.sends)
            same(f"{told}: messages before the table is written", [it for it in after.messages if it not in before.messages], [])
            # A message is ignored if it or a later one has arrived before.
            if not may_be_old or (after.unwritten, after.heights) != (before.unwritten, before.heights):
                same(f"{told}: whose table is not written", after.unwritten, before.unwritten | {router})
        self.last = after
        self.check_moment(told)
        return before, after

    def heights(self, told, before, after, router, neighbour):
        """A router rises only if it has no way but the one that the event is about, and falls only if it may come down."""
        old, new = before.heights[router], after.heights[router]
        if new > old and self.at_once:
            same(f"{told}: the ways of a router that rises", [head for tail, head in before.sends if tail == router and head != neighbour], [])
        if new < old:
            same(f"{told}: whether a router may come down", self.lower, True)

    def delivered(self, told, message, is_kept=False):
        tail, router, _ = self.last.messages[message]
        before, after = self.after(told, router, () if is_kept else (message,), self.at_once, may_be_old=True)
        self.heights(told, before, after, router, tail)
        if is_kept and len(before.between(tail, router)) < MOST_ON_A_LINK:
            same(f"{told}: whether the copied message is still there", message in after.messages, True)

    def lost(self, told, message):
        before, after = self.after(told, None, (message,))
        same(f"{told}: all that is changed", ({*before.messages} - {*after.messages}, after.heights, after.sends), ({message}, before.heights, before.sends))

    def held(self, told, message):
        before, after = self.after(told, None)
        same(f"{told}: all that is changed", (after.held, after.messages, after.heights, after.sends), (before.held ^ {message}, before.messages, before.heights, before.sends))

    def noticed(self, told, router, neighbour):
        before, after = self.after(told, router, (), self.at_once)
        self.heights(told, before, after, router, neighbour)
        same(f"{told}: which ends have not noticed", after.notices, before.notices - {(router, neighbour)})

    def cut(self, told, link):
        x, w = sorted(link)
        gone = [*self.last.between(x, w), *self.last.between(w, x)]
        before, after = self.after(told, None, gone)
        same(f"{told}: links that are down", after.down, before.down | {link})
        same(f"{told}: arrows", after.sends, before.sends)
        same(f"{told}: which ends have not noticed", after.notices, before.notices ^ {(x, w), (w, x)})

    def joined(self, told, link):
        x, w = sorted(link)
        before, after = self.after(told, None)
        same(f"{told}: links that are down", after.down, before.down - {link})
        same(f"{told}: which ends have not noticed", after.notices, before.notices ^ {(x, w), (w, x)})

    def written(self, told, router):
        before, after = self.after(told, router)
        same(f"{told}: whose table is not written", after.unwritten, before.unwritten - {router})
        same(f"{told}: heights", after.heights, before.heights)

    def said(self, told, router):
        """The timer of a router: one message more to each neighbour that it takes for linked, where the link is up."""
        before, after = self.after(told, router)
        same(f"{told}: what else changes", (after.heights, after.sends, after.unwritten), (before.heights, before.sends, before.unwritten))
        for link in self.links:
            if router in link and link not in after.down and not {(router, w) for w in link} & before.notices:
                (w,) = link - {router}
                fresh = [it for it in after.between(router, w) if it not in before.messages]
                same(f"{told}: messages from {router} to {w}", len(fresh), 1)

    def restarted(self, told, router):
        before, after = self.after(told, router)
        same(f"{told}: the height", after.heights[router], 0 if router == self.home else BEGIN)
        same(f"{told}: whom it sends to", [head for tail, head in after.sends if tail == router], [])
        if router != self.home:
            same(f"{told}: whom it lets in", [tail for tail, head in after.used() if head == router], [])
        same(f"{told}: whose table is not written", after.unwritten, before.unwritten - {router})
        same(f"{told}: what its ends do not know", {it for it in after.notices if it[0] == router}, set())

    def quiet(self, told):
        """What holds once all messages have arrived: of each link that is up, the higher end sends to the lower one, which lets it in. Of ends at one height
        the one with the lesser number is the lower. Each router that is connected with the gateway has a way, and each walk ends there."""
        view = self.last
        same(f"{told}: what is still under way", (view.messages, view.notices, view.unwritten), ({}, set(), set()))
        higher = [sorted(link, key=lambda x: (view.heights[x], x), reverse=True) for link in self.links if link not in view.down]
        same(f"{told}: who sends to whom", view.sends, {(x, w): True for x, w in higher if x != self.home})
        joined, rest = {self.home}, [self.home]
        while rest:
            near = {w for link in self.links if link not in view.down and rest[-1] in link for w in link} - joined
            rest.pop()
            joined |= near
            rest += near
        for x in joined - {self.home}:
            walk = [x]
            while walk[-1] != self.home:
                ways = [head for tail, head in view.used() if tail == walk[-1]]
                same(f"{told}: the walk {walk} ends at the gateway", bool(ways) and len(walk) <= len(view.heights), True)
                walk.append(max(ways))


def session(draw, rules, acts, steps):
    """Drawn actions. `acts` makes each."""
    for step in range(steps):
        view, routers = rules.last, len(rules.last.heights)
        kinds = ["deliver"] * 12 + ["lose"] * 3 + ["copy"] * 2 + ["hold"] * 2 + ["notice"] * 4 + ["write"] * 6 + ["link", "link", "restart", "say", "say"]
        kind, router, told = draw.choice(kinds), draw.randrange(routers), f"action {step}"
        if kind in ("deliver", "lose", "copy", "hold"):
            if not view.messages:
                kind = "say"
            else:
                message = draw.choice(sorted(view.messages))
                told = f"{told}, {kind} {view.messages[message]}"
                acts.message(kind, message)
                if kind in ("lose", "hold"):
                    (rules.lost if kind == "lose" else rules.held)(told, message)
                else:
                    rules.delivered(told, message, kind == "copy")
        if kind == "notice" and view.notices:
            end = draw.choice(sorted(view.notices))
            acts.notice(*end)
            rules.noticed(f"{told}, {end} notices", *end)
        if kind == "write" and view.unwritten:
            router = draw.choice(sorted(view.unwritten))
            acts.write(router)
            rules.written(f"{told}, {router} writes", router)
        if kind == "link":
            link = draw.choice(rules.links)
            is_down = link in view.down
            acts.link(link, is_down)
            (rules.joined if is_down else rules.cut)(f"{told}, link {sorted(link)}", link)
        if kind == "restart":
            acts.restart(router)
            rules.restarted(f"{told}, {router} restarts", router)
        if kind == "say" and router not in view.unwritten:
            acts.say(router)
            rules.said(f"{told}, {router} says all again", router)


class Requests:
    """Actions as requests to the server."""

    def __init__(self, lab):
        self.lab, self.state = lab, None

    def ask(self, **words):
        if words["do"] != "start":
            words["start"] = self.state["start"]
        status, text, _ = self.lab.asked("POST", f"/{self.lab.token}/routers", json.dumps(words).encode())
        same(f"the answer to {words}", status, 200)
        self.state = json.loads(text)

    def view(self, told):
        it = self.state
        sends = [(x, w, x in it["routers"][w]["gates"]) for x, router in enumerate(it["routers"]) for w in router["ways"]]
        same(f"{told}: the loop of the server", it["loop"], [])
        down, unwritten = [[x, w] for x, w, is_up in it["links"] if not is_up], [x for x, router in enumerate(it["routers"]) if not router["written"]]
        return View([router["height"] for router in it["routers"]], sends, it["messages"], it["notices"], down, unwritten)

    def message(self, kind, message):
        self.ask(do=kind, message=message)

    def notice(self, router, neighbour):
        self.ask(do="notice", router=router, neighbour=neighbour)

    def write(self, router):
        self.ask(do="write_table", router=router)

    def link(self, link, is_down):
        self.ask(do="join" if is_down else "cut", link=sorted(link))

    def restart(self, router):
        boot = self.state["routers"][router]["boot"]
        self.ask(do="restart", router=router)
        same("the number of a start", self.state["routers"][router]["boot"] > boot, True)

    def say(self, router):
        self.ask(do="say_again", router=router)

    def settled(self, rules, told):
        """Joins all links, holds nothing back, lets everything happen until all is quiet, and compares that."""
        for link in sorted(rules.last.down, key=sorted):
            self.link(link, True)
        for message in rules.last.held:
            self.message("hold", message)
        self.ask(do="write_at_once", chosen=True)
        for _ in range(200):
            if self.state["quiet"]:
                break
            self.ask(do="everything")
            rules.last = self.view(told)
            rules.check_moment(told)
        rules.quiet(told)


def check_server(lab, steps):
    """Drawn sessions by requests: with each policy, and with tables that are written at once or late."""
    requests = Requests(lab)
    for lower, at_once in itertools.product((False, True), repeat=2):
        draw = random.Random(2 * lower + at_once)
        requests.ask(do="start", lower=lower, at_once=at_once, **MESH)
        rules = Rules(MESH, requests.view, lower, at_once)
        session(draw, rules, requests, steps)
        requests.settled(rules, f"the end of a session, lower {lower}, at once {at_once}")
        if lower:
            same("heights of routers that come down", rules.last.heights, distances(MESH))


def check_crowd(lab):
    """A message more than a link keeps: the oldest is lost, and this is said."""
    requests = Requests(lab)
    requests.ask(do="start", lower=False, at_once=True, **RING)
    first = min(it[0] for it in requests.state["messages"] if it[1:3] == [1, 2])
    for count in range(MOST_ON_A_LINK):
        same(f"what is said with {count} messages more", "oldest" in requests.state["said"], False)
        same(f"whether the first message is there with {count} more", first in [it[0] for it in requests.state["messages"]], True)
        requests.ask(do="say_again", router=1)
    same("what is said of a message too many", requests.state["said"].partition(".")[2], " Too many messages were under way on 2 links, so the oldest ones are lost.")
    same("whether the first message is there then", first in [it[0] for it in requests.state["messages"]], False)
    requests.ask(do="write_at_once", chosen=True)
    same("what is said after that", "oldest" in requests.state["said"], False)


def distances(network):
    """How many links each router is away from the gateway."""
    far, rest = {network["home"]: 0}, [network["home"]]
    for x in rest:
        for link in network["links"]:
            for w in {*link} - {*far} if x in link else ():
                far[w] = far[x] + 1
                rest.append(w)
    return [far[x] for x in range(network["nodes"])]


def check_refusals(lab):
    """Actions that cannot be done. Nothing changes."""
    path, start = f"/{lab.token}/routers", {"do": "start", "lower": False, "at_once": True, **RING}
    ask = lambda words: lab.asked("POST", path, words if isinstance(words, bytes) else json.dumps(words).encode())[:2]
    same("an action before routers are started", ask({"do": "all_again"})[0], 409)
    same("an action for another origin", lab.asked("POST", path, b"{}", Origin="http://example.com")[0], 403)
    many = [[x, w] for x in range(60) for w in range(x)]
    for told, words in (
        ("too many routers", {"nodes": 65, "links": []}),
        ("too many links", {"nodes": 60, "links": many}),
        ("a gateway that is no router", {"home": 4}),
        ("a link to no router", {"links": [[1, 4]]}),
        ("a link with one end", {"links": [[1]]}),
        ("a link of a router with itself", {"links": [[1, 1]]}),
        ("a link twice", {"links": [[1, 0], [0, 1]]}),
        ("a number below 0", {"home": -1}),
        ("true for a number", {"links": [[True, 0]]}),
        ("no number", {"nodes": "4"}),
        ("a choice that is none", {"lower": 1}),
    ):
        same(told, ask({**start, **words})[0], 409)
    status, text = ask(start)
    same("a start", status, 200)
    begun = {"start": json.loads(text)["start"]}
    state = json.loads(ask({"do": "write_at_once", "chosen": True, **begun})[1])
    for told, words in (
        ("no JSON", b"{"),
        ("deep JSON", b"[" * 100_000),
        ("no object", b"[]"),
        ("no action", {}),
        ("an action that is none", {"do": "started", "x": 0, "boot": 1}),
        ("an action that is a list", {"do": []}),
        ("a router that is not there", {"do": "restart", "router": 4}),
        ("no router", {"do": "restart"}),
        ("a message that is not there", {"do": "deliver", "message": 99}),
        ("a message below 0", {"do": "lose", "message": -1}),
        ("a link that is not there", {"do": "cut", "link": [2, 0]}),
        ("a link that is up", {"do": "join", "link": [1, 0]}),
        ("nothing to notice", {"do": "notice", "router": 1, "neighbour": 0}),
        ("nobody to notice", {"do": "notice", "router": 1, "neighbour": 3}),
        ("a table that is written", {"do": "write_table", "router": 1}),
        ("a loss of more than all", {"do": "step", "loss": 101}),
    ):
        status, text = ask({**words, **begun} if isinstance(words, dict) else words)
        same(told, (status, text.decode()[-1:]), (409, "."))
    same("the state after what was refused", json.loads(ask({"do": "write_at_once", "chosen": True, **begun})[1]), state)


def check_starts(lab):
    """An action is for the routers that its page has started. If another page has started others, it is refused, and those stay as they are."""
    path, start = f"/{lab.token}/routers", {"do": "start", "lower": False, "at_once": True, **RING}
    ask = lambda words: lab.asked("POST", path, json.dumps(words).encode())[:2]
    first, second = (json.loads(ask(start)[1])["start"] for _ in range(2))
    cut, let = {"do": "cut", "link": [1, 0]}, {"do": "write_at_once", "chosen": True}
    state = ask({**let, "start": second})
    for told, words in (("an earlier start", {"start": first}), ("a later start", {"start": second + 1}), ("no start", {}), ("true for a start", {"start": True})):
        same(f"an action for {told}", ask({**cut, **words})[0], 409)
    same("the routers of another page after that", ask({**let, "start": second}), state)
    same("an action for the present start", ask({**cut, "start": second})[0], 200)


def check_loops(routers):
    """The server's search for loops, on all networks of four routers with at most five links: a loop of used links, or none."""
    pairs = [(x, w) for x in range(4) for w in range(4) if x != w]
    for count in range(6):
        for used in itertools.combinations(pairs, count):
            found = routers.loop_in(used)
            same(f"whether {used} has a loop", bool(found), loop_from(set(used)))
            same(f"the loop of {used}", not found or found[0] == found[-1] and all(it in used for it in zip(found, found[1:])), True)


class Page:
    """The page of the mode, as somebody uses it."""

    def __init__(self, person):
        self.person, self.chrome = person, person.chrome

    def seen(self):
        """What is drawn once the page has done what was asked."""
        return self.chrome.value(f"queue.then(() => {SEEN})")

    def view(self, told):
        it = self.seen()
        view = View(*(it[name] for name in ("heights", "sends", "messages", "notices", "down", "unwritten")))
        used = len(view.used())
        same(f"{told}: what is said of loops", it["loops"], f"No loop among the {used} used {'link' if used == 1 else 'links'}.")
        same(f"{told}: crosses", it["crosses"], len(view.down))
        return view

    def click(self, selector, how=MIDDLE, shift=False, tap=False):
        at = self.chrome.value(f"{how}(document.querySelector({json.dumps(selector)}))")
        same(f"a place at which a click finds {selector}", bool(at), True)
        if tap:
            self.chrome.tap(*at)
        else:
            self.chrome.click(*at, shift=shift)

    def press(self, selector):
        """A click on what may be covered by something else."""
        self.chrome.value(f"document.querySelector({json.dumps(selector)}).dispatchEvent(new MouseEvent('click', {{bubbles: true}}))")

    def choose(self, value):
        self.chrome.value(f"document.getElementById('touch').value = '{value}'")

    def router(self, router):
        self.chrome.value(f"viewer.picked === {router} || document.querySelector('#net .node[data-node=\"{router}\"]').dispatchEvent(new MouseEvent('click', {{bubbles: true}}))")

    def message(self, kind, message):
        self.choose(kind)
        self.press(f'.mail[data-message="{message}"]')

    def notice(self, router, neighbour):
        self.press(f'.mail.notice[data-tail="{router}"][data-head="{neighbour}"]')

    def write(self, router):
        self.router(router)
        self.press("#written")

    def link(self, link, is_down):
        x, w = sorted(link)
        self.press(f'.wire[data-tail="{x}"][data-head="{w}"]')

    def restart(self, router):
        self.router(router)
        self.press("#restart")

    def say(self, router):
        self.router(router)
        self.press("#again")

    def start(self, network, lower=False, at_once=True):
        """Goes to the mode with this network, and returns what holds of it."""
        line = json.dumps(["net", network["nodes"], network["home"], network["links"]], separators=(",", ":"))
        self.person.send(line)
        self.chrome.value(f"document.getElementById('lower').checked = {json.dumps(lower)}; document.getElementById('atonce').checked = {json.dumps(at_once)}")
        self.chrome.press("j")
        self.chrome.wait("acting.isOn", "j does not lead to routers that act by themselves")
        return Rules(network, self.view, lower, at_once)

    def end(self):
        """Goes back to the engine. Its requests are as before."""
        self.press("#engine")
        self.person.did("back to the engine")
        same("whether links of the engine are drawn again", self.chrome.value("getComputedStyle(document.querySelector('#net .link')).display"), "inline")
        self.person.undo()

    def wave(self, rules, told, most=60):
        """All that is under way arrives, again and again until all is quiet."""
        for _ in range(most):
            if "quiet" in self.seen()["hint"]:
                break
            self.chrome.press("e")
            rules.last = self.view(told)
            rules.check_moment(told)
        rules.quiet(told)


def check_repair(page):
    """A link fails: its ends notice it one by one, and the routers repair their ways. The heights are worked out by hand."""
    rules, chrome = page.start(RING), page.chrome
    same("whether messages are near their senders", page.seen()["near"], [True] * 8)
    page.wave(rules, "the first ways")
    same("the first heights", rules.last.heights, [0, 64, 64, 64])
    page.click('.wire[data-tail="0"][data-head="1"]', ON_A_LINK)
    rules.cut("a click on a link", frozenset((0, 1)))
    page.click('.mail.notice[data-tail="1"]')
    rules.noticed("an end that notices", 1, 0)
    # It is above router 2, the only neighbour that is left, which waits for the message.
    same("the height of a router without a way", (rules.last.heights, rules.last.sends[2, 1]), ([0, 65, 64, 64], False))
    message = rules.last.between(1, 2)[-1]
    page.click(f'.mail[data-message="{message}"]')
    rules.delivered("a click on a message", message)
    same("the next height", rules.last.heights, [0, 65, 66, 64])
    page.wave(rules, "the repair")
    same("heights after the repair", rules.last.heights, [0, 67, 66, 64])
    page.click('.wire[data-tail="0"][data-head="1"]', ON_A_LINK, tap=True)
    rules.joined("a finger on a link", frozenset((0, 1)))
    page.wave(rules, "a link that is back")
    chrome.press("Escape")
    page.end()


def check_messages(page):
    """Each way to let a message arrive, to lose it, and to have a copy of it arrive."""
    rules, chrome = page.start(RING), page.chrome
    first = lambda: min(rules.last.messages)
    drawn, listed = '.mail[data-message="{}"]', '#under [data-message="{}"]'

    def focus(message):
        chrome.value("document.activeElement.blur()")
        for _ in range(40):
            chrome.press("m")
            if chrome.value(f"document.activeElement.dataset.message === '{message}'"):
                return
        stop(f"the key m does not go to message {message}")

    for told, act in (
        ("Shift and a click", lambda it: page.click(drawn.format(it), shift=True)),
        ("the list", lambda it: page.press(listed.format(it) + "[data-does=lose]")),
        ("Delete", lambda it: (focus(it), chrome.press("Delete"))),
        ("Delete in the list", lambda it: (chrome.value(f"document.querySelector('{listed.format(it)}').focus()"), chrome.press("Delete"))),
        ("a finger", lambda it: (page.choose("lose"), page.click(drawn.format(it), tap=True), page.choose("deliver"))),
    ):
        message = first()
        act(message)
        rules.lost(f"a message that is lost by {told}", message)
    for told, act, is_kept in (
        ("Enter", lambda it: (focus(it), chrome.press("Enter")), False),
        ("c", lambda it: (focus(it), chrome.press("c")), True),
        ("the list", lambda it: page.press(listed.format(it)), False),
        ("a copy by a click", lambda it: (page.choose("copy"), page.click(drawn.format(it)), page.choose("deliver")), True),
        ("Enter in the list", lambda it: (chrome.value(f"document.querySelector('{listed.format(it)}').focus()"), chrome.press("Enter")), False),
    ):
        message = first()
        act(message)
        rules.delivered(f"a message that arrives by {told}", message, is_kept)
    same("the focus after Enter in the list", chrome.value("document.activeElement.closest('#under') !== null"), True)
    chrome.value("document.activeElement.blur()")
    while rules.last.messages:
        message = first()
        page.message("lose", message)
        rules.lost("a message of all that are lost", message)
    page.choose("deliver")
    chrome.press("ArrowRight")
    said = page.seen()["say"]
    same("what one more step does then", "timers" in said, True)
    rules.last = page.view("timers")
    page.wave(rules, "after all was lost")
    page.end()


def check_holding(page):
    """Messages that are held back stay while all others arrive. One of them is overtaken by later ones."""
    rules, chrome = page.start(RING), page.chrome
    (first,), (second,) = rules.last.between(1, 0), rules.last.between(2, 1)
    page.message("hold", first)
    rules.held("a message that is held back", first)
    page.choose("deliver")
    page.press(f'#under [data-message="{second}"][data-does=hold]')
    rules.held("a message that the list holds back", second)
    for _ in range(20):
        chrome.press("e")
        rules.last = page.view("what is held back")
        rules.check_moment("what is held back")
    same("what is still there", rules.last.messages.keys(), {first, second})
    for key in (" ", "ArrowRight"):
        chrome.press(key)
        chrome.wait("queue.then(() => acting.timer === null)", "a run goes on where all is held back")
    same("what is there after a run", page.view("a run").messages.keys(), {first, second})
    for message in (first, second):
        while chrome.value(f"document.activeElement.dataset.message !== '{message}'"):
            chrome.press("m")
        chrome.press("h")
        rules.held("h", message)
    page.wave(rules, "after that")
    page.end()


def check_tables(page):
    """Tables that are written late: arrows and messages wait for that."""
    rules, chrome = page.start(RING), page.chrome
    page.wave(rules, "tables at once")
    page.press("#atonce")
    rules.at_once = False
    page.link(frozenset((0, 1)), False)
    rules.cut("a link that fails", frozenset((0, 1)))
    page.notice(1, 0)
    rules.noticed("an end that notices", 1, 0)
    same("the router that has to write", (rules.last.unwritten, rules.last.heights[1], page.seen()["listed"][-1]), ({1}, 65, "Router 1 has not written its table"))
    page.press("#under [data-kind=table]")
    rules.written("a table that is written from the list", 1)
    message = rules.last.between(1, 2)[-1]
    page.message("deliver", message)
    rules.delivered("a message", message)
    page.router(2)
    chrome.press("w")
    rules.written("a table that is written by w", 2)
    chrome.press("r")
    rules.restarted("r", 2)
    chrome.press("g")
    rules.said("g", 2)
    page.press("#atonce")
    rules.last, rules.at_once = page.view("at once again"), True
    page.wave(rules, "after late tables")
    page.end()


def check_keys(page):
    """Links by keys, and a run by keys that ends once all is quiet."""
    rules, chrome = page.start(RING), page.chrome
    chrome.value("document.getElementById('rate').value = '60'; document.getElementById('loss').value = '30'")
    chrome.press(" ")
    same("a run", page.seen()["run"], "Pause")
    chrome.wait("acting.timer === null", "a run does not end")
    rules.last = page.view("a run")
    rules.quiet("a run with losses")
    chrome.value("document.activeElement.blur()")
    for key in ("l", "l", "k", "Enter"):
        chrome.press(key)
    x, w, *_ = chrome.value("[document.activeElement.dataset.tail, document.activeElement.dataset.head].map(Number)")
    rules.cut("keys that cut", frozenset((x, w)))
    same("the focus after that", chrome.value("document.activeElement.closest('.wire') !== null"), True)
    chrome.press("Enter")
    rules.joined("keys that join", frozenset((x, w)))
    chrome.press("t")
    rules.last = page.view("all timers")
    same("messages after all timers", len(rules.last.messages), 2 * len(rules.links))
    page.press("#afresh")
    Rules(RING, page.view, False, True)
    for key in ("n", "n", "Enter"):
        chrome.press(key)
    same("the router that keys choose", page.seen()["picked"], [1])
    chrome.press("Escape")
    same("the router after Escape", page.seen()["picked"], [])
    chrome.press("j")
    same("whether j leaves the mode", chrome.value("acting.isOn"), False)
    page.person.did("j")
    same("what the key m does then", chrome.value("keys.m === openSamples"), True)
    page.person.undo()


def check_loud(page):
    """If a loop were found, the page would say so: here the state is made up."""
    page.start(RING)
    page.chrome.value("acting.state.loop = [1, 2, 1]; drawActing()")
    it = page.seen()
    same("what is said of a loop", (it["loops"].startswith("A LOOP among the used links: 1"), "alert" in it["said"]), (True, True))
    page.end()


def check_sessions(page, steps):
    for seed, (lower, at_once) in enumerate(((False, True), (True, False))):
        rules = page.start(MESH, lower, at_once)
        session(random.Random(seed), rules, page, steps)
        for link in sorted(rules.last.down, key=sorted):
            page.link(link, True)
        for message in rules.last.held:
            page.message("hold", message)
        if not at_once:
            page.press("#atonce")
        rules.last, rules.at_once = page.view("the end of a session"), True
        page.wave(rules, f"the end of the session {seed}", 120)
        page.end()
        page.chrome.value("document.getElementById('touch').value = 'deliver'")


# Texts and lines with what they are drawn on, and the least contrast.
COLOURS = """(() => {
  const style = it => getComputedStyle(it), back = style(document.body).backgroundColor, panel = style(document.querySelector('aside')).backgroundColor, one = it => document.querySelector(it), out = [];
  for (const it of document.querySelectorAll('#legend li.acts g :is(path:not(.tip), .face, rect)')) out.push([it.parentNode.getAttribute('class'), 3, style(it).stroke, back]);
  for (const it of document.querySelectorAll('#legend li.acts .mail')) out.push(['the text of ' + it.getAttribute('class'), 4.5, style(it.querySelector('text')).fill, style(it.querySelector('rect')).fill]);
  for (const id of ['loops', 'chosen', 'lost']) out.push([id, 4.5, style(one('#' + id)).color, panel]);
  return out;
})()"""
# Controls whose text is cut off, or that reach out of the screen.
CUT = """(() => {
  const out = [], isWide = it => it.scrollWidth > it.clientWidth + 1;
  for (const it of document.querySelectorAll('#acting, #acts, #acting button, #acts button')) if (isWide(it)) out.push(it.id || it.textContent);
  for (const it of document.querySelectorAll('#acts :is(button, input, select)')) {
    const box = it.getBoundingClientRect();
    if (box.left < 0 || box.right > innerWidth + 1 || box.bottom > innerHeight + 1) out.push('outside: ' + it.id);
  }
  return out;
})()"""


# The arrows of ways whose gates are closed that lie below a box of a message, each with how many of its points do.
HIDDEN_WAYS = """(() => {
  const boxes = [...document.querySelectorAll('#net .mail rect:not(.hit)')].map(it => it.getBoundingClientRect()), out = [];
  for (const it of document.querySelectorAll('#net .send.shut')) {
    const line = it.querySelector('path'), to = line.getScreenCTM(), long = line.getTotalLength(), points = Array.from({length: 60}, (_, at) => line.getPointAtLength(at / 59 * long).matrixTransform(to));
    const below = points.filter(at => boxes.some(box => at.x > box.left && at.x < box.right && at.y > box.top && at.y < box.bottom)).length;
    if (below) out.push([it.dataset.tail, it.dataset.head, below]);
  }
  return [document.querySelectorAll('#net .send.shut').length, out];
})()"""


def check_boxes(page):
    """In small networks the boxes of messages hide no way whose gate is still closed."""
    count = 0
    for network in (RING, {"nodes": 3, "home": 0, "links": [[1, 0], [2, 1], [2, 0]]}, MESH):
        page.start(network)
        for step in range(14):
            shut, hidden = page.chrome.value(f"queue.then(() => {HIDDEN_WAYS})")
            same(f"ways below boxes, {network['nodes']} routers, step {step}", hidden, [])
            count += shut
            page.chrome.press("e" if step % 2 else "ArrowRight")
            if step == 8:
                page.link(frozenset(network["links"][0]), True)
        page.end()
    same("whether ways with closed gates were seen", count > 20 or count, True)


def check_cut_off(page):
    """What has no path to the gateway is said, and that routers of such a part rise again and again."""
    said = "queue.then(() => document.getElementById('cutoff').textContent)"
    page.start(RING)
    same("what is said where all are connected", page.chrome.value(said), "")
    for link in ((1, 0), (3, 0)):
        page.link(frozenset(link), True)
    same("what is said of a part that is cut off", page.chrome.value(said), "Cut off from the gateway: 1, 2 and 3. They rise again and again, until a link joins them.")
    page.link(frozenset((2, 1)), True)
    same("what is said of a router alone", page.chrome.value(said), "Cut off from the gateway: 1, 2 and 3. 2 and 3 rise again and again, until a link joins them.")
    page.link(frozenset((3, 0)), False)
    same("what is said once they are joined", page.chrome.value(said), "Cut off from the gateway: 1.")
    page.end()


def check_screens(page):
    """On each screen nothing is cut off, and in both modes of colour all can be read."""
    page.start(MESH)
    for width, height in viewed.SCREENS:
        for dark in (False, True):
            told = f"routers on {width} by {height}"
            page.chrome.screen(width, height, dark)
            viewed.check_sides(told, page.chrome)
            viewed.check_texts(told, page.chrome)
            viewed.check_nothing(f"{told}: what is cut off", page.chrome, CUT)
    for dark in (False, True):
        page.chrome.screen(1280, 720, dark)
        page.chrome.value("document.getElementById('fold').open = true")
        for name, least, colour, back in page.chrome.value(COLOURS):
            low, high = sorted(map(viewed.light, (colour, back)))
            same(f"{'dark' if dark else 'light'}: the contrast of {name}", (high + 0.05) / (low + 0.05) >= least or f"{colour} on {back}", True)
        page.chrome.value("document.getElementById('fold').open = false")
    page.chrome.screen(1280, 720, False)
    page.end()


def check_another_page(page):
    """Another page of the lab starts its own routers. The first page says so, changes nothing of them, and can start again."""
    chrome = page.chrome
    page.start(RING)
    ask = "(words => fetch('routers', {method: 'POST', body: JSON.stringify(words)}).then(it => it.json()))"
    chrome.value(f"queue.then(() => {ask}(network())).then(it => {{ window.other = it; }})")
    chrome.press("e")
    chrome.value("queue.then(() => 0)")
    same("what is said of routers of another page", "Another page" in page.seen()["hint"], True)
    state = chrome.value(f"{ask}({{do: 'write_at_once', chosen: true, start: window.other.start}}).then(it => JSON.stringify(it.messages) === JSON.stringify(window.other.messages))")
    same("whether the routers of another page stay as they are", state, True)
    same("the messages of that", [it for it in chrome.messages if "409" not in it], [])
    chrome.messages.clear()
    page.press("#afresh")
    chrome.press("e")
    chrome.value("queue.then(() => 0)")
    same("what is said after a new start", "Another page" in page.seen()["hint"], False)
    page.end()


def check_page(person):
    page = Page(person)
    check_another_page(page)
    check_repair(page)
    check_messages(page)
    check_holding(page)
    check_tables(page)
    check_keys(page)
    check_loud(page)
    check_cut_off(page)
    check_boxes(page)
    check_sessions(page, 50)
    check_screens(page)
