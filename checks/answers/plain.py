#!/usr/bin/env python3
"""Answers lines of requests, as docs/LINES.md and docs/RULES.md define the answers.

usage: checks/answers/plain.py [--json [--ways]] < INPUT

It shares no code with revroute, so that checks can compare revroute's answers with these. It uses sets, lists and
dictionaries only. It is slow: it turns one sink after another, and goes through all links for each turn.
"""

import copy
import json
import re
import sys
from collections import Counter
from itertools import accumulate

MOST_NODES, MOST_LINKS, MOST_EDITS, DEEPEST, LARGEST = 4096, 32768, 1024, 127, 4294967295
NAMES = ["not JSON", "not a request", "no network", "no such node", "self link", "linked twice", "cycle"]
FAULTS = dict(enumerate([*NAMES, "no such link", "too many"], 1))
HERE, CUT = "here", "cut"
# The options for each form of answers.
FORMS = ([], ["--json"], ["--json", "--ways"])


class Refused(Exception):
    """A line is refused, with this number, for these nodes. `place` has the number of the refused edit of a batch."""

    def __init__(self, number, nodes=()):
        self.number, self.nodes, self.place = number, [*nodes], {}


# Reading a line


def is_number(it):
    return type(it) is int and 0 <= it <= LARGEST


def real(text):
    """The number of a text, as a floating point number of 64 bits. No text may be above all of these."""
    value = float(text)
    if abs(value) == float("inf"):
        raise ValueError(text)
    return value


def whole(text):
    """The number of a text without fraction and exponent; -1 if it has a sign, or is too large."""
    real(text)
    return int(text) if text.isdigit() and len(text) <= 10 else -1


def no_json(word):
    """Python reads NaN and Infinity, but JSON has no such words."""
    raise ValueError(word)


def depth(text):
    """How deep arrays and objects nest in a JSON text."""
    outside_of_strings = re.sub(r'"(?:[^"\\]|\\.)*"', "", text)
    return max(accumulate((it in "[{") - (it in "]}") for it in outside_of_strings), default=0)


def is_edit(value):
    match value:
        case ["cut" | "add" | "join", u, v]:
            return is_number(u) and is_number(v)
    return False


def is_link(value):
    match value:
        case [u, v]:
            return is_number(u) and is_number(v)
    return False


def is_hop(it):
    return is_number(it) or it == HERE or it == CUT


def is_ways(it):
    return it in (HERE, CUT) or isinstance(it, list) and all(map(is_number, it))


def is_request(value):
    match value:
        case ["links"] | ["counts"] | ["hops"] | ["ways"]:
            return True
        case ["pushes", [*table]]:
            return all(map(is_hop, table))
        case ["pushes", [*table], [*wanted]]:
            return all(map(is_hop, table + wanted))
        case ["phases", [*table]]:
            return all(map(is_ways, table))
        case ["walk" | "ways" | "nearest" | "dest", x]:
            return is_number(x)
        case ["batch", [*edits]]:
            return all(map(is_edit, edits))
        case ["net", n, d, [*links]]:
            return is_number(n) and is_number(d) and all(map(is_link, links))
    return is_edit(value)


def read(line):
    """The request of a line."""
    try:
        text = line.decode("utf-8")
        value = json.loads(text, parse_int=whole, parse_float=real, parse_constant=no_json)
        json.dumps(value, ensure_ascii=False).encode("utf-8")  # half a surrogate pair has no bytes
    except (ValueError, RecursionError):
        raise Refused(1) from None
    if depth(text) > DEEPEST:
        raise Refused(1)
    if not is_request(value):
        raise Refused(2)
    return value


# Networks


class Network:
    """Nodes, a destination, and links as they point now, each a pair of its tail and its head. `counts` has how often
    each node turned in the last round."""

    def __init__(self, size, dest, links):
        self.size, self.dest, self.links, self.counts = size, dest, {(u, v) for u, v in links}, {}
        if size > MOST_NODES or len(links) > MOST_LINKS:
            raise Refused(9)
        if size == 0:
            raise Refused(4, [0])
        for x in (x for link in links for x in link):
            self.test_node(x)
        for u, v in links:
            if u == v:
                raise Refused(5, [u])
        times = Counter(frozenset(link) for link in links)
        if twice := sorted(sorted(pair) for pair in times if times[pair] > 1):
            raise Refused(6, twice[0])
        if leading := self.leading_into_cycles():
            raise Refused(7, self.cycle_from(min(leading), leading))
        self.test_node(dest)

    def test_node(self, x):
        if x >= self.size:
            raise Refused(4, [x])

    def leading_into_cycles(self):
        """The nodes from which links lead into a cycle: those from which one can always go on."""
        found, before = {u for u, _ in self.links}, None
        while found != before:
            found, before = {u for u, v in self.links if v in found}, found
        return found

    def leading_to(self, x):
        """The nodes from which links lead to x, and x itself."""
        found = {x}
        while more := {u for u, v in self.links if v in found} - found:
            found |= more
        return found

    def lowest_way(self, x, among):
        """Begins at x, and always goes on to the lowest node, of these, that links point to."""
        while True:
            yield x
            x = min(v for u, v in self.links if u == x and v in among)

    def cycle_from(self, x, leading):
        """The cycle into which the lowest way from x comes, from its first node that comes twice."""
        way = []
        for it in self.lowest_way(x, leading):
            if it in way:
                return [*way[way.index(it) :], it]
            way.append(it)

    def cycle_with(self, u, v):
        """The cycle that a link from u to v closes, by the lowest way from v to u."""
        way = [u]
        for it in self.lowest_way(v, self.leading_to(u)):
            way.append(it)
            if it == u:
                return way

    def edit(self, word, u, v):
        """Makes an edit. No node turns yet."""
        either_way = {(u, v), (v, u)}
        if word == "cut":
            if not self.links & either_way:
                raise Refused(8, [u, v])
            self.links = self.links - either_way
            return
        if len(self.links) >= MOST_LINKS:
            raise Refused(9)
        self.test_node(u)
        self.test_node(v)
        if u == v:
            raise Refused(5, [u])
        if self.links & either_way:
            raise Refused(6, [u, v])
        if v not in self.leading_to(u):
            self.links = self.links | {(u, v)}
        elif word == "join":
            self.links = self.links | {(v, u)}
        else:
            raise Refused(7, self.cycle_with(u, v))

    def sinks(self):
        """The sinks that may turn."""
        tails, heads = {u for u, _ in self.links}, {v for _, v in self.links}
        return [x for x in heads - tails - {self.dest} if self.counts[x] < self.size]

    def turn(self, x):
        self.links = {(v, u) if v == x else (u, v) for u, v in self.links}
        self.counts[x] += 1

    def settle(self):
        """A round. No two sinks are neighbours, so each is still a sink when its turn comes."""
        self.counts = dict.fromkeys(range(self.size), 0)
        while sinks := self.sinks():
            for x in sinks:
                self.turn(x)

    def joined(self):
        """The nodes that links join with the destination, whichever way they point."""
        found = {self.dest}
        while more := {x for link in self.links if found & {*link} for x in link} - found:
            found |= more
        return found

    def hops(self):
        """The next hop of each node."""
        joined, lowest = self.joined(), {}
        for u, v in self.links:
            lowest[u] = min(v, lowest.get(u, v))
        return {x: HERE if x == self.dest else lowest[x] if x in joined else CUT for x in range(self.size)}

    def distances(self):
        """The fewest links that lead down from a node to the destination, for each node from which they do."""
        found, count = {self.dest: 0}, 0
        while more := {u for u, v in self.links if v in found} - {*found}:
            count += 1
            found |= dict.fromkeys(more, count)
        return found

    def all_ways(self):
        """The ways of each node, nearest first."""
        near, found = self.distances(), {x: [] for x in range(self.size)}
        for u, v in self.links:
            if v in near:
                found[u].append(v)
        return {x: sorted(ways, key=lambda v: (near[v], v)) for x, ways in found.items()}

    def ways(self, x):
        return self.all_ways()[x]

    def ways_in_words(self, x):
        """The ways of a node as an answer shows them."""
        return HERE if x == self.dest else self.ways(x) or CUT

    def nearest(self, x):
        """The nodes of the walk by first ways, with x first."""
        way = [x]
        while ways := self.ways(way[-1]):
            way.append(ways[0])
        return way


# Tables of next hops. A number that is missing from a table is cut off


def route(table, x):
    """The route from x, with x first."""
    way = [x]
    while type(hop := table.get(way[-1], CUT)) is int:
        way.append(hop)
    return way


def pushes(old, new):
    """The numbers at which two tables differ, each with its new hop: first those with a route in the new table, by wave
    and then by number, and after them the others, likewise."""
    differ = {x for x in {*old, *new} if old.get(x, CUT) != new.get(x, CUT)}
    lost = {x for x in differ if new.get(route(new, x)[-1], CUT) != HERE}
    wave = {x: len(differ.intersection(route(new, x))) for x in differ}
    return [[x, new.get(x, CUT)] for x in sorted(differ, key=lambda x: (x in lost, wave[x], x))]


def lowest_loop(table):
    """The loop of the lowest node that is on a loop, from this node to itself, or None."""
    for x in sorted(table):
        way = [x]
        while len(way) <= len(table) and type(hop := table.get(way[-1], CUT)) is int:
            way.append(hop)
            if hop == x:
                return way
    return None


# Tables of ways. A number that is missing from a table has none


def phases(old, new):
    """The pushes of two phases from one table to another. In the first phase nodes lose ways: first those that keep one, and
    then the others. In the second phase each node gets its new list if it has another one then."""
    nodes = sorted({*old, *new})
    old, new = ({x: table.get(x, []) for x in nodes} for table in (old, new))
    less = {x: [y for y in new[x] if y in old[x]] for x in new if {*old[x]} - {*new[x]}}
    shrink = sorted(([x, ways] for x, ways in less.items()), key=lambda it: (not it[1], it[0]))
    grow = [[x, ways] for x, ways in new.items() if (old | less)[x] != ways]
    return {"shrink": shrink, "grow": grow}


# Answers


class Session:
    """Answers lines, one after another."""

    def __init__(self):
        self.network, self.table, self.number = None, {}, 0

    def answer(self, line):
        """The answer to the next line as a text, as a value for JSON and as one with what a change does to ways, or None if the
        line is blank."""
        self.number += 1
        if not line.strip(b" \t\r"):
            return None
        before = self.network
        try:
            text, value = self.reply(read(line))
        except Refused as it:
            shown = {"nodes": it.nodes, **it.place, "line": self.number}
            text, value = f"refused {it.number}", {"refused": it.number, "fault": FAULTS[it.number], **shown}
        if "changed" not in value:
            return text, value, value
        return text, value, value | phases(before.all_ways() if before else {}, self.network.all_ways())

    def reply(self, request):
        word, *items = request
        if word == "net":
            return self.round(Network(*items))
        if word == "pushes":
            return self.pushed(*items)
        if not self.network:
            raise Refused(3)
        if word == "phases":
            return self.pushed_ways(*items)
        match request:
            case ["links"]:
                links = sorted(self.network.links)
                return listed(word, (f"{u}>{v}" for u, v in links)), {word: [[u, v] for u, v in links]}
            case ["counts"]:
                counts = [self.network.counts[x] for x in range(self.network.size)]
                return listed(word, counts), {word: counts}
            case ["hops"]:
                hops = [self.table[x] for x in range(self.network.size)]
                return listed(word, hops), {word: hops}
            case ["walk", x]:
                self.network.test_node(x)
                if self.table[x] == CUT:
                    return f"walk {x} cut", {word: None}
                way = route(self.table, x)
                return listed(word, way), {word: way}
            case ["ways"]:
                ways = [self.network.ways_in_words(x) for x in range(self.network.size)]
                return listed(word, map(with_commas, ways)), {word: ways}
            case ["ways", x]:
                self.network.test_node(x)
                ways = self.network.ways_in_words(x)
                return listed(word, [with_commas(ways)]), {word: ways}
            case ["nearest", x]:
                self.network.test_node(x)
                if self.table[x] == CUT:
                    return f"nearest {x} cut", {word: None}
                way = self.network.nearest(x)
                return listed(word, way), {word: way}
        return self.round(changed(copy.copy(self.network), request))

    def pushed(self, table, wanted=None):
        """The pushes from a table to the wanted one, or to the hops of the network."""
        if wanted is None and not self.network:
            raise Refused(3)
        size = self.network.size if wanted is None else max(len(table), len(wanted))
        if max(size, len(table)) > MOST_NODES:
            raise Refused(9)
        if len(table) > size:
            raise Refused(4, [size])
        for hop in [*table, *(wanted or [])]:
            if type(hop) is int and hop >= size:
                raise Refused(4, [hop])
        new = self.table if wanted is None else dict(enumerate(wanted))
        if loop := lowest_loop(new):
            raise Refused(7, loop)
        differ = pushes(dict(enumerate(table)), new)
        return listed("pushes", (f"{x}>{hop}" for x, hop in differ)), {"pushes": differ}

    def pushed_ways(self, table):
        """The pushes of two phases from a table of ways to those of the network."""
        size = self.network.size
        if len(table) > MOST_NODES:
            raise Refused(9)
        if len(table) > size:
            raise Refused(4, [size])
        found = phases({x: ways for x, ways in enumerate(table) if ways not in (HERE, CUT)}, self.network.all_ways())
        lines = (listed(word, (f"{x}>{with_commas(ways) or 'none'}" for x, ways in it)) for word, it in found.items())
        return listed("phases", lines), found

    def round(self, network):
        """Settles a network, which is then the one of the session."""
        network.settle()
        hops = network.hops()
        turned, cut_off, differ = sum(network.counts.values()), [*hops.values()].count(CUT), pushes(self.table, hops)
        self.network, self.table = network, hops
        return f"turned {turned} cut {cut_off}", {"turned": turned, "cut_off": cut_off, "changed": differ}


def with_commas(ways):
    return ways if isinstance(ways, str) else ",".join(map(str, ways))


def listed(word, items):
    return " ".join([word, *map(str, items)])


def changed(network, request):
    """The network after a change, before its round."""
    match request:
        case ["dest", d]:
            network.test_node(d)
            network.dest = d
        case ["batch", edits]:
            make_all(network, edits)
        case edit:
            network.edit(*edit)
    return network


def make_all(network, edits):
    at = MOST_EDITS
    try:
        if len(edits) > MOST_EDITS:
            raise Refused(9)
        for at, edit in enumerate(edits):
            network.edit(*edit)
    except Refused as it:
        it.place = {"edit": at}
        raise


def in_json(value):
    return json.dumps(value, separators=(",", ":"))


def shown(answer):
    """The line of an answer, in each form."""
    text, *values = answer
    return [text, *map(in_json, values)]


def outputs(given):
    """The output for an input, in each form."""
    session = Session()
    lines = [shown(it) for line in given.split(b"\n") if (it := session.answer(line))]
    return ["".join(f"{it[at]}\n" for it in lines).encode() for at in range(len(FORMS))]


def main():
    if sys.argv[1:] not in FORMS:
        sys.exit(__doc__)
    sys.stdout.buffer.write(outputs(sys.stdin.buffer.read())[FORMS.index(sys.argv[1:])])


if __name__ == "__main__":
    main()
