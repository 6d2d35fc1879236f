"""Draws lines: requests that are answered, requests that are refused for each reason, and lines without a request."""

import copy
import json
import random
from contextlib import suppress

import plain
from plain import LARGEST, MOST_EDITS, MOST_LINKS, MOST_NODES, Refused

BLANK = [b"", b" ", b"\t\r", b" \t \r"]
NOT_JSON = [
    b"[", b"]", b"links", b"['links']", b'["links"', b'["links"],', b'["links",]', b'["links"] ["links"]',
    b'["links"]]', b'["walk",01]', b'["walk",+1]', b'["walk",.5]', b'["walk",1.]', b'["walk",-]', b'["walk",0x1]',
    b'["walk" 1]', b"NaN", b"[Infinity]", b"[-Infinity]", b"nul", b"True", b'{"a"}', b"{1:2}", b"{'a':1}",
    b'["li\tnks"]', b'["\\x6c"]', b'["\\u12"]', b'["links\xff"]', b'["\xc0\xaf"]', b'["\xed\xa0\x80"]',
    b"\xef\xbb\xbf[]", b"\x00", b"\x0b[]", b"// links", b"[/**/]", b"[" * 128 + b"]" * 128,
    b'{"a":' * 128 + b"1" + b"}" * 128, b"[" * 100_000, b"[" * 1000 + b"]" * 1000,
    b'["walk",1e999]', b'["walk",-1e400]', b"[" + b"9" * 400 + b"]", b'{"a":1e999}', b'["\\ud800"]',
    b'["\\ude00\\ud83d"]', b'{"\\ud800":1}',
]  # fmt: skip
NOT_REQUESTS = [
    b"[]", b"{}", b"0", b"null", b"true", b'"links"', b'["Links"]', b'["links "]', b'["links",0]', b'["counts",[]]',
    b'["hops",null]', b'[["links"]]', b'{"links":[]}', b'["fly",1]', b'["fly"]', b"[1]", b'["walk"]', b'["walk",1,2]',
    b'["walk",[1]]', b'["walk",-0]', b'["walk",-1]', b'["walk",0.0]', b'["walk",1e0]', b'["walk",1E+2]',
    b'["walk","0"]', b'["walk",true]', b'["walk",null]', b'["walk",4294967296]', b'["walk",18446744073709551616]',
    b'["walk",1e-999]', b'["\\ud83d\\ude00"]',
    b'["walk",' + b"9" * 300 + b"]", b'["dest"]', b'["dest",{}]', b'["cut",0]', b'["cut",0,1,2]', b'["cut",[0,1]]',
    b'["add",0,"1"]', b'["join",0.5,1]', b'["net",1,0]', b'["net",1,0,[],0]', b'["net",1,[],0]', b'["net",2,0,[[1]]]',
    b'["net",2,0,[[1,0,0]]]', b'["net",2,0,[1,0]]', b'["net",2,0,{"0":[1,0]}]', b'["net",2,0,[[1,0],[0,4294967296]]]',
    b'["net",-1,0,[]]', b'["net",1,"0",[]]', b'["batch"]', b'["batch",[],[]]', b'["batch",["cut",0,1]]',
    b'["batch",[["dest",0]]]', b'["batch",[["links"]]]', b'["batch",[["cut",0]]]', b'["batch",[["batch",[]]]]',
    b'["batch",{}]', b"[" * 127 + b"]" * 127, b'{"a":' * 127 + b"1" + b"}" * 127,
    b'["[[[[",' + b"[" * 126 + b"]" * 127, b'["pushes"]', b'["pushes",0]', b'["pushes",{}]', b'["pushes",[],[],[]]',
    b'["pushes",["fly"]]', b'["pushes",["Here"]]', b'["pushes",[-1]]', b'["pushes",[0.0]]', b'["pushes",[[0],0]]',
    b'["pushes",[[0]]]', b'["pushes",[[]]]', b'["pushes",["here",[0],"cut"]]', b'["pushes",[[0]],[]]', b'["pushes",[],[[0]]]',
    b'["pushes",[[0]],[[0]]]', b'["phases"]', b'["phases",0]', b'["phases",{}]', b'["phases","here"]', b'["phases",[],[]]',
    b'["phases",["here"],["here"]]', b'["phases",[0]]', b'["phases",["here",0,"cut"]]', b'["phases",[[0],0]]', b'["phases",[-1]]',
    b'["phases",[["here"]]]', b'["phases",[[[0]]]]', b'["phases",[[-1]]]', b'["phases",[[0],"fly"]]', b'["phases",["Cut"]]',
    b'["phases",[[],null]]', b'["phases",[{}]]', b'["phases",[[4294967296]]]', b'["phase",["here"]]', b'["Phases",["here"]]',
    b'["ways",[0]]', b'["ways",0,1]', b'["ways",-1]', b'["nearest"]', b'["nearest",0,1]', b'["nearest","0"]',
    b'["pushes",[],null]', b'["pushes",[0],["cut",null]]', b'["pushes",["here",4294967296]]', b'["pushes","here"]',
]  # fmt: skip
QUESTIONS = (["links"], ["counts"], ["hops"], ["ways"])
# A session begins with one of these, before there is a network.
WITHOUT_NETWORK = (
    *(["cut", 0, 1], ["add", 0, 1], ["join", 0, 1], ["batch", []], ["dest", 0], ["walk", 0], *QUESTIONS),
    *(["ways", 0], ["nearest", 0], ["pushes", []], ["pushes", [0], ["here", 0]], ["pushes", ["here", 2, 0], ["here", 0, 1]]),
    *(["phases", []], ["phases", [[]]], ["phases", ["here"]], ["phases", ["here", "cut"]], ["phases", ["here", [0], "cut"]]),
)


def full():
    """Lines at the limits: as many links as there may be, one more, and one node more."""
    heads, end = range(1, 129), 128 + MOST_LINKS // 128
    links = [[x, 0] for x in heads] + [[u, v] for u in range(129, end) for v in heads]
    assert len(links) == MOST_LINKS
    last, alone, nodes = end - 1, end + 6, end + 16
    yield ["net", nodes, 0, links]
    yield from (["add", alone, 0], ["join", 0, alone], ["join", 5, 5], ["add", MOST_NODES - 1, MOST_NODES])
    yield from (["batch", [["cut", last, 1], ["join", 0, alone]]], ["batch", [["join", last, 1], ["add", last, 1]]])
    yield from (["walk", last], ["walk", alone], ["dest", nodes], ["counts"])
    yield from (["net", nodes, 0, [*links, [1, 1]]], ["net", MOST_NODES + 1, 0, []], ["net", LARGEST, LARGEST, [[0, 0]]])
    yield from (["batch", [["cut", 0, 0]] * count] for count in (MOST_EDITS, MOST_EDITS + 1))
    most, more = ["cut"] * MOST_NODES, ["cut"] * (MOST_NODES + 1)
    yield from (["pushes", more], ["pushes", most], ["pushes", most, more], ["pushes", more, []])
    yield from (["pushes", [], ["here", *range(MOST_NODES - 1)]], ["pushes", most, [*range(1, MOST_NODES), 0]])
    yield from (["phases", [[1]] * MOST_NODES], ["phases", [[1]] * (MOST_NODES + 1)], ["phases", [[LARGEST, LARGEST]]])
    yield from (["phases", most], ["phases", more])


# The methods of Drawn that draw a line, and how often each is taken.
NETWORKS = {"net": 2, "wild_net": 2, "double_net": 1, "cyclic_net": 4}
TABLES = {"pushes": 4, "phases": 4, "ways_back": 3, "first_start": 1}
ALL_KINDS = {"edit": 8, "batch": 6, "question": 6, "walk": 3, "about_a_node": 4, "move": 2, "no_request": 3, **TABLES, **NETWORKS}
CHANGES = {"edit": 6, "batch": 3, "move": 1, "net": 1}


class Drawn:
    """A session that is drawn line by line. What is drawn next depends on the network that the plain program has."""

    def __init__(self, seed, most_nodes):
        self.seed, self.most_nodes, self.by = seed, most_nodes, random.Random(seed)
        self.session, self.lines = plain.Session(), []

    def add(self, line):
        """Adds a line, and returns its answer."""
        self.lines.append(line)
        return self.session.answer(line)

    def ask(self, request):
        """Adds the line of a request, in one of the ways to write it, and returns its answer."""
        line = json.dumps(request, separators=self.by.choice([(",", ":"), (", ", ": "), (" ,\t", ":")]))
        if self.by.random() < 0.1:
            line = line.replace("e", "\\u0065").replace("[", "[ ")
        before, behind = self.by.choice(["", "", "", " ", "\t"]), self.by.choice(["", "", "", " ", "\r"])
        return self.add(f"{before}{line}{behind}".encode())

    def draw(self, count, kinds):
        """Draws so many lines."""
        self.ask(WITHOUT_NETWORK[self.seed % len(WITHOUT_NETWORK)])
        for kind in self.by.choices([*kinds], [*kinds.values()], k=count):
            has_none = self.session.network is None and self.by.random() < 0.8
            getattr(self, "net" if has_none else kind)()
        return self.lines

    def no_request(self):
        self.add(self.by.choice(self.by.choice([BLANK, NOT_JSON, NOT_REQUESTS, [self.torn()]])))

    def torn(self):
        """A line from before with a byte less or more."""
        line = bytearray(self.by.choice([it for it in self.lines if len(it) < 1000] or [b"[]"]))
        at = self.by.randrange(len(line) + 1)
        if self.by.random() < 0.5:
            del line[at : at + 1]
        else:
            line.insert(at, self.by.choice(b'[],"0 {}:-'))
        return bytes(line)

    def question(self):
        self.ask(self.by.choice(QUESTIONS))

    # The numbers of nodes below are sometimes one too high, for a node that does not exist

    def size(self):
        return self.session.network.size if self.session.network else 1

    def node(self):
        return self.by.randrange(self.size() + (self.by.random() < 0.1))

    def walk(self):
        self.ask(["walk", self.by.choice([self.node(), self.node(), self.node(), LARGEST])])

    def about_a_node(self):
        self.ask([self.by.choice(["ways", "nearest"]), self.by.choice([self.node(), self.node(), self.node(), LARGEST])])

    def move(self):
        self.ask(["dest", self.node()])

    def table(self):
        """A table that differs from the hops in a few places, and is shorter or longer by a few nodes."""
        table = [self.session.table.get(x, "cut") for x in range(self.size())]
        for _ in range(self.by.choice([0, 1, 1, 2, 3, 8])):
            table[self.by.randrange(len(table))] = self.by.choice(["here", "cut", self.node(), self.node(), self.node()])
        del table[len(table) - self.by.choice([0, 0, 0, 1, len(table)]) :]
        return table + self.by.choice([[], [], [], [], ["cut"], [0], ["here", 1]])

    def pushes(self):
        self.ask(["pushes", *(self.table() for _ in range(self.by.choice([1, 1, 2, 2, 2])))])

    def lists(self):
        """A table of ways that differs from those of the network in a few places, likewise."""
        network = self.session.network
        table = [network.ways_in_words(x) for x in range(self.size())] if network else [[]]
        for _ in range(self.by.choice([0, 1, 2, 3, 8])):
            x = self.by.randrange(len(table))
            others = [self.node() for _ in range(self.by.choice([0, 1, 2]))]
            kept = [y for y in table[x] if self.by.random() < 0.7] if isinstance(table[x], list) else []
            table[x] = self.by.choice(["here", "cut", others, kept, kept[::-1], [*kept, *others], [*others, *kept]])
        del table[len(table) - self.by.choice([0, 0, 0, 1, len(table)]) :]
        return table + self.by.choice([[], [], [], [], [[]], [[0], "cut"]])

    def phases(self):
        self.ask(["phases", self.lists()])

    def ways_back(self):
        """Sends the answer to `ways` back, at once or after a change."""
        _, value, _ = self.ask(["ways"])
        if self.by.random() < 0.5:
            self.by.choice([self.edit, self.batch, self.move])()
        self.ask(["phases", value.get("ways", [])])

    def first_start(self):
        """A network without links, in whose ways there are only words. They are sent back as well."""
        size = self.by.randint(1, self.most_nodes)
        self.ask(["net", size, self.by.randrange(size), []])
        self.ways_back()

    def order(self, size):
        """Links without a cycle."""
        nodes = self.by.sample(range(size), size)
        share = self.by.choice([0.5, 1, 1.5, 2, 4, size]) / size
        links = [[nodes[at], nodes[to]] for at in range(size) for to in range(at) if self.by.random() < share]
        self.by.shuffle(links)
        return links

    def net(self):
        size = self.by.randint(1, self.most_nodes)
        self.ask(["net", size, self.by.randrange(size), self.order(size)])

    def wild_net(self):
        """A small network that is refused, mostly, and often for several faults."""
        size = self.by.randint(0, 6)
        links = [[self.by.randrange(size + 1), self.by.randrange(size + 1)] for _ in range(self.by.randint(0, 5))]
        self.ask(["net", size, self.by.randrange(size + 1), links])

    def double_net(self):
        """A network, mostly with two links between some nodes."""
        size = self.by.randint(2, self.most_nodes)
        links = self.order(size)
        for u, v in self.by.choices(links, k=self.by.choice([1, 2, 3])) if links else []:
            links.insert(self.by.randrange(len(links)), self.by.choice([[u, v], [v, u]]))
        self.ask(["net", size, self.by.randrange(size + 1), links])

    def cyclic_net(self):
        """A network of which some links point the other way, so that they contain cycles, mostly."""
        size = self.by.randint(3, self.most_nodes)
        share = self.by.choice([2, 4, 10])
        links = [link[::-1] if self.by.randrange(share) == 0 else link for link in self.order(size)]
        self.ask(["net", size, self.by.randrange(size + 1), links])

    def closing(self, links):
        """The ends of a link that closes a cycle, if a way leads on for at least two links."""
        way = [self.by.choice(links)[0]]
        while heads := [v for u, v in links if u == way[-1]]:
            way.append(self.by.choice(heads))
        return (self.by.choice(way[2:]), way[0]) if way[2:] else self.two_nodes()

    def two_nodes(self):
        u = self.node()
        return u, self.by.choice([it for it in range(self.size()) if it != u or self.by.random() < 0.2] or [u])

    def an_edit(self, network):
        """An edit of a network: mostly one that is made."""
        links = sorted(network.links) if network else []
        if links and self.by.random() < 0.2:
            return [self.by.choice(["add", "add", "join"]), *self.closing(links)]
        u, v = self.two_nodes()
        if links and self.by.random() < 0.5:
            u, v = self.by.choice(links)[:: self.by.choice([1, -1])]
        is_there = network is not None and bool({(u, v), (v, u)} & network.links)
        words = ["cut"] if is_there else ["add", "join"]
        return [self.by.choice(words if self.by.random() < 0.9 else ["cut", "add", "join"]), u, v]

    def edit(self):
        self.ask(self.an_edit(self.session.network))

    def batch(self):
        network, edits = copy.copy(self.session.network), []
        for _ in range(self.by.choice([0, 1, 2, 3, 5, 8])):
            edits.append(self.an_edit(network))
            with suppress(Refused):
                if network:
                    network.edit(*edits[-1])
        self.ask(["batch", edits])
