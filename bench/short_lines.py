"""Short lines for bench/run: requests as users send them, JSON that is no request, and text that is no JSON.

All lines are drawn, so no program can know them. A network has eight nodes with links, whose numbers have one to four
digits, and the links form a tree. So a link that was cut can be added again in any direction: it closes no cycle."""
import json
import random

# The numbers of nodes in turn, and so many lines for each network.
SIZES = (8, 80, 800, 4000)
LINES_OF_A_NETWORK = 2500
# One line in so many is refused.
REFUSED = 50
# Questions whose answers list each node are asked only of networks that have at most so many.
MOST_LISTED = 80


def text_of(request, draw):
    """A request as JSON: in one of four, with white space between its items, as most libraries write it."""
    return json.dumps(request, separators=(", ", ": ") if draw.randrange(4) == 0 else (",", ":"))


class Tree:
    """A network whose links form a tree, of which at most one link is cut."""

    def __init__(self, nodes, draw):
        self.draw, self.nodes, self.spots = draw, nodes, draw.sample(range(nodes), 8)
        self.links = [(it, draw.choice(self.spots[:at])) for at, it in enumerate(self.spots) if at]
        self.dest, self.lost = self.spots[0], None

    def net(self):
        return ["net", self.nodes, self.dest, self.links]

    def connected(self):
        """The nodes with a path to the destination."""
        found, left = {self.dest}, [it for it in self.links if it != self.lost]
        while True:
            more = {it for link in left if found.intersection(link) for it in link} - found
            if not more:
                return sorted(found)
            found |= more

    def change(self):
        """A cut of a link or, if one is cut, the same link again."""
        if self.lost is None:
            self.lost = self.draw.choice(self.links)
            return ["cut", *self.draw.sample(self.lost, 2)]
        again, self.lost = self.lost, None
        return [self.draw.choice(["add", "join"]), *self.draw.sample(again, 2)]

    def batch(self):
        """Edits of which none is left over."""
        if self.lost is not None:
            return self.change()
        link = self.draw.choice(self.links)
        return ["batch", [["cut", *link], ["join", *self.draw.sample(link, 2)]]]

    def move(self):
        self.dest = self.draw.choice(self.connected())
        return ["dest", self.dest]

    def request(self):
        """A request or a question that is answered, each kind about as often as a client sends it."""
        kind = self.draw.randrange(20)
        if kind < 8:
            return ["walk", self.draw.choice(self.connected())]
        if kind < 14:
            return self.change()
        if kind < 15:
            return self.batch()
        if kind < 16:
            return self.move()
        if kind < 19 and self.nodes <= MOST_LISTED:
            return [self.draw.choice(["links", "counts", "hops"])]
        return ["walk", self.dest]

    def refused(self):
        """A line that is refused, of each kind that a network can refuse."""
        u, v = self.draw.choice(self.links)
        return self.draw.choice([
            no_request(self.draw),
            no_json(self.draw),
            text_of(["walk", self.nodes + u], self.draw),
            text_of(["cut", u, u], self.draw),
            text_of(["dest", self.nodes], self.draw),
            text_of(["join", v, v], self.draw),
            text_of(["net", u, u, [[u, v]]], self.draw),
            text_of(["batch", [["add", v, v]]], self.draw),
        ])  # fmt: skip


def requests(seed):
    """A block of lines, of which each network and what follows may be sent again and again."""
    draw, lines = random.Random(f"requests {seed}"), []
    for nodes in SIZES:
        tree = Tree(nodes, draw)
        lines.append(text_of(tree.net(), draw))
        lines += [tree.refused() if draw.randrange(REFUSED) == 0 else text_of(tree.request(), draw) for _ in range(LINES_OF_A_NETWORK)]
    return lines


def value(draw, depth=2):
    """Any value of JSON."""
    kind = draw.randrange(8 if depth else 5)
    if kind < 2:
        return draw.randrange(10 ** draw.randrange(1, 5))
    if kind < 5:
        return draw.choice([None, True, False, -draw.randrange(100), draw.randrange(1000) / 8, word(draw)])
    if kind < 7:
        return [value(draw, depth - 1) for _ in range(draw.randrange(4))]
    return {word(draw): value(draw, depth - 1) for _ in range(draw.randrange(3))}


def word(draw):
    return "".join(draw.choices("abcdefghijklmnopqrstuvwxyz", k=draw.randrange(1, 7)))


def no_request(draw):
    """JSON that is no request: a word that the program does not know, a request with too few or too many items or with
    a wrong one, an object, or any other value."""
    x = draw.randrange(1000)
    known = draw.choice(["walk", "cut", "add", "join", "dest"])
    made = draw.choice([
        [word(draw) + "z", x],
        [known],
        [known, str(x)],
        [known, -1 - x],
        [known, x, x, x],
        ["hops", x],
        {known: x},
        {"request": known, "node": x},
        {"value": value(draw)},
        [[value(draw)], x],
        x,
    ])  # fmt: skip
    return text_of(made, draw)


def no_json(draw):
    """Text that is no JSON: a line of words, a request without its end, with a comma too many, without or with other
    quotes, with a number that is none, or with something behind it."""
    x, known = draw.randrange(1000), draw.choice(["walk", "dest"])
    made = text_of(draw.choice([[known, x], ["cut", x, x + 1], ["batch", [["cut", x, 1]]]]), draw)
    return draw.choice([
        f"{known} {x}",
        made[: draw.randrange(1, len(made))],
        made[:-1] + ",]",
        made.replace('"', ""),
        made.replace('"', "'"),
        f'["{known}",0{x}]',
        f'["{known}",{x}.]',
        made + draw.choice(["]", ";", f" {x}", made]),
        f"# {word(draw)}",
    ])  # fmt: skip


def alike(seed, kind):
    """A block of lines of one kind, after a network of which nothing is asked."""
    draw = random.Random(f"{kind.__name__} {seed}")
    return ['["net",4,0,[[1,0],[2,1],[3,2]]]', *(kind(draw) for _ in range(10_000))]


def filled(lines, most):
    """As many of these lines, again and again, as fit into so many bytes."""
    block = "".join(it + "\n" for it in lines)
    text = block * (most // len(block) + 1)
    return text[: text.rindex("\n", 0, most) + 1]
