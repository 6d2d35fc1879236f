"""The story of an input, which `revdot --page` must write between the fixed parts of a page, made in another way than by revdot.

The answers of `revroute run` say which lines are accepted, and those of `revroute run --json` why others are refused. The turns are made here link by link. For a larger network they follow from a search from
the destination. The order of pushes follows from the new hops. Every answer that results is compared with the answer of `run`.
"""
import collections
import heapq
import json
import urllib.parse

# The answers to a line without a request.
NO_REQUEST = {'refused 1': 'no JSON', 'refused 2': 'no request'}
NODES = 256
TURNS = 4096
# After each of so many lines comes the whole state.
LINES_BETWEEN_STATES = 256
# The comments that a page has, and the characters that stay as they are in them.
KEPT_COMMENTS = (b'# places ', b'# names ')
PLAIN = ''.join(chr(it) for it in range(32, 127) if chr(it) not in '%<')


class Network:
    """Links that point from their tails to their heads, and full reversal: the node with the least number that can turn does."""

    def __init__(self, nodes, destination, links):
        self.nodes, self.destination = nodes, destination
        self.heads = [set() for _ in range(nodes)]
        self.tails = [set() for _ in range(nodes)]
        for tail, head in links:
            self.add(tail, head)

    def add(self, tail, head):
        self.heads[tail].add(head)
        self.tails[head].add(tail)

    def cut(self, tail, head):
        if head not in self.heads[tail]:
            tail, head = head, tail
        self.heads[tail].remove(head)
        self.tails[head].remove(tail)

    def join(self, tail, head):
        if self.leads(head, tail):
            tail, head = head, tail
        self.add(tail, head)

    def leads(self, start, end):
        seen, open_nodes = {start}, [start]
        while open_nodes:
            for head in self.heads[open_nodes.pop()] - seen:
                seen.add(head)
                open_nodes.append(head)
        return end in seen

    def edit(self, name, tail, head):
        {'add': self.add, 'cut': self.cut, 'join': self.join}[name](tail, head)

    def links(self):
        return [(tail, head) for tail in range(self.nodes) for head in sorted(self.heads[tail])]

    def joined(self):
        seen, open_nodes = {self.destination}, [self.destination]
        while open_nodes:
            node = open_nodes.pop()
            for other in (self.heads[node] | self.tails[node]) - seen:
                seen.add(other)
                open_nodes.append(other)
        return seen

    def can_turn(self, node):
        return (node != self.destination and bool(self.tails[node]) and not self.heads[node]
                and self.counts[node] < self.nodes)

    def settle(self):
        """Makes a round, and returns the nodes that turned, in order."""
        self.counts = [0] * self.nodes
        turns = []
        sinks = [node for node in range(self.nodes) if self.can_turn(node)]
        heapq.heapify(sinks)
        while sinks:
            node = heapq.heappop(sinks)
            turns.append(node)
            self.counts[node] += 1
            others = self.tails[node]
            self.heads[node], self.tails[node] = others, set()
            for other in others:
                self.heads[other].remove(node)
                self.tails[other].add(node)
                if self.can_turn(other):
                    heapq.heappush(sinks, other)
        return turns

    def settle_by_steps(self):
        """Makes a round by a search. A node turns as often as the fewest links that a walk to it from the destination follows forwards."""
        fewest, near = {self.destination: 0}, collections.deque([self.destination])
        while near:
            node = near.popleft()
            for others, step in ((self.tails[node], 0), (self.heads[node], 1)):
                for other in others:
                    if fewest[node] + step < fewest.get(other, self.nodes):
                        fewest[other] = fewest[node] + step
                        (near.append if step else near.appendleft)(other)
        self.counts = [fewest.get(node, self.nodes if self.heads[node] or self.tails[node] else 0)
                       for node in range(self.nodes)]
        for tail, head in self.links():
            if self.counts[tail] != self.counts[head]:
                self.cut(tail, head)
                self.add(head, tail)

    def hops(self):
        joined = self.joined()
        return ['here' if node == self.destination else str(min(self.heads[node])) if node in joined else 'cut'
                for node in range(self.nodes)]

    def distances(self):
        """For each node the fewest links that lead from it to the destination, or None."""
        far, near = {self.destination: 0}, collections.deque([self.destination])
        while near:
            node = near.popleft()
            for tail in self.tails[node] - far.keys():
                far[tail] = far[node] + 1
                near.append(tail)
        return [far.get(node) for node in range(self.nodes)]

    def ways(self):
        """For each node the nodes to which its links point, by distance and then by number. A node that is cut off has none."""
        far = self.distances()
        return [sorted(heads, key=lambda head: (far[head], head)) if far[node] is not None else [] for node, heads in enumerate(self.heads)]

    def ways_words(self):
        return ['here' if node == self.destination else ','.join(map(str, list_)) or 'cut' for node, list_ in enumerate(self.ways())]

    def nearest(self, node):
        ways = self.ways()
        route = [node]
        while ways[route[-1]]:
            route.append(ways[route[-1]][0])
        return words('nearest', route) + ('' if route[-1] == self.destination else ' cut')

    def walk(self, node):
        hops, route = self.hops(), [node]
        while hops[route[-1]].isdigit():
            route.append(int(hops[route[-1]]))
        return words('walk', route) + (' cut' if hops[node] == 'cut' else '')


def push_order(old, new):
    """The nodes at which two tables differ: first those that the new table leads to the destination, and then the others. Both are sorted by how many
    differing nodes are on the new route of each, and then by number."""
    place = {}
    for start in range(len(new)):
        walk = [start]
        while walk[-1] not in place and new[walk[-1]].isdigit():
            walk.append(int(new[walk[-1]]))
        for node in reversed(walk):
            if node not in place:
                lost, wave = place[int(new[node])] if new[node].isdigit() else (new[node] != 'here', 0)
                place[node] = lost, wave + (old[node] != new[node])
    return sorted((node for node in place if old[node] != new[node]), key=lambda node: (place[node], node))


def padded(table, nodes):
    """A table with a hop for this many nodes. Nodes that are not in the table have none."""
    return table + ['cut'] * (nodes - len(table))


def pushes(old, new):
    """The answer to a request for the pushes from one table to another."""
    count = max(len(old), len(new))
    old, new = padded(old, count), padded(new, count)
    return words('pushes', [f'{node}>{new[node]}' for node in push_order(old, new)])


def phases(old, new):
    """The answer to a request for the pushes of two phases from one table of ways to another."""
    old = [had if isinstance(had, list) else [] for had in old] + [[]] * (len(new) - len(old))
    kept = [[way for way in ways if way in had] for had, ways in zip(old, new, strict=True)]
    losing = [node for node, had in enumerate(old) if not set(had) <= set(new[node])]
    shrink = sorted(losing, key=lambda node: (not kept[node], node))
    grow = [node for node, ways in enumerate(new) if ways != (kept if node in losing else old)[node]]
    lists = [[f'{node}>{",".join(map(str, table[node])) or "none"}' for node in nodes] for nodes, table in ((shrink, kept), (grow, new))]
    return words('phases', ['shrink', *lists[0], 'grow', *lists[1]])


def words(name, items):
    return ' '.join([name, *map(str, items)])


def texts(links):
    return [f'{tail}>{head}' for tail, head in links]


def is_comment(line):
    return line.lstrip(b' \t\r').startswith(b'#')


def without_comments(data):
    """An input with blank lines in place of its comments, so the other lines keep their numbers."""
    return b'\n'.join(b'' if is_comment(line) else line for line in data.split(b'\n'))


def request_lines(data):
    """The lines of an input that are neither blank nor comments, each with its number."""
    return [(number, line) for number, line in enumerate(without_comments(data).split(b'\n'), 1) if line.strip(b' \t\r')]


def asked(request):
    """The words and numbers of a request."""
    name, *items = request
    if name == 'net':
        return [name, *items[:2], *texts(items[2])]
    if name in ('pushes', 'phases'):
        return [name]
    return [name, *(word for edit in items[0] for word in edit)] if name == 'batch' else request


def answered(network, request):
    """The answer to a question about this network."""
    if request[0] == 'links':
        return words('links', texts(network.links()))
    if request[0] == 'counts':
        return words('counts', network.counts)
    if request[0] == 'pushes':
        old, *wanted = [list(map(str, table)) for table in request[1:]]
        return pushes(old, *wanted or [network.hops()])
    if request[0] == 'phases':
        return phases(request[1], network.ways())
    if request[0] == 'ways':
        all_ways = network.ways_words()
        return words('ways', [all_ways[node] for node in request[1:]] or all_ways)
    if request[0] == 'nearest':
        return network.nearest(request[1])
    return words('hops', network.hops()) if request[0] == 'hops' else network.walk(request[1])


def state_of(network):
    """The lines of a whole state."""
    return [words('links', texts(network.links())), words('counts', network.counts), words('hops', network.hops()), words('ways', network.ways_words())]


def changes_of(before, network):
    """The lines of what a round changed in the links and ways that were there before it."""
    links, (before, old), ways = network.links(), before, network.ways()
    joined = {frozenset(link) for link in links}
    return [words('gone', texts(link for link in before if frozenset(link) not in joined)),
            words('new', texts(sorted(set(links) - set(before)))),
            words('counted', [f'{node}:{count}' for node, count in enumerate(network.counts) if count]),
            words('listed', [':'.join(map(str, (node, *ways[node]))) for node in range(network.nodes) if ways[node] != old[node]])]


def round_of(network, before, old):
    """The answer to a round, the lines of the story after it, and the round: its links at first and its turns.
    Before the round the links and ways were `before`, or None for a new network, and the table was `old`."""
    first = network.links()
    turns = network.settle() if network.nodes <= NODES else network.settle_by_steps()
    answer = f'turned {sum(network.counts)} cut {network.nodes - len(network.joined())}'
    lines = [f'net {network.nodes} {network.destination}']
    made = {'nodes': network.nodes, 'home': network.destination, 'first': first, 'turns': None}
    if network.nodes > NODES:
        return answer, lines + ['omitted'], made
    made['turns'] = turns[:TURNS]
    hops = network.hops()
    longer = padded(hops, len(old))
    pushes = [f'{node}:{longer[node]}' for node in push_order(padded(old, len(hops)), longer)]
    result = state_of(network) if before is None else changes_of(before, network)
    return answer, [*lines, words('turns', turns[:TURNS]), *result, words('pushes', pushes)], made


def changed(network, request):
    """The network after an accepted request, before its round."""
    name = request[0]
    if name == 'net':
        return Network(*request[1:])
    if name == 'dest':
        network.destination = request[1]
    for edit in request[1] if name == 'batch' else [request] if name in ('add', 'cut', 'join') else []:
        network.edit(*edit)
    return network


class Story:
    """The story of this input, and its rounds by the numbers of their lines. `answers` are the lines of `run`, and `in_json` those of `run --json`."""

    def __init__(self, data, answers, in_json):
        self.network, self.table, self.rounds, out = None, [], {}, []
        given = dict(zip((number for number, _ in request_lines(data)), zip(answers, in_json, strict=True), strict=True))
        for number, line in enumerate(data.split(b'\n'), 1):
            if number in given:
                out += self.block(number, line, *given[number])
            if line.startswith(KEPT_COMMENTS):
                out.append(urllib.parse.quote(line, safe=PLAIN))
            if number % LINES_BETWEEN_STATES == 0 and self.network and self.network.nodes <= NODES:
                out += ['state', *state_of(self.network)]
        self.text = ''.join(line + '\n' for line in out)

    def block(self, number, line, answer, in_json):
        """The lines of the story for a request."""
        out = [f'line {number}', answer]
        if answer in NO_REQUEST:
            return out
        request = json.loads(line)
        out.append(words('asks', asked(request)))
        if answer.startswith('refused'):
            return [*out, f'refusal {in_json}']
        is_change = request[0] != 'net' and answer.startswith('turned')
        before = (self.network.links(), self.network.nodes <= NODES and self.network.ways()) if is_change else None
        self.network = changed(self.network, request)
        if answer.startswith('turned'):
            expected, lines, self.rounds[number] = round_of(self.network, before, self.table)
            self.table = self.network.hops()
            out += lines
        else:
            expected = answered(self.network, request)
        if answer != expected:
            raise AssertionError(f'line {number}: answered {answer[:80]}, and the oracle says {expected[:80]}')
        return out


def story(data, answers, in_json):
    """The story of this input. `answers` are the lines of `run`, and `in_json` those of `run --json`."""
    return Story(data, answers, in_json).text
