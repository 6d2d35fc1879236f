"""What a page shows at each of its steps, compared with the answers of `revroute run`."""

import itertools
import json
import pathlib
import re
import subprocess
import sys

TOP = pathlib.Path(__file__).resolve().parents[2]
sys.path.append(str(TOP / 'page'))
import story  # noqa: E402
import viewer_parts  # noqa: E402

NONE = ['links', 'counts', 'hops']

# What a page shows at each of these steps, read from its elements. A link leads from where its curve begins to where its tip is, and it is bold only if
# it looks bold. The same holds for the links of a closed walk.
READ = '''(steps => {
  const net = document.getElementById('net'), ring = document.getElementById('ring'), slide = document.getElementById('slide'), out = [];
  const near = (x, y, spots) => { let best = null, least = 1e9; for (const [node, at] of spots) { const d = Math.hypot(at[0] - x, at[1] - y); if (d < least) { least = d; best = node; } } return best; };
  const spotsOf = nodes => new Map(nodes.map(node => [node.dataset.node, node.getAttribute('transform').match(/[0-9.]+/g).map(Number)]));
  const ends = (link, spots) => {
    const line = link.querySelector('path').getAttribute('d').match(/-?[0-9.]+/g).map(Number), tip = link.querySelector('.tip').getAttribute('d').match(/-?[0-9.]+/g).map(Number);
    const tail = near(line[0], line[1], spots), head = link.dataset.head, at = spots.get(head);
    return [Number(link.dataset.tail), Number(head), Number(tail), Math.abs(Math.hypot(at[0] - tip[0], at[1] - tip[1]) - 22) < 3];
  };
  const closed = (svg, spots) => [...svg.querySelectorAll('.closed')].map(link => [...ends(link, spots), link.classList.contains('asked')]);
  for (const step of steps) {
    if (slide.max !== '0') { slide.value = step; slide.dispatchEvent(new Event('input')); }
    const drawn = !net.hasAttribute('hidden');
    const one = {line: Number(net.dataset.line), turn: Number(net.dataset.turn), push: Number(net.dataset.push),
      loop: net.dataset.loop ?? null, drawn, answer: document.getElementById('answer').textContent,
      say: document.getElementById('say').textContent, request: document.getElementById('request').dataset.request, told: document.getElementById('request').textContent,
      closed: document.getElementById('more').dataset.closed ?? null, changed: document.getElementById('changed').dataset.changed,
      walk: ring.hasAttribute('hidden') ? [] : closed(ring, spotsOf([...ring.querySelectorAll('.node')]))};
    if (drawn) {
      const nodes = [...net.querySelectorAll('.node')], spots = spotsOf(nodes);
      one.nodes = nodes.map(node => ({node: Number(node.dataset.node), count: Number(node.querySelector('.count').textContent), told: Number(node.dataset.count), hop: node.dataset.hop ?? null,
        name: node.querySelector('text').textContent, cut: 'cut' in node.dataset, grey: node.classList.contains('out'), now: node.classList.contains('now'), label: node.getAttribute('aria-label'),
        push: node.classList.contains('push'), fresh: node.classList.contains('new')}));
      one.places = [...spots.values()].map(at => at.join(' ')).join(';');
      one.arrows = [...net.querySelectorAll('.link.hop')]
        .map(link => [...ends(link, spots), link.dataset.hop === '1', link.classList.contains('old')]);
      one.links = [...net.querySelectorAll('.link')]
        .filter(link => link.getAttribute('visibility') !== 'hidden' && !link.closest('.more'))
        .map(link => [...ends(link, spots), link.dataset.hop === '1', link.classList.contains('hop')]);
      one.walk.push(...closed(net, spots));
    }
    out.push(one);
  }
  return out;
})'''

# The list: for each line its number, its request and the answer, and why it was refused.
LISTED = "[...document.querySelectorAll('#list button')].map(button => [...button.children].map(part => part.textContent))"

# The route that the page shows for each node at the current step, by clicks.
ROUTES = '''(() => [...document.querySelectorAll('#net .node')].map(node => {
  node.dispatchEvent(new MouseEvent('click', {bubbles: true}));
  const route = document.getElementById('route').dataset.route, way = [...document.querySelectorAll('#net .link.way')].length;
  node.dispatchEvent(new MouseEvent('click', {bubbles: true}));
  return [Number(node.dataset.node), route, way];
}))()'''

# What the pane shows: its sides, those of the drawing, which are those of its nodes, and whether the page fits the screen.
SIDES = '''(() => {
  const sides = all => [Math.min(...all.map(it => it.left)), Math.min(...all.map(it => it.top)), Math.max(...all.map(it => it.right)), Math.max(...all.map(it => it.bottom))];
  const page = document.scrollingElement;
  return [sides([document.querySelector('main').getBoundingClientRect()]), sides([...document.querySelectorAll('#net .node .face')].map(it => it.getBoundingClientRect())),
    page.scrollWidth <= innerWidth && page.scrollHeight <= innerHeight];
})()'''

# Waits until the page is drawn, and how often at most: for a second, at 60 drawings each.
MOST_DRAWINGS = 60

DRAWN = 'new Promise(done => requestAnimationFrame(() => setTimeout(done)))'

# The screen is at most as high as so many letters of the legend.
MOST_LETTERS = 66

# What is cut off of the status, of a choice, or of the page's sides; and how many texts of the letters of the legend are as high as the screen.
TEXTS = '''(() => {
  const out = [], isCut = it => it.scrollHeight > it.clientHeight + 1 || it.scrollWidth > it.clientWidth + 1;
  if (isCut(document.getElementById('say'))) out.push('the status');
  const aside = document.querySelector('aside');
  if (aside.scrollWidth > aside.clientWidth) out.push('the side');
  for (const it of document.querySelectorAll('#bar select')) {
    const copy = it.cloneNode(true);
    copy.removeAttribute('id');
    // It stays within the screen: a telephone shows a page that is wider at another size.
    copy.style.cssText = 'position:fixed;left:0;top:0;visibility:hidden;width:max-content;max-width:none';
    it.after(copy);
    // As above, a part of a pixel is not a letter.
    if (copy.offsetWidth > it.offsetWidth + 1) out.push('the choice ' + it.title);
    copy.remove();
  }
  return [out, Math.min(innerWidth, innerHeight) / parseFloat(getComputedStyle(document.getElementById('legend')).fontSize)];
})()'''

# The texts of the details that are not in sight.
HIDDEN = '''(() => {
  const box = [document.querySelector('aside'), document.getElementById('about')].map(it => it.getBoundingClientRect()), low = Math.min(...box.map(it => it.bottom));
  return [...document.querySelectorAll('#about p')].filter(it => it.textContent && it.getBoundingClientRect().bottom > low + 1).map(it => it.id);
})()'''

SCREENS = [(390, 844), (844, 390), (1280, 720), (1920, 1080)]

# What the list says of a refusal, by its number.
FAULTS = {1: 'no JSON', 2: 'no request', 3: 'no network yet', 4: 'not a node', 5: 'with itself', 6: 'second link', 7: 'cycle|loop', 8: 'no link between', 9: 'more'}


def fail(text):
    print(f'page: {text}', file=sys.stderr)
    sys.exit(1)


def same(what, seen, wanted):
    if seen != wanted:
        fail(f'{what}: drawn {str(seen)[:300]}, and it is {str(wanted)[:300]}')


def same_story(name, written, told):
    for number, (line, wanted) in enumerate(itertools.zip_longest(written.split('\n'), told.split('\n')), 1):
        same(f'{name}: line {number} of the story', line, wanted)


class Programs:
    def __init__(self, revdot, revroute, viewer):
        self.revdot, self.revroute = revdot, revroute
        folder = viewer or TOP / 'page' / 'viewer'
        self.parts = [it.encode() for it in viewer_parts.parts(pathlib.Path(folder))]
        self.own_viewer = viewer is not None
        self.has_pages = revdot != '-'

    def answers(self, data, *words):
        """What `run` answers to the requests of an input. It knows no comments."""
        return subprocess.run([self.revroute, 'run', '--budget', '0', *words], input=story.without_comments(data), capture_output=True, check=True).stdout.decode().splitlines()

    def story(self, data, answers):
        """The story of this input, and its rounds, by story.py."""
        return story.Story(data, answers, self.answers(data, '--json'))

    def refusals(self, data):
        """The answers of `run --json` to the lines that are refused, by the numbers of the lines."""
        return {it['line']: it for it in map(json.loads, self.answers(data, '--json')) if 'refused' in it}

    def page(self, name, data, answers):
        """The page of this input. The program's story must be the one of story.py."""
        head, tail = self.parts
        told = self.story(data, answers).text.encode()
        if self.has_pages:
            written = subprocess.run([self.revdot, '--page'], input=data, capture_output=True, check=True).stdout
            if not self.own_viewer:
                same(f'{name}: the fixed parts of the page', (written[:len(head)] == head, written[-len(tail):] == tail), (True, True))
                same_story(name, written[len(head):-len(tail)].decode(), told.decode())
                return written
        return head + told + tail


    def long_page(self, data):
        """The same of a long input, whose story is not compared."""
        head, tail = self.parts
        if not self.has_pages:
            return head + self.story(data, self.answers(data)).text.encode() + tail
        written = subprocess.run([self.revdot, '--page'], input=data, capture_output=True, check=True).stdout
        return head + written.partition(b"id='story'>\n")[2].rpartition(b'</script>\n<script>')[0] + tail if self.own_viewer else written


class Expected:
    """The answers of `run` after each line of an input, and the turns within the rounds."""

    def __init__(self, programs, data, answers):
        lines = story.request_lines(data)
        asked = b''.join(line + b'\n' + b''.join(f'["{name}"]\n'.encode() for name in NONE) for _, line in lines)
        self.numbers = [number for number, _ in lines]
        self.answers = answers
        self.after = {}
        for at, number in enumerate(self.numbers):
            self.after[number] = None
        got = programs.answers(asked) if lines else []
        for at, number in enumerate(self.numbers):
            same(f'line {number}', got[4 * at], answers[at])
            self.after[number] = got[4 * at + 1:4 * at + 4]
        self.rounds = programs.story(data, answers).rounds
        self.read_pushes()

    def read_pushes(self):
        """For each round the tables before and after it, as `run` answers them, and the pushes, if both tables are known."""
        last = []
        for number, round_ in self.rounds.items():
            hops = self.after[number][2].split()[1:] if round_['turns'] is not None else None
            round_['pushes'] = []
            if hops is not None and last is not None:
                round_['old'] = story.padded(last, len(hops))
                round_['new'] = story.padded(hops, len(last))
                round_['pushes'] = story.push_order(round_['old'], round_['new'])
                round_['changed'] = round_['pushes'] if len(last) == len(hops) else []
            last = hops

    def steps(self):
        """Each step of the page, in order: the line, the turn and the push."""
        steps = []
        for number in self.numbers:
            round_ = self.rounds.get(number) or {'turns': (), 'pushes': ()}
            last = len(round_['turns'] or ())
            steps += [(number, turn, 0) for turn in range(last + 1)]
            steps += [(number, last, push + 1) for push in range(len(round_['pushes']))]
        return steps

    def total(self, number):
        """How many turns the round of this line took."""
        return sum(map(int, self.after[number][1].split()[1:]))


def looked_at(steps):
    """The places of the steps that are compared: all but most of those in the middle of long rounds."""
    ends = {}
    for number, turn, push in steps:
        last = ends.get(number, (0, 0))
        ends[number] = max(turn, last[0]), max(push, last[1])

    def is_near(at, end):
        return at < 60 or at > end - 20 or at % 97 == 0

    return [place for place, (number, turn, push) in enumerate(steps)
            if is_near(turn, ends[number][0]) and is_near(push, ends[number][1])]


def check_settled(name, seen, after):
    links, counts, hops = after
    same(f'{name}: links', sorted(link[:2] for link in seen['links']), [list(map(int, word.split('>'))) for word in links.split()[1:]])
    same(f'{name}: counts', [node['count'] for node in seen['nodes']], list(map(int, counts.split()[1:])))
    words = hops.split()[1:]
    same(f'{name}: next hops', [node['hop'] for node in seen['nodes']], words)
    same(f'{name}: bold links', sorted((link[0], link[1]) for link in seen['links'] if link[4]),
         [(node, int(hop)) for node, hop in enumerate(words) if hop.isdigit()])
    same(f'{name}: old next hops', [arrow for arrow in seen['arrows'] if arrow[5]], [])
    same(f'{name}: bold links as they look', [link[4] for link in seen['links']], [link[5] for link in seen['links']])
    same(f'{name}: cut off', [node['cut'] and node['grey'] for node in seen['nodes']], [hop == 'cut' for hop in words])
    same(f'{name}: a node that turns', [node['node'] for node in seen['nodes'] if node['now']], [])


def request_of(line, answer):
    """The request of a line as a line, or why it has none. A request for pushes or phases is shown without its tables."""
    if answer in story.NO_REQUEST:
        return story.NO_REQUEST[answer]
    request = json.loads(line)
    return json.dumps(request[:1] if request[0] in ('pushes', 'phases') else request, separators=(',', ':'))


def check_request(name, seen, line, network, refusal):
    """The request of a line, and the cycle for which it was refused. That of a network or of a table is drawn beside the network, if it is short."""
    told, cycle = request_of(line, seen['answer']), refusal['nodes'] if refusal and refusal['refused'] == 7 else []
    same(f'{name}: what is asked', [seen['request'], seen['told']], [told, told if len(told) <= 300 else told[:300] + ' ..'])
    same(f'{name}: the cycle', seen['closed'], ' '.join(map(str, cycle)) or None)
    is_beside = bool(cycle) and json.loads(line)[0] in ('net', 'pushes')
    steps, standing = list(zip(cycle, cycle[1:])), network.links() if network and not is_beside else []
    is_drawn = len(steps) <= 24 if is_beside else network
    drawn = [[*step, step[0], True, step not in standing] for step in steps] if is_drawn else []
    same(f'{name}: the cycle as it is drawn', sorted(seen['walk']), sorted(drawn))


def check_fault(name, line, refusal, seen):
    """Why a line was refused: the edit of a batch that was refused, the fault, and the nodes that the engine names."""
    if not refusal:
        return same(name, seen, [])
    number, place, text = refusal['refused'], refusal.get('edit'), seen[0] if seen else ''
    edit = '' if place is None else json.dumps(json.loads(line)[1][place], separators=(',', ':')) + ': '
    same(name, (len(seen), text.startswith(edit), bool(re.search(FAULTS[number], text))), (1, True, True))
    if number in (4, 5, 6, 8):
        same(name, re.findall('[0-9]+', text[len(edit):]), [str(it) for it in refusal['nodes']])


def check_turn(name, seen, network, sink):
    same(f'{name}: links', sorted(tuple(link[:2]) for link in seen['links']), network.links())
    same(f'{name}: counts', [node['count'] for node in seen['nodes']], network.counts)
    same(f'{name}: bold links', [link for link in seen['links'] if link[4] or link[5]], [])
    same(f'{name}: the node that turns', [node['node'] for node in seen['nodes'] if node['now']], [sink])


def loop_in(table):
    """A node that leads into a loop of this table, or None: one from which there are as many hops as nodes."""
    for start in range(len(table)):
        node = str(start)
        for _ in table:
            node = table[int(node)] if node.isdigit() else node
        if node.isdigit():
            return int(node)
    return None


def hop_name(hop):
    return {'here': 'destination', 'cut': 'none'}.get(hop, hop)


def check_push(name, seen, network, round_, push):
    """The table after this many pushes, which has no loop; its arrows; the node that got its hop last; and the text."""
    pushed, table = round_['pushes'][:push], list(round_['old'])
    for node in pushed:
        table[node] = round_['new'][node]
    same(f'{name}: a loop in the tables', loop_in(table), None)
    same(f'{name}: links', sorted(tuple(link[:2]) for link in seen['links']), network.links())
    same(f'{name}: counts', [node['count'] for node in seen['nodes']], network.counts)
    same(f'{name}: the table', [node['hop'] for node in seen['nodes']], table[:network.nodes])
    same(f'{name}: the node that gets its hop', [node['node'] for node in seen['nodes'] if node['push']],
         [node for node in pushed[-1:] if node < network.nodes])
    same(f'{name}: nodes with new hops', [node['node'] for node in seen['nodes'] if node['fresh']],
         sorted(node for node in pushed[:-1] if node < network.nodes))
    hops = [(node, int(hop), hop != round_['new'][node]) for node, hop in enumerate(table[:network.nodes])
            if hop.isdigit() and int(hop) < network.nodes]
    same(f'{name}: arrows of the table', sorted((arrow[0], arrow[1], arrow[5]) for arrow in seen['arrows']), hops)
    same(f'{name}: where arrows begin and end', [it for it in seen['arrows'] if it[0] != it[2] or not all(it[3:5])], [])
    node = pushed[-1]
    gone = '' if node < network.nodes else ', which is gone,'
    does = {'here': 'is the destination', 'cut': 'has no next hop'}.get(table[node], f'sends to {table[node]}')
    check_said(name, seen, round_, push, f'push {push} of {len(round_["pushes"])}. Node {node}{gone} now {does} '
               f'(before: {hop_name(round_["old"][node])}). No loop is in the tables.')


def settled(round_, after):
    """The network after a round, as `run` answers it."""
    links, counts, _ = after
    network = story.Network(round_['nodes'], round_['home'], [tuple(map(int, it.split('>'))) for it in links.split()[1:]])
    network.counts = list(map(int, counts.split()[1:]))
    return network


def said_of_end(told, total):
    """What is said of the end of a round of this many turns, of which so many are told."""
    if not total:
        return 'no node turns.'
    left = f'. Turns {told + 1} to {total} are not shown' if told < total else ''
    return f'turn {total} of {total}, the round has ended{left}.'


def check_said(name, seen, round_, push, said):
    """The text of a step, and of the next push if there is one."""
    if 'old' not in round_:
        said += ' The hops before it are not known, so no push is shown.'
    for node in round_['pushes'][push:push + 1]:
        said += f' Next push: node {node}\u00a0({hop_name(round_["old"][node])}\u00a0\u2192\u00a0{hop_name(round_["new"][node])}).'
    same(f'{name}: what is said', seen['say'].partition(': ')[2], said)


def turn(network, node):
    network.counts[node] += 1
    for other in list(network.tails[node]):
        network.cut(other, node)
        network.add(node, other)


def check_steps(chrome, programs, name, data, routes):
    """All steps of the page that is open, and how many they are."""
    answers = programs.answers(data)
    expected = Expected(programs, data, answers)
    wanted = expected.steps()
    if not wanted:
        same(f'{name}: what an empty page says', chrome.value("document.getElementById('none').textContent.length > 0 && document.getElementById('net').hasAttribute('hidden')"), True)
    listed = chrome.value(LISTED)
    same(f'{name}: the list', [it[:3] for it in listed], [[str(number), request_of(line, answer)[:80], answer[:80]] for (number, line), answer in zip(story.request_lines(data), answers)])
    lines, refusals = dict(story.request_lines(data)), programs.refusals(data)
    for (number, line), it in zip(lines.items(), listed):
        check_fault(f'{name}: why line {number} was refused', line, refusals.get(number), it[3:])
    network, places, chosen = None, {}, looked_at(wanted)
    for begin in range(0, len(chosen), 200):
        part = chosen[begin:begin + 200]
        for step, seen in zip(part, chrome.value(f'{READ}({json.dumps(part)})'), strict=True):
            number, at, push = wanted[step]
            told = f'{name}, line {number}, turn {at}, push {push}'
            same(f'{told}: the step', [seen['line'], seen['turn'], seen['push']], [number, at, push])
            same(f'{told}: the answer', seen['answer'], answers[expected.numbers.index(number)])
            same(f'{told}: a loop that the page finds', seen['loop'], '' if push else None)
            round_ = expected.rounds.get(number)
            if round_ and at == 0 and push == 0:
                network = round_['turns'] is not None and story.Network(round_['nodes'], round_['home'], round_['first'])
                turned = 0
                if network:
                    network.counts = [0] * network.nodes
            check_request(told, seen, lines[number], network, refusals.get(number))
            same(f'{told}: whether a network is drawn', seen['drawn'], bool(network))
            if not network:
                continue
            same(f'{told}: where links begin and end', [link for link in seen['links'] if link[0] != link[2] or not link[3]], [])
            same(f'{told}: the counts of labels', [node['told'] for node in seen['nodes']], [node['count'] for node in seen['nodes']])
            same(f'{told}: nodes', [node['name'] for node in seen['nodes']], [str(node) for node in range(network.nodes)])
            if round_ and at < len(round_['turns']):
                for node in round_['turns'][turned:at]:
                    turn(network, node)
                turned = at
                check_turn(told, seen, network, round_['turns'][at])
                same(f'{told}: what is said', seen['say'].partition(': ')[2],
                     f'turn {at} of {expected.total(number)}. Node {round_["turns"][at]} is a sink, and turns next.')
            elif push:
                check_push(told, seen, network, round_, push)
            else:
                check_settled(told, seen, expected.after[number])
                if round_:
                    network = settled(round_, expected.after[number])
                    check_said(told, seen, round_, 0, said_of_end(at, sum(network.counts)))
            if round_:
                if number not in places:
                    places[number] = seen['places']
                same(f'{told}: places', seen['places'], places[number])
                if at == len(round_['turns']):
                    same(f'{told}: changed next hops', seen['changed'], ' '.join(map(str, round_.get('changed', []))))
    if routes and network:
        asked = b'\n'.join(line for _, line in story.request_lines(data)) + b''.join(f'\n["walk",{node}]'.encode() for node in range(network.nodes))
        for (node, route, way), answer in zip(chrome.value(ROUTES), programs.answers(asked)[-network.nodes:], strict=True):
            same(f'{name}: the route of node {node}', route, answer)
            if not answers[-1].startswith('walk'):
                same(f'{name}: the drawn route of node {node}', way, 0 if answer.endswith('cut') else len(answer.split()) - 2)
    return len(chosen)


def light(colour):
    """The light of a colour, as WCAG 2 defines it."""
    parts = [int(it) / 255 for it in re.findall(r'\d+', colour)[:3]]
    return sum(weight * (it / 12.92 if it <= 0.04045 else ((it + 0.055) / 1.055) ** 2.4) for weight, it in zip((0.2126, 0.7152, 0.0722), parts))


def steady(chrome, what, is_right=lambda _: True):
    """The value of an expression, once two drawings of the page in a row give the same one, and it is right. On a busy machine a page is
    not always laid out at once, so a value that is wrong counts only after many drawings."""
    last = None
    for _ in range(MOST_DRAWINGS):
        chrome.value(DRAWN)
        now = chrome.value(what)
        if now == last and is_right(now):
            break
        last = now
    return now


def check_nothing(told, chrome, what):
    """An expression lists nothing, once the page is laid out."""
    same(told, steady(chrome, what, lambda it: not it), [])


def filled_part(sides):
    """How much of its pane the drawing fills."""
    (left, top, right, bottom), (west, north, east, south), _ = sides
    return (east - west) * (south - north) / (right - left) / (bottom - top)


def check_sides(told, chrome):
    """The page fits the screen, and the drawing fits its pane and fills at least half of it. Returns the sides of the pane."""
    sides = steady(chrome, SIDES, lambda it: it[2] and filled_part(it) >= 0.5)
    (left, top, right, bottom), (west, north, east, south), fits = sides
    same(f'{told}: the page fits', fits, True)
    same(f'{told}: the drawing fits', west >= left and north >= top and east <= right and south <= bottom, True)
    part = filled_part(sides)
    same(f'{told}: the drawing fills half of its pane', part >= 0.5 or f'{part:.2f}', True)
    return left, top, right, bottom


def check_texts(told, chrome):
    """No text of the page is cut off, and the letters of the legend grow with the screen."""
    cut, part = steady(chrome, TEXTS, lambda it: not it[0] and it[1] <= MOST_LETTERS)
    same(f'{told}: texts that are cut off', cut, [])
    same(f'{told}: the letters of the legend', part <= MOST_LETTERS or f'a part of {part:.0f}', True)


def node_at(chrome, node):
    """The middle of a node on the screen, and its width."""
    return chrome.value(f"(it => [it.left + it.width / 2, it.top + it.height / 2, it.width])(document.querySelector('#net .node[data-node=\"{node}\"] .face').getBoundingClientRect())")
