// The drawing of a network at a step.

// The shape of a link. In the lab a broad line that is not seen takes its clicks.
function shapeOf(view, key) {
  const a = Math.floor(key / WIDTH), b = key % WIDTH, g = make(view.lines, 'g', {class: 'link'});
  const shape = {a, b, bend: bendOf(view, a, b), g, line: make(g, 'path', {}), tip: make(g, 'path', {class: 'tip'})};
  if (isLab) {
    shape.hit = make(g, 'path', {class: 'hit'});
    mark(g, {role: 'button'});
  }
  view.shapes.set(key, shape);
}

function build(view) {
  view.group = document.createElementNS(SVG, 'g');
  view.lines = make(view.group, 'g', {});
  view.more = make(view.group, 'g', {class: 'more'});
  view.bends = new Map();
  view.spots = Array.from({length: view.nodes}, (_, node) => {
    const g = make(view.group, 'g', {class: 'node', role: 'button', tabindex: -1});
    make(g, 'circle', {r: 22, class: 'ring'});
    make(g, 'circle', {r: 18, class: 'face'});
    make(g, 'text', {y: 0}).textContent = node;
    return {g, count: make(g, 'text', {y: 12, class: 'count'}), name: make(g, 'text', {y: 35, class: 'name'})};
  });
  const given = acts.places(view);
  view.isGiven = given !== null;
  view.plain = given ?? placesOf(view);
}

// Gives each node and link its place in the pane as it is. A link that came later gets its own.
function arrange(view) {
  const {clientWidth, clientHeight} = pane;
  view.pane = clientWidth + ' ' + clientHeight;
  view.place = view.isGiven ? view.plain.map(at => [...at]) : stretched(view.plain, ...room());
  view.shapes.clear();
  view.lines.replaceChildren();
  view.bends.clear();
  addShapes(view);
  makeRoom(view);
  for (const node of view.spots.keys()) putSpot(view, node);
}

function putSpot(view, node) {
  mark(view.spots[node].g, {transform: 'translate(' + view.place[node].map(at => at.toFixed(1)).join(' ') + ')'});
}

function setUp(view) {
  if (!view.group) build(view);
  if (view.pane !== pane.clientWidth + ' ' + pane.clientHeight) {
    arrange(view);
    return true;
  }
  addShapes(view);
  return false;
}

// The links of all rounds get their shapes at once, if they are few; otherwise each when it is drawn.
function addShapes(view) {
  if (view.all.size > MOST_CURVES) return;
  for (const key of view.all)
    if (!view.shapes.has(key)) shapeOf(view, key);
}

// How a link is drawn that is in the network. Where ways are shown, that to the first way of its tail is bold.
function kindOf([tail, head], round, {state, ways, hop}) {
  if (head === state.sink) return ' now';
  if (acts.hasFailed(tail, head)) return ' failed';
  if (ways && round.hops[tail] !== 'cut') return (ways[tail][0] === head ? ' first' : ' other') + (hop ? ' next' : '');
  if (hop) return round.hops[tail] === String(head) ? ' hop' : ' hop old';
  return round.hops[tail] === 'cut' ? ' out' : '';
}

function drawLinks(view, round, {state, ways}, way, walk) {
  const there = new Set(), steps = stepsOf(way), closed = stepsOf(walk), hops = hopsIn(state.hops || [], round.nodes);
  const marks = step => (steps.has(step) ? ' way' : '') + (closed.delete(step) ? ' closed' : '');
  for (const [tail, head] of state.links) {
    const key = keyOf(tail, head), step = tail + '>' + head;
    if (!view.shapes.has(key)) shapeOf(view, key);
    const shape = view.shapes.get(key);
    there.add(key);
    if (shape.tail !== tail) {
      const drawn = curve(view, shape, tail, head);
      shape.line.setAttribute('d', drawn.line);
      shape.tip.setAttribute('d', drawn.tip);
      if (shape.hit) shape.hit.setAttribute('d', drawn.line);
      shape.tail = tail;
    }
    const hop = hops.delete(step);
    mark(shape.g, {
      class: 'link' + kindOf([tail, head], round, {state, ways, hop}) + marks(step),
      'data-tail': tail,
      'data-head': head,
      'data-hop': hop ? 1 : null,
      visibility: null
    });
    if (!isLab) continue;
    const label = 'link from ' + tail + ' to ' + head + (acts.hasFailed(tail, head) ? ', failed' : '');
    mark(shape.g, {'aria-label': label, tabindex: hasLetters() ? -1 : 0});
  }
  for (const [key, shape] of view.shapes) {
    if (!there.has(key))
      mark(shape.g, {class: 'link', visibility: 'hidden', 'data-tail': null, 'data-head': null, 'data-hop': null});
  }
  // What is left of both is no link: old next hops, and links that a refused line asked for.
  view.more.replaceChildren();
  for (const shape of view.shapes.values())
    if (shape.g.classList.contains('failed')) drawCross(view, shape);
  for (const step of hops) mark(arrowMore(view, there, step, 'link hop old' + marks(step)), {'data-hop': 1});
  for (const step of state.push ? [] : closed) arrowMore(view, there, step, 'link closed asked');
}

// A cross on a link that has failed.
function drawCross(view, {line}) {
  const {x, y} = line.getPointAtLength(line.getTotalLength() / 2);
  make(view.more, 'path', {class: 'cross', d: 'M-8-8L8 8M-8 8L8-8', transform: 'translate(' + x + ' ' + y + ')'});
}

// An arrow that is no link of the network, beside the link of its ends where there is one.
function arrowMore(view, there, step, kinds) {
  const [tail, head] = linkOf(step), a = Math.min(tail, head), b = Math.max(tail, head), key = keyOf(a, b);
  if (!view.bends.has(key)) view.bends.set(key, view.shapes.has(key) ? view.shapes.get(key).bend : bendOf(view, a, b));
  return arrow(view, view.more, {a, b, bend: view.bends.get(key) + (there.has(key) ? 36 : 0)}, tail, head, kinds);
}

function arrow(view, group, shape, tail, head, kinds) {
  const drawn = curve(view, shape, tail, head);
  const g = make(group, 'g', {class: kinds, 'data-tail': tail, 'data-head': head});
  make(g, 'path', {d: drawn.line});
  make(g, 'path', {class: 'tip', d: drawn.tip});
  return g;
}

// The cycle of a network that is refused, or the loop of a table, where it is short: its nodes in a circle.
function drawRing(cycle) {
  const ring = by('ring'), nodes = cycle.slice(1), isDrawn = nodes.length > 0 && nodes.length <= 24,
        far = Math.max(46, 9 * nodes.length);
  ring.toggleAttribute('hidden', !isDrawn);
  ring.replaceChildren();
  if (!isDrawn) return;
  const wide = 2 * far + 52, turn = 2 * Math.PI / nodes.length, view = {place: {}, round: {home: null}};
  nodes.forEach((node, at) => {
    view.place[node] = [wide / 2 + far * Math.sin(at * turn), wide / 2 - far * Math.cos(at * turn)];
  });
  mark(
      ring,
      {viewBox: '0 0 ' + wide + ' ' + wide, width: Math.min(wide, 300), 'aria-label': 'The nodes ' + cycle.join(' ')});
  for (const [tail, head] of [...stepsOf(cycle)].map(linkOf)) {
    arrow(view, ring, {a: tail, b: head, bend: 0}, tail, head, 'link closed asked');
  }
  for (const node of nodes) {
    const g = make(ring, 'g', {
      class: 'node',
      'data-node': node,
      transform: 'translate(' + view.place[node].map(at => at.toFixed(1)).join(' ') + ')'
    });
    make(g, 'circle', {r: 18, class: 'face'});
    make(g, 'text', {y: 4}).textContent = node;
  }
}

function drawNodes(view, round, {state, ways}, way, news) {
  view.spots.forEach((spot, node) => {
    const count = state.counts[node], isCut = round.hops[node] === 'cut', isHome = node === round.home;
    const hop = state.hops && state.hops[node], isSaid = hop === 'here' ? isHome : hop === 'cut' && isCut;
    const kinds = [
      ['home', isHome], ['out', isCut], ['now', node === state.sink], ['new', news.includes(node)],
      ['push', node === state.node], ['way', way.includes(node)], ['pick', node === picked],
      ['stuck', acts.isStuck(node)]
    ];
    if (spot.count.textContent !== String(count)) spot.count.textContent = count;
    const name = acts.names(view)[node] ?? '';
    if (spot.name.textContent !== shortName(name)) spot.name.textContent = shortName(name);
    const label = 'node ' + node + (name && ' (' + name + ')') + (isHome ? ', the destination' : '') + ', turned ' +
        timesText(count) + (node === state.sink ? ', turns next' : '') +
        (node === state.node ? ', gets its next hop now' : '') + (isCut ? ', cut off' : '') +
        (hop && !isSaid ? ', ' + (ways ? waysText(ways[node]) : hopText(hop)) : '') +
        (acts.isStuck(node) ? ', a packet is stuck here' : '');
    mark(spot.g, {
      class: 'node' + kinds.filter(kind => kind[1]).map(kind => ' ' + kind[0]).join(''),
      'aria-label': label,
      'aria-pressed': node === picked,
      'data-node': node,
      'data-count': count,
      'data-hop': hop,
      'data-cut': isCut ? 1 : null,
      'data-turns': node === state.sink ? 1 : null,
      tabindex: node === (picked ?? round.home) || !hasLetters() ? 0 : -1
    });
  });
}
