// Where nodes are, and how links go round them.

// Rounds that share a node number and most links are of one network: it is laid out once, as its last round leaves it.
function layOut(from) {
  let view = null;
  for (const [at, {own, round}] of blocks.entries()) {
    if (!own || !round.drawn) continue;
    if (at < from) {
      view = Object.assign(round.view, {round, pairs: null});
      continue;
    }
    const pairs = view && (view.pairs ??= new Set(byKey(view.round.links).keys())),
          share = pairs && sharedPairs(pairs, round);
    if (!view || view.nodes !== round.nodes || 2 * share.both < Math.min(share.before, share.pairs.size)) {
      view = {
        nodes: round.nodes,
        first: at,
        all: new Set(share ? share.pairs : byKey(round.links).keys()),
        shapes: new Map(),
        group: null
      };
      view.pairs = new Set(view.all);
    } else {
      view.pairs = share.pairs;
      for (const key of share.fresh) view.all.add(key);
    }
    view.round = round;
    round.view = view;
  }
}

// The pairs of nodes that are joined after a round, with those that are new, and how many were there before it and how
// many stayed.
function sharedPairs(pairs, round) {
  const before = pairs.size;
  if (round.said.gone === undefined) {
    const fresh = [...byKey(round.links).keys()];
    return {pairs: new Set(fresh), fresh, before, both: fresh.filter(key => pairs.has(key)).length};
  }
  const keysOf = line => listed(line, word => keyOf(...linkOf(word))), gone = keysOf(round.said.gone),
        fresh = keysOf(round.said.new);
  for (const key of gone) pairs.delete(key);
  for (const key of fresh) pairs.add(key);
  return {pairs, fresh, before, both: before - gone.length};
}

// Parts of a network, each a list of nodes: that of the destination first, then by size.
function partsOf(round) {
  const near = Array.from({length: round.nodes}, () => []), part = Array(round.nodes).fill(-1), parts = [];
  for (const [a, b] of round.links) {
    near[a].push(b);
    near[b].push(a);
  }
  for (const start of [round.home, ...near.keys()]) {
    if (part[start] >= 0) continue;
    const nodes = [start];
    part[start] = parts.length;
    for (const node of nodes)
      for (const other of near[node])
        if (part[other] < 0) {
          part[other] = parts.length;
          nodes.push(other);
        }
    parts.push(nodes);
  }
  return {near, parts: [parts[0], ...parts.slice(1).sort((a, b) => b.length - a.length)]};
}

// The layer of each node: the longest way down along the links.
function layersOf(round) {
  const layer = Array(round.nodes).fill(0), left = Array(round.nodes).fill(0), tails = layer.map(() => []);
  for (const [tail, head] of round.links) {
    left[tail]++;
    tails[head].push(tail);
  }
  const ready = [...left.keys()].filter(node => !left[node]);
  for (const node of ready)
    for (const tail of tails[node]) {
      layer[tail] = Math.max(layer[tail], layer[node] + 1);
      if (!--left[tail]) ready.push(tail);
    }
  return layer;
}

// Places in a row that keep their order and distance, as near as can be to those wished for: neighbours that meet move
// as one.
function spread(wishes, gap) {
  const groups = [];
  wishes.forEach((wish, at) => {
    let group = {sum: wish - at * gap, size: 1};
    while (groups.length && groups.at(-1).sum / groups.at(-1).size >= group.sum / group.size) {
      const last = groups.pop();
      group = {sum: last.sum + group.sum, size: last.size + group.size};
    }
    groups.push(group);
  });
  const places = [];
  for (const group of groups)
    for (let i = 0; i < group.size; i++) places.push(group.sum / group.size + places.length * gap);
  return places;
}

// Each row in turn is ordered by the middle of the nodes that its nodes are joined with.
function placePart(nodes, near, layer, gap) {
  const rows = [], x = new Map(nodes.map(node => [node, 0]));
  for (const node of nodes) (rows[layer[node]] ||= []).push(node);
  const settle = row => spread(row.map(node => x.get(node)), gap).forEach((place, at) => x.set(row[at], place));
  rows.forEach(settle);
  for (let pass = 0; pass < 24; pass++)
    for (const row of pass % 2 ? rows : rows.slice().reverse()) {
      for (const node of row) {
        const others = near[node].map(other => x.get(other));
        if (others.length) x.set(node, others.reduce((sum, place) => sum + place, 0) / others.length + node * 1e-6);
      }
      row.sort((a, b) => x.get(a) - x.get(b));
      settle(row);
    }
  return x;
}

// Places from 0 on, before they are stretched: the destination of the first part is below its other nodes.
function placesOf(view) {
  const {near, parts} = partsOf(view.round), layer = layersOf(view.round), place = [];
  const [across, down] = view.nodes > 60 ? [48, 54] : [62, 66];
  const height = Math.max(...layer);
  let left = 0, alone = 0;
  for (const nodes of parts) {
    const single = nodes.length === 1 && nodes[0] !== view.round.home;
    const x = single ? new Map([[nodes[0], 0]]) : placePart(nodes, near, layer, across);
    const least = Math.min(...x.values()), most = Math.max(...x.values()), tall = Math.max(4, height + 1);
    const row = single ? alone++ % tall : 0;
    if (single && row === 0 && alone > 1) left += across;
    const bottom = Math.max(height, single ? Math.min(alone, tall) - 1 : 0);
    for (const node of nodes) place[node] = [left + x.get(node) - least, (bottom - layer[node] - row) * down];
    if (!single) left += most - least + across * 1.3;
  }
  const lowest = Math.min(...place.map(at => at[1]));
  for (const at of place) at[1] -= lowest;
  return place;
}

// The rows of a drawing that lies on its side, cut into so many strips: one below the other, each beginning where the
// last one ends.
function folded(lying, strips) {
  const columns = [...new Set(lying.map(([x]) => x))].sort((a, b) => a - b),
        at = new Map(columns.map((x, i) => [x, i]));
  const gap = columns.length > 1 ? columns[1] - columns[0] : 0, long = Math.ceil(columns.length / strips);
  const down = Math.max(...lying.map(([, y]) => y)) + 1.5 * gap;
  return lying.map(([x, y]) => {
    const strip = Math.floor(at.get(x) / long), part = at.get(x) % long;
    return [(strip % 2 ? long - 1 - part : part) * gap, strip * down + y];
  });
}

// The places in a pane of this size: stretched, so that the drawing fills it. Where the nodes get much larger by that,
// the drawing lies on its side, with the destination on the left. One that is long and thin is folded, so that its
// nodes can still be read.
const MOST_STRIPS = 24, READABLE = 0.6;
function stretched(plain, width, height) {
  const most = (places, side) => Math.max(...places.map(at => at[side])), rim = 64;
  const sizeOf = places => Math.min(MOST_SCALE, width / (most(places, 0) + rim), height / (most(places, 1) + rim));
  const tall = most(plain, 1), lying = plain.map(([x, y]) => [tall - y, x]);
  let places = sizeOf(lying) > 1.3 * sizeOf(plain) ? lying : plain;
  if (sizeOf(places) < READABLE) {
    const folds = Array.from({length: MOST_STRIPS - 1}, (_, strips) => folded(lying, strips + 2));
    const best = folds.reduce((one, other) => sizeOf(other) > sizeOf(one) ? other : one);
    if (sizeOf(best) > 1.3 * sizeOf(places)) places = best;
  }
  const scale = sizeOf(places);
  const factor = (pane, side) => Math.max(1, Math.min(8, (pane / scale - rim) / (most(places, side) || 1)));
  const [across, down] = [factor(width, 0), factor(height, 1)];
  return places.map(([x, y]) => [x * across, y * down]);
}

// Makes room for the curves: moves all to the right of them and below them, and takes the size.
function makeRoom(view) {
  const points = view.place.map(at => [at, 32]), named = acts.names(view);
  // A name is below its node.
  for (const node of view.place.keys())
    if (named[node]) points.push([[view.place[node][0], view.place[node][1] + 12], 32]);
  for (const {a, b, bend} of view.shapes.values()) {
    const from = view.place[a], to = view.place[b], long = Math.hypot(to[0] - from[0], to[1] - from[1]) || 1;
    const [across, down] = [to[0] - from[0], to[1] - from[1]].map(side => side / long * bend / 2);
    points.push([[(from[0] + to[0]) / 2 - down, (from[1] + to[1]) / 2 + across], 8]);
  }
  const [left, top] = [0, 1].map(side => Math.min(...points.map(([at, rim]) => at[side] - rim)));
  view.size = [0, 1].map(side => Math.max(...points.map(([at, rim]) => at[side] + rim)) - (side ? top : left));
  view.place = view.place.map(([x, y]) => [x - left, y - top]);
  view.corner = [left, top];
}

// The bend of a link's curve: none where it passes no other node, else the least that takes it round them.
function bendOf(view, a, b) {
  const [ax, ay] = view.place[a], [bx, by] = view.place[b], long = Math.hypot(bx - ax, by - ay) || 1;
  const clear = bend => {
    for (let other = 0; other < view.nodes; other++) {
      if (other === a || other === b) continue;
      const [ox, oy] = view.place[other];
      const far = 25 + Math.abs(bend) / 2;
      if (oy < Math.min(ay, by) - far || oy > Math.max(ay, by) + far) continue;
      if (ox < Math.min(ax, bx) - far || ox > Math.max(ax, bx) + far) continue;
      for (let t = 0.08; t < 0.95; t += 0.07) {
        const off = 2 * t * (1 - t) * bend, px = ax + (bx - ax) * t - (by - ay) / long * off,
              py = ay + (by - ay) * t + (bx - ax) / long * off;
        if ((px - ox) ** 2 + (py - oy) ** 2 < 460) return false;
      }
    }
    return true;
  };
  if (view.all.size > MOST_CURVES) return 0;
  for (const bend of [0, 50, -50, 90, -90, 140, -140, 200, -200, 280, -280])
    if (clear(bend)) return bend;
  return 30;
}

// A link's curve from its tail to its head, and its tip.
function curve(view, shape, tail, head) {
  const from = view.place[tail], to = view.place[head], long = Math.hypot(to[0] - from[0], to[1] - from[1]) || 1;
  const bend = tail === shape.a ? shape.bend : -shape.bend;
  const mid = [
    (from[0] + to[0]) / 2 - (to[1] - from[1]) / long * bend, (from[1] + to[1]) / 2 + (to[0] - from[0]) / long * bend
  ];
  const dx = to[0] - mid[0], dy = to[1] - mid[1], end = Math.hypot(dx, dy) || 1, ux = dx / end, uy = dy / end;
  const reach = 22, edge = [to[0] - ux * reach, to[1] - uy * reach], base = [edge[0] - ux * 9, edge[1] - uy * 9];
  const fix = point => point.map(value => value.toFixed(1)).join(' ');
  return {
    line: 'M' + fix(from) + 'Q' + fix(mid) + ' ' + fix(base),
    tip: 'M' + fix(edge) + 'L' + fix([base[0] - uy * 4.6, base[1] + ux * 4.6]) + 'L' +
        fix([base[0] + uy * 4.6, base[1] - ux * 4.6]) + 'Z'
  };
}
