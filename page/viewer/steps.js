// The steps of a page: the lines, their turns and pushes, and the tables of routers after each.

let blocks = [], starts = [], steps = 0, now = 0, picked = null, shown = null, timer = null;

// Keeps so many lines, and puts those of a story after them.
function load(kept, text) {
  blocks.length = kept;
  const last = kept ? blocks[kept - 1].round : null;
  blocks.push(...readStory(text, last));
  layOut(kept);
  starts = [];
  steps = 0;
  chart = null;
  for (const block of blocks) {
    starts.push(steps);
    steps += stepsIn(block);
  }
  by('slide').max = Math.max(0, steps - 1);
  // Its width stays the same, so that the bar and the drawing beside it do.
  by('at').style.minWidth = 2 * String(steps).length + 3 + 'ch';
  list(kept);
}

// The pushes of a round: in push order, or for teaching by rising number.
const isRising = () => by('order').value === 'rising';
const pushesOf = round => isRising() ? [...round.pushes].sort((a, b) => a - b) : round.pushes;

function chooseOrder(name) {
  by('order').value = name;
  show(now);
}

// How many steps a line has: a round has one before each turn, one after them, and one for each push.
function stepsIn(block) {
  const round = block.round;
  return block.own && round.drawn ? round.turned + 1 + (isTableKnown(round) ? round.pushed : 0) : 1;
}

function blockAt(step) {
  let low = 0, high = blocks.length;
  while (high - low > 1) {
    const mid = (low + high) >> 1;
    if (starts[mid] <= step) low = mid;
    else high = mid;
  }
  return low;
}

// A round after some of its turns. A link points as at first where both its ends have turned equally often, and else
// the other way. After all turns that the story has, the round has settled, and the hops are those of the tables after
// so many pushes.
function stateOf(round, turn, push) {
  if (turn === round.turned) {
    const hops = push ? tableAfter(round, push) : round.hops, node = push ? pushesOf(round)[push - 1] : null;
    return {links: round.links, counts: round.counts, sink: null, hops, push, node, loop: push ? loopIn(hops) : []};
  }
  const counts = Array(round.nodes).fill(0);
  for (let k = 0; k < turn; k++) counts[round.turns[k]]++;
  const links = round.first.map(([tail, head]) => counts[tail] === counts[head] ? [tail, head] : [head, tail]);
  return {links, counts, sink: round.turns[turn], hops: null, push: 0, node: null, loop: []};
}

// The routers' tables before the first push, or null where they are not known. They have a hop for each node of this
// network and of the one before it. A node that is not in a network has no hop there.
const isTableKnown = round => !round.before || round.before.drawn;

function tableBefore(round) {
  const before = round.before;
  if (!isTableKnown(round)) return null;
  const nodes = Math.max(round.nodes, before ? before.nodes : 0);
  return Array.from({length: nodes}, (_, node) => before && before.hops[node] || 'cut');
}

function tableAfter(round, pushed) {
  const table = tableBefore(round);
  for (const node of pushesOf(round).slice(0, pushed)) table[node] = hopAfter(round, node);
  return table;
}

const hopAfter = (round, node) => round.hops[node] || 'cut';
const nextIn = (table, node) => table[node] === 'here' || table[node] === 'cut' ? null : Number(table[node]);

// A loop of a table, from a node back to itself, or no nodes. Each hop is followed once.
function loopIn(table) {
  const from = [];
  for (const start of table.keys()) {
    let node = start;
    while (node !== null && from[node] === undefined) {
      from[node] = start;
      node = nextIn(table, node);
    }
    if (node === null || from[node] !== start) continue;
    const loop = [node];
    do loop.push(nextIn(table, loop.at(-1)));
    while (loop.at(-1) !== node);
    return loop;
  }
  return [];
}

function routeOf(table, node) {
  const route = [node];
  while (route.length <= table.length && nextIn(table, route.at(-1)) !== null) route.push(nextIn(table, route.at(-1)));
  return route;
}

// The nodes whose next hop this round changed, in push order; those of a new network are no news.
function changedHops(round) {
  return round.before && round.before.drawn && round.before.nodes === round.nodes ? round.pushes : [];
}

function routeShown(block, state, ways) {
  const walked = acts.packet();
  if (!state.hops) return [];
  if (walked) return walked;
  if (/^(walk|nearest) /.test(block.answer))
    return block.answer.split(' ').slice(1).filter(word => word !== 'cut').map(Number);
  if (picked === null || picked >= block.round.nodes) return [];
  return ways ? walkOf(ways, picked) : routeOf(state.hops, picked);
}

// The hops of a table between nodes of the network, as steps.
function hopsIn(table, nodes) {
  const hops = new Set();
  for (const node of table.keys()) {
    const next = nextIn(table, node);
    if (next !== null && node < nodes && next < nodes) hops.add(node + '>' + next);
  }
  return hops;
}
