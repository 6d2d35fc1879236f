// The story of a page, read: its lines, their requests and answers, and what each round changed.

// What is wrong with a line that is refused, by the number of the refusal. The engine names the nodes.
const faults = {
  1: () => 'the line is no JSON, or nests too deep',
  2: () => 'the value is no request',
  3: () => 'there is no network yet',
  4: node => node + ' is not a node',
  5: node => 'a link joins node ' + node + ' with itself',
  6: (u, v) => 'a second link would join ' + u + ' and ' + v,
  7: () => 'the links would contain a cycle',
  8: (u, v) => 'there is no link between ' + u + ' and ' + v,
  9: () => 'more nodes, links or edits than the limits'
};
const roundLines = new Set(['turns', 'gone', 'new', 'counted', 'listed', 'links', 'counts', 'hops', 'ways', 'pushes']);
const listed = (text, item) => text.split(' ').slice(1).map(item);
const linkOf = word => word.split('>').map(Number);
const hopIn = word => {
  const [node, hop] = word.split(':');
  return [Number(node), hop];
};

// A node and its ways, as 3:1:2; and the ways of one node in an answer, as 1,2.
const numbersIn = word => word.split(':').map(Number);
const waysIn = word => word === 'here' || word === 'cut' ? [] : word.split(',').map(Number);

// How many items a line has after its first word.
function itemsIn(line) {
  let items = 0;
  for (let at = line.indexOf(' '); at >= 0; at = line.indexOf(' ', at + 1)) items++;
  return items;
}

const stepsOf = walk => new Set(walk.slice(1).map((node, at) => walk[at] + '>' + node));
const short = text => text.length > 300 ? text.slice(0, 300) + ' ..' : text;

// A number for two nodes, in either order.
const WIDTH = 65536, keyOf = (a, b) => a < b ? a * WIDTH + b : b * WIDTH + a;

// A round of the story. Its lines are read when they are needed: the story may have thousands of rounds.
class Round {
  constructor([nodes, home], before, block) {
    Object.assign(this, {nodes, home, before, block, drawn: true, said: {}, view: null, kept: null});
  }
  get turns() { return this.listed ??= listed(this.said.turns, Number); }
  get turned() { return itemsIn(this.said.turns); }
  // All turns of the round, also those that the story leaves out.
  get total() { return Number(this.block.answer.split(' ')[1]); }
  get pushes() { return listed(this.said.pushes, word => hopIn(word)[0]); }
  get pushed() { return itemsIn(this.said.pushes); }
  get gone() { return listed(this.said.gone, linkOf); }
  get fresh() { return listed(this.said.new, linkOf); }
  get isWhole() { return this.said.links !== undefined; }
  // The links, counts, hops and ways after the round.
  get links() { return settled(this).links; }
  get counts() { return settled(this).counts; }
  get hops() { return settled(this).hops; }
  get ways() { return settled(this).ways; }
  // The links before the round: a link points as it did if its ends turned equally often.
  get first() { return this.links.map(([a, b]) => this.counts[a] === this.counts[b] ? [a, b] : [b, a]); }
}

// The states of the rounds that were needed last.
const keeping = [], MOST_KEPT = 8;

function keep(round, state) {
  const sorted = [...state.links.values()].sort((a, b) => a[0] - b[0] || a[1] - b[1]);
  round.kept = {links: sorted, counts: state.counts.slice(), hops: state.hops.slice(), ways: state.ways.slice()};
  keeping.push(round);
  if (keeping.length > MOST_KEPT) keeping.shift().kept = null;
  return round.kept;
}

const byKey = links => new Map(links.map(link => [keyOf(...link), link]));

// The state after a round: the last whole state before it, and what each round since then changed.
function settled(round) {
  if (round.kept) return round.kept;
  const later = [];
  let from = round;
  for (; !from.kept && !from.isWhole; from = from.before) later.push(from);
  const {links, counts, hops, ways} = from.kept ?? wholeState(from);
  const state = {links: byKey(links), counts: counts.slice(), hops: hops.slice(), ways: ways.slice()};
  while (later.length) change(state, later.pop());
  return keep(round, state);
}

const wholeState = ({said}) => ({
  links: listed(said.links, linkOf),
  counts: listed(said.counts, Number),
  hops: listed(said.hops, String),
  ways: listed(said.ways, waysIn)
});

function change(state, round) {
  for (const link of round.gone) state.links.delete(keyOf(...link));
  for (const link of round.fresh) state.links.set(keyOf(...link), link);
  state.counts.fill(0);
  for (const [node, count] of listed(round.said.counted, hopIn)) state.counts[node] = Number(count);
  for (const [node, hop] of listed(round.said.pushes, hopIn)) state.hops[node] = hop;
  for (const [node, ...ways] of listed(round.said.listed, numbersIn)) state.ways[node] = ways;
}

// The story, read: a block for each line of the input; a round has what its block says, and a question the round before
// it.
function readStory(text, before) {
  const blocks = [];
  let block = null;
  for (const line of text.split(NL)) {
    const name = line.split(' ', 1)[0];
    if (name === 'line') {
      block = {line: Number(line.slice(5)), answer: null, round: before, own: false, asks: null};
      blocks.push(block);
    } else if (!block) continue;
    else if (block.answer === null) block.answer = line;
    else if (name === 'asks') block.asks = line.slice(5);
    else if (name === 'refusal') block.refusal = JSON.parse(line.slice(8));
    else if (name === 'net') {
      before = block.round = new Round(listed(line, Number), before, block);
      block.own = true;
    } else if (name === 'omitted') block.round.drawn = false;
    else if (roundLines.has(name)) block.round.said[name] = line;
  }
  return blocks;
}

// Why a line was refused, in words. A line that is no request has a number only.
function faultOf({answer, refusal, asks}) {
  if (!answer.startsWith('refused ')) return null;
  if (!refusal) return faults[answer.slice(8)]();
  if (asks === 'pushes' && refusal.refused === 7) return 'the wanted table has a loop';
  const edit = refusal.edit === undefined ? '' : JSON.stringify(editsOf(asks.split(' ').slice(1))[refusal.edit]) + ': ';
  return edit + faults[refusal.refused](...refusal.nodes);
}

// The cycle that the engine names for a line that is refused for one, and no nodes for any other line.
const cycleOf = ({refusal}) => refusal && refusal.refused === 7 ? refusal.nodes : [];

// What a line asks, as a line, or why nobody knows: one that is no request has no words here.
function requestOf(block) {
  if (!block.asks) return block.answer === 'refused 1' ? 'no JSON' : 'no request';
  const [name, ...words] = block.asks.split(' ');
  if (name === 'net') return JSON.stringify([name, Number(words[0]), Number(words[1]), words.slice(2).map(linkOf)]);
  return JSON.stringify(name === 'batch' ? [name, editsOf(words)] : [name, ...words.map(Number)]);
}

// The edits of a batch, each by a name and two numbers.
function editsOf(words) {
  const edits = [];
  for (let place = 0; place < words.length; place += 3)
    edits.push([words[place], Number(words[place + 1]), Number(words[place + 2])]);
  return edits;
}
