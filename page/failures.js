// The part of the lab about links that fail without the engine's knowing, and about packets. The engine answers the
// ways. A failed link is no request until the engine is told, so nothing here is in the file that is kept.
'use strict';
const {by, make, mark, NL, ARROW, acts, keys, controlled, pane, camera, room} = viewer;
const {
  load,
  stepsIn,
  blockAt,
  show,
  showNothing,
  chooseLines,
  waysIn,
  walkOf,
  play,
  pick,
  fit,
  lookAs,
  keepInSight,
  moveNode,
  fixedPlaces,
  keepPlaces,
  textOf,
  placesOf
} = viewer;

// The failed links in the order in which they failed; the ways of the network that these lines leave, as the engine
// answers them; the walk of the packet that was sent last; and whether a click on a link makes it fail.
const failing = {
  links: [],
  ways: null,
  lines: null,
  packet: null,
  isOn: false
};
const isSame = ([a, b], [u, v]) => a === u && b === v || a === v && b === u;
const failedAt = link => failing.links.findIndex(other => isSame(link, other));
const linkNames = links => links.map(([tail, head]) => tail + ARROW + head).join(', ');

// What the engine does not know yet concerns the network that the last request leaves, and no earlier one.
const isLast = () => viewer.blocks.length > 0 && blockAt(viewer.now) === viewer.blocks.length - 1;

acts.hasFailed = (tail, head) => failing.links.length > 0 && isLast() && failedAt([tail, head]) >= 0;
acts.ways = () => failing.links.length > 0 && isLast() ? failing.ways : null;
acts.packet = () => failing.packet && isLast() ? failing.packet.walk : null;
acts.isStuck = node => Boolean(failing.packet) && isLast() && failing.packet.stuck === node;

// The answer to ["ways"], as a list for each node.
function readWays(answer) { return answer.startsWith('ways ') ? answer.split(' ').slice(1).map(waysIn) : null; }

// Asks the engine for the ways of the network as the last request leaves it. Returns whether they are known.
async function askWays() {
  if (failing.lines === lines) return true;
  const answer = await sent('ways', textOf(lines, {}, {})), ways = answer && readWays(answer);
  if (!ways) return false;
  Object.assign(failing, {ways, lines});
  return true;
}

// Where a packet goes: from each node to the first of its ways that has not failed. The links contain no cycle, so it
// ends.
function packetFrom(node) {
  const stands = at => way => failedAt([at, way]) < 0;
  const ways = failing.ways.map((list, at) => list.filter(stands(at))), walk = walkOf(ways, node), end = walk.at(-1);
  return {walk, stuck: failing.ways[end].length ? end : null};
}

function packetText({walk, stuck}) {
  const end = walk.at(-1), path = walk.length > 1 ? 'Packet: ' + walk.join(ARROW) + '. ' : '';
  if (stuck !== null) return path + 'Stuck: all ways of node ' + end + ' have failed.';
  return end === lastRound().home ? path + 'It has arrived at the destination.' :
                                    'Node ' + end + ' is cut off, so a packet there has no way.';
}

// What is said of all this beside each step.
function failureText() {
  if (!failing.links.length || !isLast()) return '';
  const [verb, it] = failing.links.length === 1 ? [' has', 'it'] : [' have', 'them'];
  return 'The engine does not know yet that ' + linkNames(failing.links) + verb + ' failed. Packets avoid ' + it + '.';
}

function failureHint() {
  if (failing.packet && isLast()) return packetText(failing.packet);
  if (failing.isOn) return 'Click a link: it fails, and the engine does not know. Another click mends it.';
  return failing.links.length ? 'Send a packet from a node (g), or tell the engine (t).' : '';
}

// After requests: a failed link that the engine has cut is gone. A new network has no failed links.
function forgetFailures(kept, isMore) {
  const isNew = viewer.blocks.slice(kept).some(({own, asks}) => own && asks.startsWith('net ')), round = lastRound();
  const stays = link => round && round.links.some(other => isSame(link, other));
  failing.links = isMore && !isNew ? failing.links.filter(stays) : [];
  failing.packet = null;
}

// A link of the last network fails, or is mended. Each such act can be undone.
async function failLink(link) {
  if (!await askWays()) return;
  const at = failedAt(link);
  remember(stateNow());
  failing.packet = null;
  failing.links = at < 0 ? [...failing.links, link] : failing.links.filter((_, other) => other !== at);
  chooseLines('ways');
}

acts.fail = (tail, head) => {
  if (isEarlier()) return;
  play(false);
  later(() => failLink([tail, head]));
};

function switchFailing() {
  failing.isOn = !failing.isOn;
  if (failing.isOn) failing.packet = null;
  show(viewer.now, true);
}

// The engine is told of all failed links by one request.
function tellEngine() {
  if (!failing.links.length) return tell('No link has failed without the engine knowing.');
  if (isEarlier()) return;
  const cuts = failing.links.map(link => ['cut', ...link]);
  if (cuts.length === 1) ask(...cuts[0]);
  else ask('batch', cuts);
}

async function sendFrom(node) {
  if (!await askWays()) return;
  failing.packet = packetFrom(node);
  showLast();
  chooseLines('ways');
  follow(viewer.shown, failing.packet);
}

function sendPacket() {
  const node = nodeMeant();
  if (node === null) return noNode('A packet is sent from it.');
  if (isEarlier()) return;
  play(false);
  later(() => sendFrom(node));
}

// Where a packet is drawn after so many links of its walk, also between two nodes.
function placeOn(view, walk, links) {
  const from = Math.min(Math.floor(links), walk.length - 1), part = links - from;
  // At a node it lies on the rim, so that the number can be read.
  if (!part) return view.place[walk[from]].map((side, at) => side + (at ? -15 : 15));
  const name = '[data-tail="' + walk[from] + '"][data-head="' + walk[from + 1] + '"]';
  const line = view.lines.querySelector('.link' + name + ' path'),
        {x, y} = line.getPointAtLength(part * line.getTotalLength());
  return [x, y];
}

// Draws the packet on its walk. It stays at the end until something else is done.
function follow(view, packet) {
  for (const last of view.group.querySelectorAll('.packet')) last.remove();
  const {walk} = packet, dot = make(view.group, 'circle', {r: 9, class: 'packet'}), begin = performance.now();
  const pace = matchMedia('(prefers-reduced-motion: reduce)').matches ? 0 : Number(by('speed').value) / 2;
  const step = () => {
    if (failing.packet !== packet) return dot.remove();
    const links = pace ? Math.min((performance.now() - begin) / pace, walk.length - 1) : walk.length - 1;
    dot.setAttribute('transform', 'translate(' + placeOn(view, walk, links).join(' ') + ')');
    mark(dot, {'data-at': links === walk.length - 1 ? walk.at(-1) : null});
    requestAnimationFrame(step);
  };
  step();
}
