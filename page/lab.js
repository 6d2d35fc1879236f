// The lab: each action is a request. The proved program answers all requests so far. Then the round is played.
'use strict';
const MOST_BYTES = 1 << 20, MOST_BYTES_OF_A_PAGE = 1 << 26, MOST_TEXT = MOST_BYTES.toLocaleString('en'),
      MOST_TIME = 20000, MOST_DRAWN = 256;

// The text that the server has, as far as this page knows.
let textThere = viewer.givenText;
let {lines, places, names} = viewer.given;
let queue = Promise.resolve(), fault = null, note = null, hasEnded = false;
const ENDED = 'The lab has ended. Save the requests, and start it again.';

function tell(text) {
  fault = text;
  hint();
}

// Whether the lab answers at all.
function noteEnd(isEnd) {
  if (hasEnded === isEnd) return;
  hasEnded = isEnd;
  hint();
}

function hint() {
  const isStuck = !acting.isOn && failing.packet && failing.packet.stuck !== null;
  by('hint').className = hasEnded || fault || isStuck ? 'no' : '';
  by('hint').textContent = hasEnded ? ENDED :
      fault                         ? fault :
      acting.isOn                   ? actingHint() :
      note                          ? note :
      failureHint()                 ? failureHint() :
      !viewer.blocks.length ?
                      'Click empty space to add a node, take a sample, or open a file of requests.' :
      viewer.picked === null ?
                      'Click a link to cut it, two nodes to join them, empty space to add a node.' :
                      viewer.nodeName(viewer.picked, viewer.shown) + ' is chosen. Click another node to join the two.';
  for (const id of ['home', 'remove', 'rename']) by(id).disabled = viewer.picked === null;
  by('tell').disabled = !failing.links.length;
  by('undo').disabled = !past.length && !lines.length;
  by('redo').disabled = !future.length;
  mark(by('fail'), {'aria-pressed': failing.isOn});
}

// What went wrong is said until somebody does something else. Steps that are played are no such action.
for (const kind of ['pointerdown', 'click', 'keydown'])
  addEventListener(kind, () => {
    if (fault) tell(null);
  }, true);

acts.shown = () => {
  by('say').textContent = [by('say').textContent, failureText()].join(' ').trim();
  hint();
};
acts.pace = wait =>
    blockAt(viewer.now) === viewer.blocks.length - 1 ? Math.min(wait, MOST_TIME / stepsIn(viewer.blocks.at(-1))) : wait;

// Asks the server. The text of its answer, or null if there is none; then the hint says why.
async function sent(task, body) {
  if (new Blob([body]).size > MOST_BYTES)
    return tell('The lab takes at most ' + MOST_TEXT + ' bytes of requests.'), null;
  const how = {method: 'POST', headers: {'Content-Type': 'text/plain'}, body};
  const reply = await fetch(task, how).catch(() => null), text = reply && await reply.text().catch(() => null);
  noteEnd(text === null);
  if (text === null) return null;
  return reply.ok ? text : (tell(text), null);
}

async function hashOf(text) {
  const hash = await crypto.subtle.digest('SHA-256', new TextEncoder().encode(text));
  return [...new Uint8Array(hash)].map(byte => byte.toString(16).padStart(2, '0')).join('');
}

// Sends a text in place of the one that the server has. If another page has changed that one, this is refused.
async function replaceThere(task, text) {
  const answer = await sent(task + 'on=' + await hashOf(textThere), text);
  if (answer !== null) textThere = text;
  return answer;
}

// Has these requests answered. The first of them, which are kept, have their answers already. `where` may have other
// places and names of nodes. Returns whether they are answered.
async function run(next, from, where = {}) {
  // A story that could not be read is asked for as a whole.
  const kept = viewer.blocks.length === lines.length ? from : 0;
  const upTo = said => Object.fromEntries(Object.entries(said).filter(([at]) => at < next.length));
  const placed = upTo(where.places ?? places), named = upTo(where.names ?? names);
  const text = await replaceThere('run?from=' + kept + '&', textOf(next, placed, named));
  if (text === null) return false;
  const isMore = kept === lines.length && next.length > kept;
  lines = next;
  places = placed;
  names = named;
  viewer.picked = note = null;
  play(false);
  load(kept, text);
  forgetFailures(kept, isMore);
  if (!viewer.blocks.length) showNothing();
  else if (!isMore) showLast();
  else {
    show(viewer.starts[kept]);
    if (kept === viewer.blocks.length - 1 && viewer.steps - viewer.starts[kept] > 1) play(true);
  }
  return true;
}

// Shows the network as the last request leaves it, before its first push.
function showLast(keep) {
  const {own, round} = viewer.blocks.at(-1);
  show(viewer.starts.at(-1) + (own && round.drawn ? round.turned : 0), keep);
}

// An action that can be undone.
async function act(next, from, where) {
  const was = stateNow();
  if (!await run(next, from, where)) return false;
  remember(was);
  hint();
  return true;
}

// What had the keyboard may be gone after a task, as a link that was cut or a button that cannot be pressed again. Then
// the node beside it has it, or else the network.
async function keepingFocus(task) {
  const was = document.activeElement, link = was.closest('#net .link'),
        node = nodeInFocus() ?? (link ? Number(link.dataset.tail) : viewer.picked);
  await task();
  const now = document.activeElement,
        isThere = was.isConnected && was.checkVisibility({visibilityProperty: true, checkVisibilityCSS: true});
  if (was === document.body || now !== was && now !== document.body || isThere && !was.disabled) return;
  const last = viewer.shown && !by('net').hasAttribute('hidden') ? viewer.shown.nodes - 1 : -1;
  if (was.matches('#undo, #redo') && !by(was.id === 'undo' ? 'redo' : 'undo').disabled)
    by(was.id === 'undo' ? 'redo' : 'undo').focus();
  else if (last < 0) by('sample').focus();
  else focusOn(Math.min(last, node ?? viewer.shown.round.home));
}

// One task after another. One that fails says so, and the next ones go on.
const later = task => {
  queue = queue.then(() => keepingFocus(task)).catch(why => {
    console.error(why);
    tell('The page has failed here: ' + (why.message ?? why) + '. Try again, or load it again.');
  });
};
const ask = (...request) => later(() => act([...lines, JSON.stringify(request)], lines.length));

// Sends the line that was typed. It stays in its field until it is answered, so that it can be mended.
function askTyped() {
  const line = by('line').value;
  if (!viewer.isRequest(line))
    return tell(line.trim() ? 'A line that begins with # is a comment, and no request.' : null);
  later(async () => {
    if (await act([...lines, line], lines.length) && by('line').value === line) by('line').value = '';
  });
}

// A text that was opened replaces the requests.
async function replace(text) {
  const opened = opening(text);
  if (!opened || !await act(opened.lines, 0, opened)) return;
  note = opened.note ?? null;
  hint();
}

// A click counts on the network as it is now: from an earlier line it goes to the last.
function isEarlier() {
  if (!viewer.blocks.length || blockAt(viewer.now) === viewer.blocks.length - 1) return false;
  play(false);
  showLast();
  tell('This is the network after the last request. Click again.');
  return true;
}

// The node that the keyboard is at, if it is at one.
function nodeInFocus() {
  const g = document.activeElement.closest('#net .node');
  return g ? Number(g.dataset.node) : null;
}

function focusOn(node) {
  if (!viewer.shown || !viewer.shown.spots[node]) return;
  viewer.shown.spots[node].g.focus({preventScroll: true});
  keepInSight(viewer.shown, node);
}

// A link that was cut cannot keep the focus. It goes to the node from which the keyboard came to the link.
acts.link = (tail, head) => {
  if (failing.isOn) return acts.fail(tail, head);
  if (isEarlier()) return;
  const node = near === head ? head : tail;
  ask('cut', tail, head);
  later(() => focusOn(node));
};
// While a packet is shown, a click on another node chooses that one: the next packet may start there.
acts.node = node => {
  const wasSent = failing.packet !== null;
  failing.packet = null;
  if (wasSent && viewer.picked !== node) viewer.picked = null;
  if (viewer.picked === null || viewer.picked === node) return pick(node);
  const first = viewer.picked;
  if (!isEarlier()) ask('join', first, node);
};

// The node that an action is about: the chosen one, or the one that the keyboard is at.
const nodeMeant = () => viewer.picked ?? nodeInFocus();

// Says that no node is meant, and why none can be chosen if that is so.
function noNode(what) {
  const round = viewer.blocks.at(-1)?.round;
  tell(round && !round.drawn ? tooLarge(round) + ' Type requests instead.' : 'Choose a node first. ' + what);
}

const tooLarge = ({nodes}) =>
    'This network has ' + nodes.toLocaleString('en') + ' nodes, and the lab draws at most ' + MOST_DRAWN + '.';

function makeHome() {
  const node = nodeMeant();
  if (node === null) return noNode('It becomes the destination.');
  if (!isEarlier()) ask('dest', node);
}

// The network as the last request leaves it, or null where none is drawn.
function lastRound() {
  const round = viewer.blocks.length ? viewer.blocks.at(-1).round : null;
  return round && round.drawn ? round : null;
}

// A network with other nodes is a new one, with the links as they are now. The nodes stay where they are on the screen.
async function remake({nodes, home, links, spots, called}, focus) {
  const was = viewer.lookNow(viewer.shown), line = JSON.stringify(['net', nodes, home, links]), at = lines.length;
  const where = {places: {...places, [at]: spots.map(rounded)}, names: withNames(at, called)};
  if (!await act([...lines, line], at, where)) return;
  if (viewer.shown) lookAs(was, viewer.shown);
  focusOn(focus);
}

const rounded = at => at.map(side => Math.round(10 * side) / 10);

function addNode(at) {
  const round = lastRound();
  if (!round && viewer.blocks.at(-1)?.round) return tell(tooLarge(viewer.blocks.at(-1).round));
  if (!round) return addFirst(at);
  const {nodes, home, links, view} = round;
  if (nodes === MOST_DRAWN) return tell('The lab draws at most ' + MOST_DRAWN + ' nodes.');
  const spot = (at ?? freePlace(view)).map((side, of) => side + view.corner[of]);
  return remake({nodes: nodes + 1, home, links, spots: [...fixedPlaces(view), spot], called: acts.names(view)}, nodes);
}

// The first node is where the click was, or else in the middle. It leaves room for others.
async function addFirst(at) {
  const sides = room(), scale = Math.min(2, Math.min(...sides) / 250), corner = [camera.x, camera.y];
  const [x, y] = sides.map((most, side) => at ? at[side] * camera.scale + corner[side] : most / 2);
  const where = {places: {...places, [lines.length]: [[0, 0]]}};
  if (await act([...lines, '["net",1,0,[]]'], lines.length, where)) lookAs({x, y, scale, corner: [0, 0]}, viewer.shown);
}

// Where a node is far from all others, of a few places in sight.
function freePlace(view) {
  const [wide, high] = room(), all = [];
  for (let across = 1; across < 12; across++)
    for (let down = 1; down < 12; down++) {
      const at = [(across / 12 * wide - camera.x) / camera.scale, (down / 12 * high - camera.y) / camera.scale];
      all.push([Math.min(120, ...view.place.map(([x, y]) => Math.hypot(x - at[0], y - at[1]))), at]);
    }
  return all.reduce((best, one) => one[0] > best[0] ? one : best)[1];
}

// The nodes above a node that is removed move down by one, so that of two nodes the same one stays the lower.
async function removeNode(node) {
  const {nodes, home, links, view} = lastRound();
  if (node === home) return tell('The destination cannot be removed. First make another node the destination.');
  const number = other => other > node ? other - 1 : other;
  const left = links.filter(link => !link.includes(node)).map(link => link.map(number));
  const spots = fixedPlaces(view).filter((_, other) => other !== node);
  const called = Object.fromEntries(Object.entries(acts.names(view))
                                        .filter(([it]) => Number(it) !== node)
                                        .map(([it, name]) => [number(Number(it)), name]));
  await remake({nodes: nodes - 1, home: number(home), links: left, spots, called}, number(home));
  if (node < nodes - 1)
    note = 'Nodes ' + (node + 1) + ' to ' + (nodes - 1) + ' are now ' + node + ' to ' + (nodes - 2) + '.';
  hint();
}

function remove() {
  const node = nodeMeant();
  if (node === null) return noNode('It is removed.');
  if (!isEarlier()) later(() => removeNode(node));
}

const add = at => {
  if (!isEarlier()) later(() => addNode(at));
};

// A click beside all nodes and links lets the chosen node go, or else adds a node there.
acts.empty = event => {
  if (event.detail > 1) return;
  if (viewer.picked !== null) return pick(viewer.picked);
  const frame = pane.getBoundingClientRect();
  add([(event.clientX - frame.left - camera.x) / camera.scale, (event.clientY - frame.top - camera.y) / camera.scale]);
};

// Without a network the drawing takes no click, so its pane does.
pane.addEventListener('click', event => {
  if (by('net').hasAttribute('hidden') && !event.target.closest('button')) acts.empty(event);
});

// What was played to its end is played again from the last round on.
acts.again = () => viewer.starts[Math.max(0, viewer.blocks.findLastIndex(block => stepsIn(block) > 1))];

// Where nodes are is kept for the request from which on the network is laid out so.
acts.places = view => viewer.placesIn(places, view);
acts.names = view => viewer.namesIn(names, view);
acts.drag = (node, way) => moveNode(viewer.shown, node, way);
acts.drop = () => dropNode(null);

// The nodes stay where they are now. `kind` is that of the action for undo.
function dropNode(kind) {
  const was = stateNow();
  keepPlaces(viewer.shown);
  placeNodes({...places, [viewer.shown.first]: viewer.shown.plain.map(rounded)}, was, kind);
}

function placeNodes(where, was, kind) {
  places = where;
  remember(was, kind);
  later(keepText);
}

const keepText = () => replaceThere('keep?', textOf(lines, places, names));

// Moves the node by the keyboard.
function nudge(way) {
  const node = nodeMeant();
  if (node === null || !viewer.shown) return noNode('It is moved.');
  moveNode(viewer.shown, node, way.map(side => side / camera.scale));
  dropNode('nudge ' + node);
  keepInSight(viewer.shown, node);
}

function anew() {
  const view = viewer.shown;
  if (!view) return;
  const was = stateNow();
  Object.assign(view, {plain: placesOf(view), isGiven: false, pane: null});
  show(viewer.now);
  fit();
  const {[view.first]: _, ...others} = places;
  placeNodes(others, was, null);
}

function focusNode(on) {
  const round = viewer.blocks.length ? viewer.blocks[blockAt(viewer.now)].round : null;
  if (!round || !round.drawn) return;
  const node = nodeInFocus() ?? viewer.picked;
  focusOn(node === null ? round.home : (node + on + round.nodes) % round.nodes);
}

// The links of the node that the keyboard was at last, one after another, or all links if it was at none.
let near = null;
function focusLink(on) {
  near = nodeInFocus() ?? (document.activeElement.closest('#net .link') ? near : viewer.picked);
  const links = [...by('net').querySelectorAll('.link[data-tail]')].filter(
      g => !g.closest('.more') && (near === null || [g.dataset.tail, g.dataset.head].includes(String(near))));
  if (!links.length) return;
  const at = links.indexOf(document.activeElement), next = at < 0 ? 0 : at + on;
  links[(next + links.length) % links.length].focus({preventScroll: true});
}

// The samples. A link leads from its tail to its head.
const upTo = (count, item) => Array.from({length: count}, (_, at) => item(at));
function gridLinks(wide, high) {
  const isIn = (x, y) => x < wide && y < high, links = [];
  for (let node = 0; node < wide * high; node++) {
    const [x, y] = [node % wide, Math.floor(node / wide)];
    if (isIn(x + 1, y)) links.push([node + 1, node]);
    if (isIn(x, y + 1)) links.push([node + wide, node]);
  }
  return links;
}

// 4 cores; then in each of 4 parts 2 switches below the cores, and 2 below these. Edges 12 to 19 are at the bottom.
function treeLinks() {
  const parts = [0, 1, 2, 3], two = [0, 1];
  return parts.flatMap(
      part => two.flatMap(
          a =>
              [...two.map(core => [4 + 2 * part + a, 2 * a + core]),
               ...two.map(edge => [12 + 2 * part + edge, 4 + 2 * part + a])]));
}

const net = (nodes, home, links) => [JSON.stringify(['net', nodes, home, links])];
const samples = {
  chain: () => net(8, 0, upTo(7, node => [node, node + 1])),
  grid: () => net(16, 0, gridLinks(4, 4)),
  ring: () =>
      net(12, 0,
          [
            ...upTo(6, node => [node + 1, node]), [6, 7], ...upTo(4, at => [7 + at, 8 + at]), [11, 0], [4, 10], [8, 2],
            [5, 11], [7, 1]
          ]),
  tree: () => net(20, 12, treeLinks()),
  tour: () =>
      ['["net",5,0,[[1,0],[2,0],[3,1],[3,2],[4,3]]]', '["walk",4]', '["cut",1,0]', '["links"]', '["walk",1]',
       '["walk",4]', '["add",0,4]', '["add",4,0]', '["hops"]'],
};

function takeSample(name) {
  later(() => {
    const more = samples[name](), next = [...lines, ...more];
    return act(next, lines.length);
  });
}

async function readFile() {
  const [file] = by('file').files;
  if (!file) return;
  const decode = bytes => new TextDecoder('utf-8', {fatal: true, ignoreBOM: true}).decode(bytes);
  // A page that was saved is large. Its text with requests is not.
  const isPage = /\.html?$/i.test(file.name) && file.size <= MOST_BYTES_OF_A_PAGE;
  const text = (isPage || file.size <= MOST_BYTES) && await file.arrayBuffer().then(decode).catch(() => null);
  if (typeof text === 'string') by('text').value = isPage ? textInPage(text) ?? text.slice(0, MOST_BYTES) : text;
  else {
    by('reading').close('cancel');
    tell(text === null ? 'The file is not UTF-8, or cannot be read.' : 'The file has over ' + MOST_TEXT + ' bytes.');
  }
}

function openDialog(dialog) {
  dialog.returnValue = '';
  dialog.showModal();
}

function openText() {
  by('file').value = '';
  by('text').value = '';
  openDialog(by('reading'));
  by('text').focus();
}

const openSamples = () => openDialog(by('samples'));
document.querySelector('aside').prepend(by('lab'));
by('legend').append(...by('lablegend').children);
by('lablegend').remove();
// Each part of the lab moves to its place in the page.
const moveTo = (box, id) => {
  const from = by(id).parentNode;
  box.append(by(id));
  by(id).hidden = false;
  if (from.matches('table')) from.remove();
};
moveTo(by('below'), 'labproof');
moveTo(by('keytable'), 'labkeys');
Object.assign(keys, {
  n: () => focusNode(1),
  p: () => focusNode(-1),
  l: () => focusLink(1),
  k: () => focusLink(-1),
  d: makeHome,
  b: switchFailing,
  t: tellEngine,
  g: sendPacket,
  i: () => add(),
  x: remove,
  e: openName,
  Delete: remove,
  u: undo,
  y: redo,
  a: anew,
  m: openSamples,
  o: openText,
  s: openSaving,
  '/': () => by('line').focus()
});
Object.assign(controlled, {
  z: undo,
  y: redo,
  Z: redo,
  ArrowRight: () => nudge([20, 0]),
  ArrowLeft: () => nudge([-20, 0]),
  ArrowDown: () => nudge([0, 20]),
  ArrowUp: () => nudge([0, -20])
});
const buttons = {
  undo,
  redo,
  home: makeHome,
  fail: switchFailing,
  tell: tellEngine,
  packet: sendPacket,
  add: () => add(),
  remove,
  rename: openName,
  anew,
  sample: openSamples,
  open: openText,
  save: openSaving
};
for (const id in buttons) by(id).addEventListener('click', buttons[id]);
by('ask').addEventListener('submit', event => {
  event.preventDefault();
  askTyped();
});
by('line').addEventListener('keydown', event => {
  if (event.key === 'Escape') by('line').blur();
});
by('file').addEventListener('change', readFile);
by('reading').addEventListener('close', () => {
  if (by('reading').returnValue === 'read') later(() => replace(by('text').value));
});
by('saving').addEventListener('close', () => {
  if (by('saving').returnValue in saved) saved[by('saving').returnValue]();
});
by('samples').addEventListener('close', () => {
  if (by('samples').returnValue in samples) takeSample(by('samples').returnValue);
});
listenToNames();
setInterval(() => fetch('alive', {method: 'POST'}).then(reply => noteEnd(!reply.ok), () => noteEnd(true)), 1000);
addEventListener('pagehide', () => navigator.sendBeacon('closed'));
if (viewer.blocks.length && !location.hash) showLast(true);
hint();
listenToActing();
