// The mode of the lab in which routers act by themselves. The server has the routers, each a node of the library. Every
// action here is one exchange with it, whose answer is the state that is drawn. Only where things are drawn is known
// here.

// The state as the server answered it last; the drawing that it is drawn in, with its layers of links and of messages;
// what clicks and keys do outside of this mode; and the timer that lets one thing happen after another.
const acting = {
  isOn: false,
  state: null,
  view: null,
  links: null,
  mail: null,
  kept: null,
  timer: null
};
const MOST_ROUTERS = 64, MOST_ROUTER_LINKS = 256;

// One action, on the routers that this page has started. Returns whether it was done.
async function letBe(request) {
  const start = acting.state && acting.state.start, text = await sent('routers', JSON.stringify({start, ...request}));
  if (text === null) {
    runOn(false);
    return false;
  }
  acting.state = JSON.parse(text);
  if (acting.isOn) drawActing();
  return true;
}

const letHappen = (name, words) => later(() => acting.isOn && letBe({do: name, ...words}));

// The routers begin with the network that the last request leaves.
const network = () => {
  const {nodes, home, links} = lastRound();
  return {do: 'start', nodes, home, links, lower: by('lower').checked, at_once: by('atonce').checked};
};

async function beginActing() {
  const last = viewer.blocks.at(-1)?.round;
  if (!last) return tell('Draw a network first. Its nodes become routers.');
  const {nodes, drawn} = last, most = ' by themselves, and this network has ';
  if (nodes > MOST_ROUTERS) return tell('At most ' + MOST_ROUTERS + ' routers can act' + most + nodes + ' nodes.');
  if (drawn && last.links.length > MOST_ROUTER_LINKS)
    return tell(
        'At most ' + MOST_ROUTER_LINKS + ' links can be between routers that act' + most + last.links.length + '.');
  play(false);
  viewer.picked = note = null;
  showLast();
  if (await letBe(network())) enterActing();
}

// Keys, clicks and texts are those of this mode, until it ends.
function enterActing() {
  acting.isOn = true;
  acting.view = viewer.shown;
  acting.kept = {acts: {...acts}, keys: {...keys}};
  Object.assign(acts, {
    node: chooseRouter,
    link: () => {},
    fail: () => {},
    empty: () => {
      if (viewer.picked !== null) chooseRouter(viewer.picked);
    },
    shown: drawActing
  });
  for (const key of Object.keys(keys))
    if (!/^[-+=0fnp?]$/.test(key)) delete keys[key];
  Object.assign(keys, keysOfActing);
  document.body.classList.add('acting');
  show(viewer.now, true);
  fit();
}

function leaveActing() {
  if (!acting.isOn) return;
  runOn(false);
  acting.isOn = false;
  for (const layer of [acting.links, acting.mail]) layer.remove();
  acting.links = acting.mail = null;
  for (const key of Object.keys(keys)) delete keys[key];
  Object.assign(keys, acting.kept.keys);
  Object.assign(acts, acting.kept.acts);
  viewer.picked = null;
  document.body.classList.remove('acting');
  show(viewer.now, true);
  fit();
}

// One thing after another, until nothing is under way.
function runOn(isOn) {
  clearTimeout(acting.timer);
  acting.timer = null;
  by('run').textContent = isOn ? 'Pause' : 'Run';
  by('say').setAttribute('aria-live', isOn ? 'off' : 'polite');
  if (isOn) acting.timer = setTimeout(() => later(runStep), 0);
}

async function runStep() {
  if (acting.timer === null || !await letBe({do: 'step', loss: Number(by('loss').value)})) return;
  if (acting.state.idle) return runOn(false);
  if (acting.timer !== null) acting.timer = setTimeout(() => later(runStep), Number(by('rate').value));
}

// The chosen router, or the one that the keyboard is at, does this.
function routerDoes(name) {
  const router = nodeMeant();
  if (router === null) return tell('Choose a router first.');
  letHappen(name, {router});
}

function chooseRouter(router) {
  viewer.picked = viewer.picked === router ? null : router;
  drawActing();
}

// What a click on a link, on a message, or on the end of a link that has not noticed what the link is does.
const actsOn = {
  wire: ({tail, head}, g) =>
      letHappen(g.classList.contains('down') ? 'join' : 'cut', {link: [Number(tail), Number(head)]}),
  notice: ({tail, head}) => letHappen('notice', {router: Number(tail), neighbour: Number(head)}),
  message: ({message}, _, name) => letHappen(name, {message: Number(message)})
};

function actOn(g, name) { actsOn[g.dataset.kind](g.dataset, g, name); }

// The message that the keyboard is at: in the drawing, or in the list.
function messageDoes(name) {
  const it = document.activeElement.closest('[data-kind=message]');
  if (!it) return tell('Go to a message first, by m.');
  actOn(it, name);
}

// The next thing of a kind for the keyboard: messages and ends that have not noticed something, or links.
function focusThing(layer, on) {
  const all = [...layer.querySelectorAll('[data-kind]')], at = all.indexOf(document.activeElement);
  if (all.length) all[at < 0 ? 0 : (at + on + all.length) % all.length].focus({preventScroll: true});
}

const keysOfActing = {
  ArrowRight: () => letHappen('step', {loss: Number(by('loss').value)}),
  ' ': () => runOn(acting.timer === null),
  e: () => letHappen('everything'),
  t: () => letHappen('all_again'),
  g: () => routerDoes('say_again'),
  w: () => routerDoes('write_table'),
  r: () => routerDoes('restart'),
  m: () => focusThing(acting.mail, 1),
  M: () => focusThing(acting.mail, -1),
  l: () => focusThing(acting.links, 1),
  k: () => focusThing(acting.links, -1),
  n: () => focusNode(1),
  p: () => focusNode(-1),
  c: () => messageDoes('copy'),
  h: () => messageDoes('hold'),
  Delete: () => messageDoes('lose'),
  Escape: () => {
    if (viewer.picked !== null) chooseRouter(viewer.picked);
  },
  j: () => later(leaveActing)
};

// Where things are drawn.

// The curve of a link from one end to the other: its two ends and the point that bends it. More of a bend is to the
// right of who goes along it.
function curveAlong(view, tail, head, more) {
  const shape = [...view.shapes.values()].find(it => it.a === Math.min(tail, head) && it.b === Math.max(tail, head));
  const from = view.place[tail], to = view.place[head], [across, down] = [0, 1].map(side => to[side] - from[side]);
  const long = Math.hypot(across, down) || 1, bend = (tail < head ? shape.bend : -shape.bend) + more;
  const middle = [(from[0] + to[0]) / 2 - down / long * bend, (from[1] + to[1]) / 2 + across / long * bend];
  return {from, middle, to, long};
}

// The point of a curve after this part of it, and the direction there.
function pointOn({from, middle, to}, part) {
  const rest = 1 - part,
        at = [0, 1].map(side => rest * rest * from[side] + 2 * rest * part * middle[side] + part * part * to[side]);
  const way = [0, 1].map(side => rest * (middle[side] - from[side]) + part * (to[side] - middle[side]));
  const long = Math.hypot(...way) || 1;
  return {at, way: way.map(side => side / long)};
}

const fixed = point => point.map(side => side.toFixed(1)).join(' ');

function arrowAlong({from, middle, to}) {
  const way = [0, 1].map(side => to[side] - middle[side]), long = Math.hypot(...way) || 1,
        [x, y] = way.map(side => side / long);
  const edge = [to[0] - 22 * x, to[1] - 22 * y], base = [edge[0] - 10 * x, edge[1] - 10 * y];
  return {
    line: 'M' + fixed(from) + 'Q' + fixed(middle) + ' ' + fixed(base),
    tip: 'M' + fixed(edge) + 'L' + fixed([base[0] - 5.2 * y, base[1] + 5.2 * x]) + 'L' +
        fixed([base[0] + 5.2 * y, base[1] - 5.2 * x]) + 'Z'
  };
}

// With more boxes than this, each is where it comes, since it takes long to look for a place. In a network of more
// links than this, boxes may cover arrows.
const MOST_APART = 300, MOST_CLEAR = 48;
// A box has this size, which depends on its text.
const boxOf = text => [Math.max(22, 9 + 5.5 * String(text).length), 15];

// Places beside a link for a box: from its sender on, and then farther out.
function spotsBeside(curve, side, [wide, high], most, step) {
  const first = Math.max(26, Math.min(38, curve.long / 2 - 8)), spots = [];
  for (let out = 0; out < most; out += step)
    for (let far = first; far <= Math.max(first, curve.long - first); far += 6) {
      const {at, way: [x, y]} = pointOn(curve, Math.min(0.9, far / curve.long));
      const own = Math.abs(y) * wide / 2 + Math.abs(x) * high / 2, beside = side * (4 + own + out * (2 * own + 3));
      spots.push([at[0] - beside * y, at[1] + beside * x]);
    }
  return spots;
}

// The place beside a link for a box: the first one at which it covers no router, no other box and no arrow. Where there
// is none, an arrow may be below it, but a dashed one only if there is no place on either side of the link.
function placeFor(view, curve, side, text, {taken, arrows}) {
  const size = boxOf(text), [wide, high] = size,
        spots = spotsBeside(curve, side, size, ...(arrows.length ? [6, 0.5] : [3, 1]));
  const isFar = (at, other, across, down) => Math.abs(at[0] - other[0]) >= across || Math.abs(at[1] - other[1]) >= down;
  const isFree = at => taken.every(it => isFar(at, it.at, (wide + it.wide) / 2 + 2, high + 2)) &&
      view.place.every(node => isFar(at, node, wide / 2 + 17, high / 2 + 17));
  const hides = at => arrows.filter(point => !isFar(at, point.at, wide / 2 + 4, high / 2 + 4));
  // A dashed arrow weighs more than any others.
  const costOf = at => hides(at).reduce((sum, {isShut}) => sum + (isShut ? 1000 : 1), 0);
  const cheapest = spots =>
      spots.filter(isFree).map(at => ({at, cost: costOf(at)})).reduce((a, b) => b.cost < a.cost ? b : a, {
        cost: Infinity
      });
  let best = taken.length < MOST_APART ? cheapest(spots) : {};
  if (best.cost >= 1000) best = cheapest([side, -side].flatMap(it => spotsBeside(curve, it, size, 16, 0.5)));
  const at = best.at ?? spots[0];
  taken.push({at, wide});
  return at;
}

// The drawing of the state. It is made again after each action, and what has the focus keeps it.
function drawActing() {
  const view = viewer.shown, {state} = acting;
  if (!acting.isOn) return;
  // An address may name a step of another network.
  if (view !== acting.view) return leaveActing();
  const focus = focusKept();
  if (!acting.links || acting.links.parentNode !== view.group) {
    for (const layer of [acting.links, acting.mail])
      if (layer) layer.remove();
    acting.links = make(view.group, 'g', {});
    view.more.after(acting.links);
    acting.mail = make(view.group, 'g', {});
    for (const layer of [acting.links, acting.mail]) listenToLayer(layer);
  }
  acting.links.replaceChildren();
  acting.mail.replaceChildren();
  for (const link of state.links) drawWire(view, link);
  state.routers.forEach(({ways}, router) => {
    for (const way of ways) drawSend(view, router, way);
  });
  for (const link of state.links) drawBroken(view, link);
  drawMail(view);
  state.routers.forEach((_, router) => drawRouter(view, router));
  tellActing();
  listUnderWay();
  focusAgain(focus);
}

const loopLinks = () => new Set(acting.state.loop.slice(1).map((head, at) => acting.state.loop[at] + '>' + head));
const isUsed = (router, way) => acting.state.routers[way].gates.includes(router);
const tabStop = () => by('letters').checked ? -1 : 0;

function drawWire(view, [tail, head, isUp]) {
  const curve = curveAlong(view, tail, head, 0),
        d = 'M' + fixed(curve.from) + 'Q' + fixed(curve.middle) + ' ' + fixed(curve.to);
  const g = make(acting.links, 'g', {
    class: isUp ? 'wire' : 'wire down',
    'data-kind': 'wire',
    'data-tail': tail,
    'data-head': head,
    role: 'button',
    tabindex: tabStop(),
    'aria-label': 'link between ' + tail + ' and ' + head + (isUp ? '' : ', down')
  });
  make(g, 'path', {d});
  make(g, 'path', {d, class: 'hit'});
}

function drawBroken(view, [tail, head, isUp]) {
  if (isUp) return;
  const {at} = pointOn(curveAlong(view, tail, head, 0), 0.5);
  make(acting.links, 'path', {class: 'broken', d: 'M-8-8L8 8M-8 8L8-8', transform: 'translate(' + fixed(at) + ')'});
}

// Where both ends send to the other one, the two arrows are beside one another.
const besideOther = (router, way) => acting.state.routers[way].ways.includes(router) ? 16 : 0;

function drawSend(view, router, way) {
  const kinds = [isUsed(router, way) ? '' : ' shut'];
  if (loopLinks().has(router + '>' + way)) kinds.push(' loop');
  const {line, tip} = arrowAlong(curveAlong(view, router, way, besideOther(router, way)));
  const g = make(acting.links, 'g', {class: 'send' + kinds.join(''), 'data-tail': router, 'data-head': way});
  make(g, 'path', {d: line});
  make(g, 'path', {class: 'tip', d: tip});
}

// Points of all arrows, so near to one another that no box comes between two of them.
function pointsOfArrows(view) {
  const {links, routers} = acting.state;
  if (links.length > MOST_CLEAR) return [];
  return routers.flatMap(({ways}, router) => ways.flatMap(way => {
    const curve = curveAlong(view, router, way, besideOther(router, way)), count = Math.ceil(curve.long / 7);
    return upTo(count + 1, at => ({at: pointOn(curve, at / count).at, isShut: !isUsed(router, way)}));
  }));
}

// The last message on a link is the nearest to its sender. Those that go the other way are on the other side.
function drawMail(view) {
  const {messages, notices} = acting.state, there = {taken: [], arrows: pointsOfArrows(view)};
  for (const [tail, head] of notices) {
    const words = {'data-kind': 'notice', 'data-tail': tail, 'data-head': head, 'aria-label': noticeText([tail, head])};
    drawThing('mail notice', placeFor(view, curveAlong(view, tail, head, 0), -1, '!', there), '!', words);
  }
  const drawn = [...messages].reverse().map(it => {
    const [number, tail, head, text, isHeld] = it;
    const words = {'data-kind': 'message', 'data-message': number, 'data-tail': tail, 'data-head': head};
    const at = placeFor(view, curveAlong(view, tail, head, 0), 1, text, there);
    return [isHeld ? 'mail held' : 'mail', at, text, {...words, 'aria-label': messageText(it)}];
  });
  for (const words of drawn.reverse()) drawThing(...words);
}

function drawThing(kinds, at, text, words) {
  const g = make(
      acting.mail, 'g',
      {...words, class: kinds, role: 'button', tabindex: tabStop(), transform: 'translate(' + fixed(at) + ')'});
  const [wide, high] = boxOf(text);
  make(g, 'rect', {class: 'hit', x: -wide / 2 - 2, y: -high / 2 - 2, width: wide + 4, height: high + 4});
  make(g, 'rect', {x: -wide / 2, y: -high / 2, width: wide, height: high, rx: kinds === 'mail notice' ? 3 : 7.5});
  make(g, 'text', {y: 3.6}).textContent = text;
}

function drawRouter(view, router) {
  const {height, ways, written} = acting.state.routers[router], {g, count} = view.spots[router];
  const isHome = router === acting.state.home;
  const kinds =
      [['home', isHome], ['out', !isHome && !ways.length], ['pick', router === viewer.picked], ['unwritten', !written]];
  count.textContent = height;
  mark(g, {
    class: 'node' + kinds.filter(kind => kind[1]).map(kind => ' ' + kind[0]).join(''),
    'aria-label': routerText(router),
    'aria-pressed': router === viewer.picked,
    'data-count': height,
    'data-hop': null,
    'data-cut': null,
    tabindex: router === (viewer.picked ?? acting.state.home) || !by('letters').checked ? 0 : -1
  });
}

// What is said.

const manyText = list => list.length > 1 ? list.slice(0, -1).join(', ') + ' and ' + list.at(-1) : String(list[0]);
const contentText = ([, , , text, isHeld]) => (isNaN(text) ? text : 'height ' + text) + (isHeld ? ', held back' : '');
const messageText = it => 'Message from ' + it[1] + ' to ' + it[2] + ': ' + contentText(it);
const isLinkUp = (a, b) => acting.state.links.find(([u, v]) => isSame([a, b], [u, v]))[2];
const noticeText = ([at, of]) =>
    'Router ' + at + ' has not noticed that its link to ' + of + ' is ' + (isLinkUp(at, of) ? 'up' : 'down');

function routerText(router) {
  const {height, distance, ways, gates, written, boot} = acting.state.routers[router];
  const isHome = router === acting.state.home;
  const sends = isHome ? '' : ways.length ? ' It sends to ' + manyText(ways) + '.' : ' It has no way.';
  const lets = gates.length ? ' It lets in ' + manyText(gates) + '.' : ' It lets nobody in.';
  const name = acts.names(acting.view)[router];
  return 'Router ' + router + (name ? ' (' + name + ')' : '') + (isHome ? ', the gateway' : '') + ': height ' + height +
      (isHome || distance === null ? '' : ', distance ' + distance) + ', start ' + boot + '.' + sends + lets +
      (written ? '' : ' Its table is not written yet.');
}

function loopText() {
  const {loop, routers} = acting.state;
  const used = routers.flatMap(({ways}, router) => ways.filter(way => isUsed(router, way))).length;
  if (loop.length)
    return 'A LOOP among the used links: ' + loop.join(ARROW) + '. This must not happen: please report it.';
  return 'No loop among the ' + used + ' used ' + (used === 1 ? 'link.' : 'links.');
}

// The routers that no links lead from to the gateway. Without a ceiling those that still have a neighbour rise for
// ever.
function cutOff() {
  const {routers, links, home} = acting.state, up = links.filter(([, , isUp]) => isUp), reached = new Set([home]);
  for (const at of reached)
    for (const [a, b] of up)
      if (a === at || b === at) reached.add(a === at ? b : a);
  const gone = [...routers.keys()].filter(router => !reached.has(router));
  return {gone, rising: gone.filter(router => up.some(([a, b]) => a === router || b === router))};
}

function cutOffText() {
  const {gone, rising} = cutOff();
  if (!gone.length) return '';
  const rise = !rising.length     ? '' :
      rising.length < gone.length ? ' ' + manyText(rising) + ' rise again and again, until a link joins them.' :
                                    ' They rise again and again, until a link joins them.';
  return 'Cut off from the gateway: ' + manyText(gone) + '.' + rise;
}

function tellActing() {
  const {said, loop, routers, home, links} = acting.state, router = viewer.picked;
  by('title').textContent = routers.length + ' routers, ' + links.length + ' links, gateway ' + home;
  by('say').textContent = said;
  by('loops').textContent = loopText();
  mark(by('loops'), {class: loop.length ? 'no' : null, role: loop.length ? 'alert' : null});
  by('cutoff').textContent = cutOffText();
  by('chosen').textContent = router === null ? 'Choose a router to see its ways and gates.' : routerText(router);
  by('written').disabled = router === null || routers[router].written;
  by('again').disabled = router === null || !routers[router].written;
  by('restart').disabled = router === null;
  by('lost').textContent = by('loss').value + ' %';
  hint();
}

function actingHint() {
  const {quiet, messages} = acting.state;
  if (quiet)
    return 'All is quiet. Cut a link by a click, or restart a router, and see how the others repair their ways.';
  return messages.length ?
      'Click a message: it arrives. Click a link: it is cut, or joined again.' :
      'No message is under way. Let the timers run out (t), or let ends of links notice what they are.';
}

// The same as the drawing shows, as a list: for the keyboard, and for who does not see the drawing.
const MOST_LISTED = 100;
function listUnderWay() {
  const {messages, notices, routers} = acting.state, unwritten = [...routers.keys()].filter(it => !routers[it].written);
  const items = [
    ...notices.map(it => itemUnder(noticeText(it), {kind: 'notice', tail: it[0], head: it[1]})),
    ...unwritten.map(it => itemUnder('Router ' + it + ' has not written its table', {kind: 'table', router: it})),
    ...messages.map(it => itemUnder(messageText(it), {kind: 'message', message: it[0]}, it))
  ];
  const left = items.splice(MOST_LISTED).length, rest = document.createElement('li');
  rest.textContent = left ? 'and ' + left + ' more' : 'Nothing.';
  by('under').replaceChildren(...items, ...left || !items.length ? [rest] : []);
}

// A button that lets something happen, and for a message two more buttons.
function itemUnder(text, words, message) {
  const item = document.createElement('li');
  const add = (shown, told, does) => {
    const button = document.createElement('button');
    button.textContent = shown;
    button.setAttribute('aria-label', told);
    Object.assign(button.dataset, words, does);
    item.append(button);
  };
  add(message ? message[1] + ARROW + message[2] + ': ' + contentText(message) : text, text, {});
  if (!message) return item;
  add(message[4] ? 'Let go' : 'Hold', text + (message[4] ? ': let it go' : ': hold it back'), {does: 'hold'});
  add('Lose', text + ': lose it', {does: 'lose'});
  return item;
}

// What has the focus: by its words, and by its place among the others, of which the next gets it if it is gone.
function focusKept() {
  const it = document.activeElement,
        layer = [acting.links, acting.mail, by('under')].find(box => box && box.contains(it));
  if (!layer) return null;
  return {layer, words: JSON.stringify({...it.dataset}), at: [...layer.querySelectorAll('[data-kind]')].indexOf(it)};
}

function focusAgain(focus) {
  if (!focus) return;
  const all = [...focus.layer.querySelectorAll('[data-kind]')],
        same = all.find(it => JSON.stringify({...it.dataset}) === focus.words);
  const next = same ?? all[Math.min(focus.at, all.length - 1)];
  if (next) next.focus({preventScroll: true});
  else focusOn(viewer.picked ?? acting.state.home);
}

// A click on a message does what is chosen; with Shift the message is lost.
function listenToLayer(layer) {
  layer.addEventListener('click', event => {
    const g = event.target.closest('[data-kind]');
    if (!g) return;
    event.stopPropagation();
    actOn(g, event.shiftKey ? 'lose' : by('touch').value);
  });
  layer.addEventListener('keydown', event => {
    const g = event.target.closest('[data-kind]');
    if (event.key !== 'Enter' || !g) return;
    event.preventDefault();
    event.stopPropagation();
    actOn(g, event.shiftKey ? 'lose' : 'deliver');
  });
}

// What is asked once, when the page begins.
function listenToActing() {
  by('legend').append(...by('actslegend').children);
  by('actslegend').remove();
  moveTo(by('below'), 'actsproof');
  moveTo(by('keytable'), 'actskeys');
  document.querySelector('aside').append(by('acting'));
  by('bar').after(by('acts'));
  const clicks = {
    routers: () => later(beginActing),
    engine: () => later(leaveActing),
    afresh: () => later(() => letBe(network())),
    written: () => routerDoes('write_table'),
    again: () => routerDoes('say_again'),
    restart: () => routerDoes('restart'),
    one: keysOfActing.ArrowRight,
    all: keysOfActing.e,
    run: keysOfActing[' '],
    timers: keysOfActing.t
  };
  for (const id in clicks) by(id).addEventListener('click', clicks[id]);
  by('atonce').addEventListener('change', () => letHappen('write_at_once', {chosen: by('atonce').checked}));
  by('lower').addEventListener('change', () => later(() => acting.isOn && letBe(network())));
  by('loss').addEventListener('input', tellActing);
  by('under').addEventListener('click', event => {
    const it = event.target.closest('button');
    if (!it) return;
    if (it.dataset.kind === 'table') letHappen('write_table', {router: Number(it.dataset.router)});
    else actOn(it, it.dataset.does ?? 'deliver');
  });
  keys.j = () => later(beginActing);
  if (by('given').dataset.mode === 'routers') later(beginActing);
}
