// What the page shows now, and its keys and buttons.

function show(step, keep) {
  if (!blocks.length) return showNothing();
  now = Math.max(0, Math.min(steps - 1, step));
  const at = blockAt(now), block = blocks[at], round = block.round, drawn = round && round.drawn;
  const place = now - starts[at], last = drawn ? round.turned : 0;
  const turn = block.own ? Math.min(place, last) : last, push = block.own ? place - turn : 0;
  const state = drawn ? stateOf(round, turn, push) : null, net = by('net'), none = by('none');
  const changes = drawn && block.own && state.hops ? changedHops(round) : [];
  const news = push ? pushesOf(round).slice(0, push - 1) : changes;
  // The cycle of a new network, and the loop of a table, are not in the network that is drawn.
  const cycle = cycleOf(block), isApart = cycle.length > 0 && /^(net |pushes$)/.test(block.asks);
  net.toggleAttribute('hidden', !drawn);
  none.toggleAttribute('hidden', Boolean(drawn));
  mark(net, {'data-line': block.line, 'data-turn': block.own ? turn : 0, 'data-push': push});
  mark(net, {'data-loop': push ? state.loop.join(' ') : null});
  if (drawn) {
    const view = round.view, ways = waysShown(round, state), way = routeShown(block, state, ways);
    const isNew = setUp(view);
    if (shown !== view) {
      net.replaceChildren(view.group);
      shown = view;
      fit();
    } else if (isNew && camera.isFitted) fit();
    mark(net, {'aria-label': 'A network of ' + round.nodes + ' nodes, destination ' + round.home});
    drawLinks(view, round, {state, ways}, way, push ? state.loop : isApart ? [] : cycle);
    drawNodes(view, round, {state, ways}, way, news);
    const moved = state.sink ?? state.node;
    if (moved !== null && moved < round.nodes) keepInSight(view, moved);
  } else
    none.textContent = !round ? 'There is no network yet.' :
                                'This network is larger than a page shows (256 nodes). The answers are in the list.';
  drawRing(isApart ? cycle : []);
  tellNode(round, state, drawn ? waysShown(round, state) : null);
  tellStep(block, turn, state, changes);
  currentButton(at);
  clearTimeout(show.later);
  const part = push ? '&push=' + push : block.own ? '&turn=' + turn : '';
  const named = '#line=' + block.line + part + (isRising() ? '&order=rising' : '') + (isOfWays() ? '&lines=ways' : '');
  if (!keep) show.later = setTimeout(() => history.replaceState(null, '', named), 400);
  acts.shown();
}

function showNothing() {
  for (const id of ['net', 'ring', 'chart']) by(id).setAttribute('hidden', '');
  for (const id of ['request', 'answer', 'more', 'changed', 'route', 'picked', 'at']) by(id).textContent = '';
  by('title').textContent = 'No network yet';
  by('say').textContent = isLab ? 'There are no requests.' : 'The input held no line.';
  by('none').textContent =
      isLab ? 'Click here to add the first node, or take a sample.' : 'There is nothing to show: no line was read.';
  by('none').removeAttribute('hidden');
  acts.shown();
}

function pick(node) {
  picked = picked === node ? null : node;
  show(now);
}

function pickNext(on) {
  const round = blocks[blockAt(now)].round;
  if (!round || !round.drawn) return;
  picked = picked === null ? round.home : (picked + on + round.nodes) % round.nodes;
  show(now);
  round.view.spots[picked].g.focus({preventScroll: true});
  keepInSight(round.view, picked);
}

function goLine(on) {
  const at = Math.max(0, Math.min(blocks.length - 1, blockAt(now) + on));
  show(starts[at]);
}

function play(on) {
  clearTimeout(timer);
  timer = null;
  by('play').textContent = on ? 'Pause' : 'Play';
  by('say').setAttribute('aria-live', on ? 'off' : 'polite');
  if (!on) return;
  if (now === steps - 1) show(acts.again());
  const pace = () => acts.pace(Number(by('speed').value));
  const tick = () => {
    show(now + 1);
    if (now === steps - 1) play(false);
    else timer = setTimeout(tick, pace());
  };
  timer = setTimeout(tick, pace());
}

// Goes to the step that the fragment names, as #line=3&turn=2 or #line=3&push=1; a line alone is the end of its turns.
function goFragment() {
  const words = new URLSearchParams(location.hash.slice(1)),
        at = blocks.findIndex(block => block.line === Number(words.get('line')));
  if (at < 0) return false;
  by('order').value = words.get('order') === 'rising' ? 'rising' : 'push';
  by('lines').value = words.get('lines') === 'ways' ? 'ways' : 'hops';
  const block = blocks[at], turns = block.own && block.round.drawn ? block.round.turned : 0;
  const number = name => Math.max(0, Number(words.get(name)) || 0);
  const turn = words.has('turn') ? Math.min(turns, number('turn')) : turns;
  const place = words.has('push') ? turns + number('push') : turn;
  show(Math.min((starts[at + 1] ?? steps) - 1, starts[at] + place), true);
  return true;
}

const keys = {
  ArrowRight: () => show(now + 1),
  ArrowLeft: () => show(now - 1),
  ArrowDown: () => goLine(1),
  ArrowUp: () => goLine(-1),
  Home: () => show(0),
  End: () => show(steps - 1),
  ' ': () => play(timer === null),
  n: () => pickNext(1),
  p: () => pickNext(-1),
  w: () => chooseLines(isOfWays() ? 'hops' : 'ways'),
  r: () => chooseOrder(isRising() ? 'push' : 'rising'),
  Escape: () => {
    if (picked !== null) pick(picked);
  },
  '+': () => zoom(1.25),
  '=': () => zoom(1.25),
  '-': () => zoom(0.8),
  0: fit,
  f: fit,
  '?': openKeys
};

// The keys are a table in a dialog, which Escape closes.
function openKeys() { by('keybox').showModal(); }

const shifted = {
  ArrowRight: () => move(-60, 0),
  ArrowLeft: () => move(60, 0),
  ArrowDown: () => move(0, -60),
  ArrowUp: () => move(0, 60)
};

// Keys with Ctrl, which only the lab has.
const controlled = {};

// What a click on a node, on a link or beside them does, who says where nodes are and what they are called, where a
// page that was played to its end begins again, and what has failed without the engine's knowing. The lab has its own.
const acts = {
  node: pick,
  link: () => {},
  fail: () => {},
  empty: () => {},
  drag: null,
  drop: () => {},
  places: view => placesIn(given.places, view),
  names: view => namesIn(given.names, view),
  shown: () => {},
  again: () => 0,
  hasFailed: () => false,
  ways: () => null,
  packet: () => null,
  isStuck: () => false,
  pace: wait => wait
};

// What a key does: nothing where it is typed or scrolls a text, or where it is a letter and these are turned off. A
// dialog that was closed has the focus until the browser draws the page again. Then the key acts on the page.
function actionOf({key, target: focused, shiftKey, ctrlKey, metaKey, altKey}) {
  const target = focused.closest('dialog:not([open])') ? document.body : focused;
  if (altKey || target.closest('dialog, select, textarea, input:not([type=range])')) return null;
  // On a Mac the key Cmd goes with letters, as Ctrl does elsewhere.
  if (ctrlKey || metaKey && isLetter(key)) return controlled[shiftKey && isLetter(key) ? key.toUpperCase() : key];
  if (metaKey) return null;
  if (scrolling.has(key) && isScrolled(target) || isLetter(key) && !hasLetters()) return null;
  if (key === ' ' && target.matches('button, summary')) return null;
  const g = key === 'Enter' && target.closest('.node, .link');
  return g ? () => act(g, shiftKey) : shiftKey && shifted[key] || keys[key];
}

function listenToKeys() {
  document.addEventListener('keydown', event => {
    const action = actionOf(event);
    if (!action) return;
    event.preventDefault();
    if (event.key.startsWith('Arrow') && !event.shiftKey || event.key === 'Home' || event.key === 'End') play(false);
    action();
  });
}

// Keys that a text needs itself, where it does not fit its box.
const scrolling = new Set(['ArrowUp', 'ArrowDown', 'ArrowLeft', 'ArrowRight', 'Home', 'End', ' ']);

function isScrolled(target) {
  if (target.matches('button, input, summary')) return false;
  for (let it = target; it && it !== document.body; it = it.parentElement) {
    if (it.scrollHeight > it.clientHeight && getComputedStyle(it).overflowY === 'auto') return true;
  }
  return false;
}

// Keys that are letters, digits or signs can be turned off, for people who speak to their computer.
const isLetter = key => key.length === 1 && key !== ' ', hasLetters = () => by('letters').checked;

// With Shift a link fails without the engine's knowing, in the lab.
function act(g, isShift) {
  if (g.classList.contains('node')) acts.node(Number(g.dataset.node));
  else (isShift ? acts.fail : acts.link)(Number(g.dataset.tail), Number(g.dataset.head));
}

// A button or a choice that a pointer has used lets the focus go, so that the next key acts on the page. Who goes there
// by Tab keeps the focus.
function listenToFocus() {
  let pointed = null;
  const letGo = kind => event => {
    if (pointed && pointed === event.target.closest(kind)) pointed.blur();
  };
  document.addEventListener('pointerdown', event => {
    pointed = event.target.closest('button, select');
  }, true);
  document.addEventListener('keydown', event => {
    if (event.key === 'Tab') pointed = null;
  }, true);
  document.addEventListener('click', letGo('button'), true);
  document.addEventListener('change', letGo('select'), true);
}

// What a reader has chosen is kept in the browser. Where nothing can be kept, the page goes on without it.
function kept(name) {
  try {
    return localStorage.getItem('revroute-' + name);
  } catch { return null; }
}

function keepWord(name, word) {
  try {
    localStorage.setItem('revroute-' + name, word);
  } catch { return; }
}

// Whether the legend is open is kept.
function listenToFold() {
  const fold = by('fold'), isRoomy = innerWidth > 760 && innerHeight > 800;
  fold.open = (kept('legend') ?? (isRoomy ? 'open' : 'folded')) === 'open';
  // This comes before the change.
  fold.firstElementChild.addEventListener('click', () => keepWord('legend', fold.open ? 'folded' : 'open'));
}

function listenToLetters() {
  const box = by('letters');
  box.checked = kept('letters') !== 'off';
  box.addEventListener('change', () => {
    keepWord('letters', box.checked ? 'on' : 'off');
    show(now, true);
  });
}

function start() {
  const go = step => {
    play(false);
    show(step);
  };
  const clicks = {
    back: () => go(now - 1),
    next: () => go(now + 1),
    play: () => play(timer === null),
    larger: () => zoom(1.25),
    smaller: () => zoom(0.8),
    whole: fit,
    keysopen: openKeys
  };
  for (const id in clicks) by(id).addEventListener('click', clicks[id]);
  by('slide').addEventListener('input', () => go(Number(by('slide').value)));
  for (const id of ['order', 'lines']) by(id).addEventListener('change', () => show(now));
  by('net').addEventListener('click', event => {
    const g = event.target.closest('.node, .link');
    if (g) act(g, event.shiftKey);
    else acts.empty(event);
  });
  by('list').addEventListener('click', event => {
    const it = event.target.closest('button');
    if (it) go(starts[it.at]);
  });
  listenToKeys();
  listenToFocus();
  listenToPointers();
  addEventListener('hashchange', goFragment);
  new ResizeObserver(() => {
    if (shown) show(now, true);
  }).observe(pane);
  listenToList();
  if (!goFragment()) show(0, true);
}

function begin() {
  listenToFold();
  listenToLetters();
  load(0, by('story').textContent);
  if (blocks.length || isLab) return start();
  showNothing();
  for (const id of ['bar', 'about', 'zoom', 'keysopen']) by(id).setAttribute('hidden', '');
}

// What the lab uses of the viewer.
const offered = {
  by,
  make,
  mark,
  NL,
  ARROW,
  acts,
  keys,
  controlled,
  pane,
  camera,
  room,
  load,
  stepsIn,
  blockAt,
  show,
  showNothing,
  play,
  pick,
  fit,
  lookAs,
  keepInSight,
  moveNode,
  fixedPlaces,
  lookNow,
  keepPlaces,
  placesOf,
  arrange,
  givenText,
  given,
  isRequest,
  readText,
  textOf,
  placesIn,
  namesIn,
  nodeName,
  waysIn,
  walkOf,
  chooseLines,
  get blocks() { return blocks; },
  get starts() { return starts; },
  get steps() { return steps; },
  get now() { return now; },
  get shown() { return shown; },
  get isPlayed() { return timer !== null; },
  get picked() { return picked; },
  set picked(node) { picked = node; },
};
