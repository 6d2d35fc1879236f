// Undo and redo, in the lab. What they go to and fro between is all that an action can change: the requests, where
// nodes are and what they are called, and the links that have failed without the engine's knowing.

const past = [], future = [], MOST_PAST = 300;

const stateNow = () =>
    ({lines, places, names, failed: failing.links, look: viewer.shown ? viewer.lookNow(viewer.shown) : null});

// Remembers the state before an action. Actions of one kind in a row, as moves of a node by keys, are undone at once.
function remember(was, kind = null) {
  future.length = 0;
  if (kind === null || kind !== past.at(-1)?.kind) past.push({...was, kind});
  if (past.length > MOST_PAST) past.shift();
}

// After the page was loaded, the requests before it are taken back one by one.
const lastPast = () => past.at(-1) ?? {...stateNow(), lines: lines.slice(0, -1), failed: [], look: null};

const isEqual = (a, b) => JSON.stringify(a) === JSON.stringify(b);

// How many lines two texts begin with alike.
function alike(some, others) {
  const at = some.findIndex((line, place) => line !== others[place]);
  return at < 0 ? some.length : at;
}

// Makes everything as it was in this state. Returns whether it is.
async function become(state) {
  const isMoved = !isEqual([places, names], [state.places, state.names]), same = alike(state.lines, lines);
  if (Math.max(lines.length, state.lines.length) > same) {
    // The last request is asked again, so that what is drawn is what it leaves.
    if (!await run(state.lines, Math.max(0, Math.min(same, state.lines.length - 1)), state)) return false;
  } else if (isMoved) {
    if (await replaceThere('keep?', textOf(state.lines, state.places, state.names)) === null) return false;
    ({places, names} = state);
  }
  if (isMoved) drawAgain(state.look);
  failing.packet = null;
  failing.links = state.failed;
  if (failing.links.length && !await askWays()) failing.links = [];
  if (viewer.blocks.length && !viewer.isPlayed) showLast();
  hint();
  return true;
}

// Nodes go to their places, and what is shown is what was shown when they were there.
function drawAgain(look) {
  const views = new Set(viewer.blocks.filter(({own, round}) => own && round.drawn).map(({round}) => round.view));
  for (const view of views) {
    const where = acts.places(view);
    if (!view.group || !where && !view.isGiven) continue;
    Object.assign(view, {plain: where ?? placesOf(view), isGiven: where !== null});
    viewer.arrange(view);
  }
  if (!viewer.shown) return;
  show(viewer.now, true);
  // What was fitted into another pane is fitted into this one.
  if (look && (look.pane === viewer.shown.pane || !look.isFitted)) lookAs(look, viewer.shown);
  else fit();
}

async function travel(from, state, to) {
  const was = stateNow();
  if (!await become(state)) return;
  from.pop();
  to.push(was);
}

const undo = () => later(async () => {
  if (acting.isOn) return;
  if (!past.length && !lines.length) return tell('There is nothing to undo.');
  await travel(past, lastPast(), future);
  hint();
});

const redo = () => later(async () => {
  if (acting.isOn) return;
  if (!future.length) return tell('There is nothing to redo.');
  await travel(future, future.at(-1), past);
  hint();
});
