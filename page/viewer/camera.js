// What of the drawing the pane shows, and how pointers move it.

// What of the drawing the pane shows: where its corner is, and how large it is.
const pane = document.querySelector('main'), camera = {
  x: 0,
  y: 0,
  scale: 1,
  isFitted: true
};
const MOST_SCALE = 2.4, LARGEST = 6, EDGE = 8, MOST_CURVES = 1500;

// The width and height that the drawing may take: beside it are the buttons for its size.
const room = () => [by('zoom').offsetLeft - EDGE, pane.clientHeight - 2 * EDGE].map(side => Math.max(64, side));

function fitted(view) {
  const [wide, high] = view.size, [width, height] = room(), scale = Math.min(MOST_SCALE, width / wide, height / high);
  return {x: EDGE + (width - wide * scale) / 2, y: EDGE + (height - high * scale) / 2, scale, isFitted: true};
}

// Moves and sizes the drawing. A part of it stays in sight. Counts that are too small to read give way to larger
// numbers.
function look(change) {
  if (!shown) return;
  Object.assign(camera, {isFitted: false}, change);
  const [wide, high] = shown.size.map(side => side * camera.scale), rim = 48;
  camera.x = Math.max(rim - wide, Math.min(pane.clientWidth - rim, camera.x));
  camera.y = Math.max(rim - high, Math.min(pane.clientHeight - rim, camera.y));
  const {x, y, scale} = camera;
  mark(shown.group, {class: scale < 0.5 ? 'small' : null});
  mark(shown.group, {transform: 'translate(' + x.toFixed(2) + ' ' + y.toFixed(2) + ')scale(' + scale.toFixed(4) + ')'});
}

const fit = () => {
  if (shown) look(fitted(shown));
};
const move = (across, down) => look({x: camera.x + across, y: camera.y + down});

// Makes the drawing larger or smaller, and keeps the point of the pane where it is.
function zoom(factor, [x, y] = [pane.clientWidth / 2, pane.clientHeight / 2]) {
  if (!shown) return;
  const least = Math.min(0.2, fitted(shown).scale), scale = Math.max(least, Math.min(LARGEST, camera.scale * factor));
  const grown = scale / camera.scale;
  look({scale, x: x - (x - camera.x) * grown, y: y - (y - camera.y) * grown});
}

// Moves a node of the drawing, and its links with it.
function moveNode(view, node, [across, down]) {
  view.place[node] = [view.place[node][0] + across, view.place[node][1] + down];
  putSpot(view, node);
  view.bends.clear();
  for (const shape of view.shapes.values()) {
    if (shape.a === node || shape.b === node) Object.assign(shape, {bend: bendOf(view, shape.a, shape.b), tail: null});
  }
  show(now, true);
}

// The places of the nodes whatever else is drawn: those in the drawing begin at its corner.
const fixedPlaces = view => view.place.map(at => at.map((side, of) => side + view.corner[of]));

// What the pane shows, with the corner of the drawing and the size of the pane then.
const lookNow = view => ({...camera, corner: view.corner, pane: view.pane});

// After nodes were moved: the curves of all links go round them, and what is drawn stays where it is on the screen.
function keepPlaces(view) {
  const was = lookNow(view);
  Object.assign(view, {plain: fixedPlaces(view), isGiven: true});
  arrange(view);
  lookAs(was, view);
  show(now, true);
}

// Shows a drawing as it was looked at, also if it begins at another corner now.
function lookAs({x, y, scale, isFitted, corner}, view) {
  const [across, down] = view.corner.map((side, of) => (side - corner[of]) * scale);
  look({x: x + across, y: y + down, scale, isFitted});
}

// A drag moves the drawing, two fingers and the wheel size it. A drag of a node moves the node, in the lab. After a
// drag nothing is clicked.
function listenToPointers() {
  const net = by('net'), fingers = new Map(), far = (a, b) => Math.hypot(a[0] - b[0], a[1] - b[1]);
  const inPane = ([x, y]) => {
    const frame = pane.getBoundingClientRect();
    return [x - frame.left, y - frame.top];
  };
  let isDrag = false, held = null;
  const lift = event => {
    fingers.delete(event.pointerId);
    if (held !== null && isDrag && !fingers.size) acts.drop(held);
    if (!fingers.size) held = null;
    if (!fingers.size) net.classList.remove('moved');
  };
  net.addEventListener('pointerdown', event => {
    fingers.set(event.pointerId, [event.clientX, event.clientY]);
    isDrag = fingers.size > 1;
    const g = !isDrag && acts.drag && event.target.closest('.node');
    held = g ? Number(g.dataset.node) : null;
  });
  addEventListener('pointermove', event => {
    const was = fingers.get(event.pointerId), at = [event.clientX, event.clientY];
    if (!event.buttons) fingers.clear();
    if (!was || !event.buttons || !isDrag && far(was, at) < 5) return;
    isDrag = true;
    net.classList.add('moved');
    const other = [...fingers].find(([id]) => id !== event.pointerId);
    fingers.set(event.pointerId, at);
    const way = [at[0] - was[0], at[1] - was[1]];
    if (!other && held !== null) return acts.drag(held, way.map(side => side / camera.scale));
    if (!other) return move(...way);
    const middle = [0, 1].map(side => (was[side] + other[1][side]) / 2);
    zoom(far(at, other[1]) / (far(was, other[1]) || 1), inPane(middle));
    move(...way.map(side => side / 2));
  });
  for (const kind of ['pointerup', 'pointercancel']) addEventListener(kind, lift);
  net.addEventListener('click', event => {
    if (isDrag) {
      isDrag = false;
      event.stopPropagation();
    }
  }, true);
  pane.addEventListener('wheel', event => {
    event.preventDefault();
    const steps = event.deltaY * (event.deltaMode ? 16 : 1) * (event.ctrlKey ? 0.01 : 0.0015);
    zoom(Math.exp(-steps), inPane([event.clientX, event.clientY]));
  }, {passive: false});
}

// Moves the drawing if this node is outside of the pane.
function keepInSight(view, node) {
  const rim = 24, sizes = [pane.clientWidth, pane.clientHeight], corner = [camera.x, camera.y];
  const [across, down] = view.place[node].map((place, side) => {
    const at = place * camera.scale + corner[side];
    return at < rim || at > sizes[side] - rim ? sizes[side] / 2 - at : 0;
  });
  if (across || down) move(across, down);
}
