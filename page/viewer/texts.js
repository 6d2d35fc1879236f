// What is said of a step, and of a chosen node.

const hopText = hop => hop === 'here' ? 'is the destination' : hop === 'cut' ? 'has no next hop' : 'sends to ' + hop;
const waysText = list => list.length ? (list.length === 1 ? 'way to ' : 'ways to ') + list.join(', ') : 'no way';
const timesText = count => count + (count === 1 ? ' time' : ' times');
const hopName = hop => hop === 'here' ? 'destination' : hop === 'cut' ? 'none' : hop;
const changeText = (node, old, next) => node + BLANK + '(' + hopName(old) + ARROW + hopName(next) + ')';

// A node by its number and its name, and as much of a name as the drawing has.
const MOST_DRAWN_NAME = 18;
const shortName = name => name.length > MOST_DRAWN_NAME ? name.slice(0, MOST_DRAWN_NAME - 1) + ELLIPSIS : name;

function nodeName(node, view) {
  const name = view ? acts.names(view)[node] : null;
  return 'Node ' + node + (name ? ' (' + name + ')' : '');
}

// A turn, the end of the turns, or a push, in words; and what is pushed next.
function roundText(round, turn, state) {
  const {turned, total} = round,
                 left = turned < total ? '. Turns ' + (turned + 1) + ' to ' + total + ' are not shown' : '';
  if (!state.hops) return 'turn ' + turn + ' of ' + total + '. Node ' + state.sink + ' is a sink, and turns next.';
  if (state.push) return pushText(round, state) + nextText(round, state.push);
  return (total ? 'turn ' + total + ' of ' + total + ', the round has ended' + left + '.' : 'no node turns.') +
      nextText(round, 0);
}

function pushText(round, {push, node, hops, loop}) {
  const gone = node < round.nodes ? '' : ', which is gone,', before = hopName(tableBefore(round)[node]);
  const order = isRising() ? ', by rising number' : '';
  return 'push ' + push + ' of ' + round.pushed + order + '. Node ' + node + gone + ' now ' + hopText(hops[node]) +
      ' (before: ' + before + '). ' +
      (loop.length ? 'A loop is in the tables: ' + loop.join(' ') + '.' : 'No loop is in the tables.');
}

// The push after so many, where there is one.
function nextText(round, pushed) {
  const table = tableBefore(round), node = pushesOf(round)[pushed];
  if (!table) return ' The hops before it are not known, so no push is shown.';
  if (node === undefined) return '';
  return ' Next push: node ' + changeText(node, table[node], hopAfter(round, node)) + '.';
}

function tellStep(block, turn, state, news) {
  const round = block.round;
  const refusal = faultOf(block);
  by('say').textContent = 'Line ' + block.line + ': ' +
      (refusal          ? 'refused: ' + refusal + '. Nothing has changed.' :
           !block.own   ? 'a question; the network stays as it was.' :
           !round.drawn ? 'only the answer is shown.' :
                          roundText(round, turn, state));
  const request = requestOf(block), cycle = cycleOf(block);
  by('request').textContent = short(request);
  mark(by('request'), {'data-request': request});
  by('answer').textContent = block.answer;
  const name = block.asks === 'pushes' ? 'loop' : 'cycle';
  by('more').textContent = (refusal ? 'Refused: ' + refusal + '.' : '') +
      (cycle.length ? ' The ' + name + ': ' + cycle.join(' ') + '.' : '');
  mark(by('more'), {'data-closed': cycle.length ? cycle.join(' ') : null});
  const change = node => changeText(node, round.before.hops[node], round.hops[node]);
  by('changed').textContent =
      news.length ? 'Next hops that the round changed, in push order: ' + news.map(change).join(', ') + '.' : '';
  mark(by('changed'), {'data-changed': news.join(' ')});
  by('at').textContent = (now + 1) + ' / ' + steps;
  by('slide').value = now;
  by('slide').setAttribute('aria-valuetext', by('say').textContent);
  const count = (number, name) => number.toLocaleString('en') + ' ' + name + (number === 1 ? '' : 's');
  by('title').textContent = !round ? 'No network yet' :
                                     count(round.nodes, 'node') +
          (round.drawn ? ', ' + count(round.links.length, 'link') : '') + ', destination ' + round.home;
  document.title = 'revroute: ' + by('title').textContent;
}

// How often a node has turned, at each step of the whole page: the steps at which this changes.
function chartOf(node) {
  const points = [[0, 0]], word = ' ' + node;
  let most = 1, count = 0;
  const put = (step, value) => {
    if (value !== count) points.push([step, value]);
    count = value;
  };
  blocks.forEach(({own, round}, at) => {
    if (!own) return;
    put(starts[at], 0);
    if (!round.drawn || !round.said.turns.includes(word)) return;
    listed(round.said.turns, Number).forEach((turned, turn) => {
      if (turned === node) put(starts[at] + turn + 1, count + 1);
    });
    most = Math.max(most, count);
  });
  return {node, most, points: [...points, [steps, count]]};
}

let chart = null;

function drawChart(node) {
  if (!chart || chart.node !== node) chart = chartOf(node);
  const {points, most} = chart, svg = by('chart'), wide = 280, high = 70;
  const x = step => (4 + (wide - 8) * step / Math.max(1, steps)).toFixed(1),
        y = value => (high - 8 - (high - 24) * value / most).toFixed(1);
  // One value for each half of a pixel, the greatest, is all that can be seen.
  const seen = new Map();
  for (const [step, value] of points) {
    const place = Math.round(2 * x(step)) / 2;
    seen.set(place, Math.max(value, seen.get(place) ?? 0));
  }
  svg.replaceChildren();
  mark(svg, {
    viewBox: '0 0 ' + wide + ' ' + high,
    'aria-label': 'The count of node ' + node + ' over all steps; at most ' + most
  });
  make(
      svg, 'path',
      {d: 'M' + [...seen].map(([place, value], at) => (at ? 'H' + place + 'V' : place + ' ') + y(value)).join('')});
  make(svg, 'line', {x1: x(now), x2: x(now), y1: 10, y2: high - 6});
  make(svg, 'text', {x: 4, y: 10}).textContent = 'count of node ' + node + ', at most ' + most;
  svg.removeAttribute('hidden');
}

// The distance and the ways of the chosen node, once the round has ended.
function tellWays(round, state) {
  const list = state.hops ? round.ways[picked] : null, far = list ? walkOf(round.ways, picked).length - 1 : 0,
        isAny = Boolean(list && list.length);
  mark(by('picked'), {'data-ways': list ? list.join(' ') : null, 'data-distance': isAny ? far : null});
  if (!isAny) return '.';
  const named = list.map(way => way + (acts.hasFailed(picked, way) ? ' (failed)' : ''));
  return ', distance ' + far + ', ' + waysText(named) + '.';
}

// A route as the engine answers it, and in words. A line may end before an arrow.
function routeAnswer({hops}, route, ways) {
  const isCut = hops[route.at(-1)] === 'cut';
  return (ways ? 'nearest ' : 'walk ') + route.join(' ') + (isCut ? ' cut' : '');
}

function routeText({hops}, route, ways) {
  const isCut = hops[route.at(-1)] === 'cut';
  if (isCut && route.length === 1) return 'It has no route.';
  return (ways ? 'Route by first ways: ' : 'Route: ') + route.join(ARROW.replace(BLANK, ' ')) +
      (isCut ? ', which has no next hop.' : '.');
}

function tellNode(round, state, ways) {
  const known = state && picked !== null && picked < round.nodes;
  by('picked').textContent = known ? nodeName(picked, round.view) + (picked === round.home ? ', the destination' : '') +
          ': turned ' + timesText(state.counts[picked]) + ' in this round' + tellWays(round, state) :
      isLab ? '' :
              'Choose a node to see its route and its count over time.';
  const route = !known || !state.hops ? null : ways ? walkOf(ways, picked) : routeOf(state.hops, picked);
  by('route').textContent = !known ? '' :
      route                        ? routeText(state, route, ways) :
                                     'It has a route once the round has ended.';
  mark(by('route'), {'data-route': route ? routeAnswer(state, route, ways) : null});
  if (known) drawChart(picked);
  else by('chart').setAttribute('hidden', '');
}
