// What the lab takes home and reads: requests, a page that plays without a server, a picture, and graphs in the forms
// of Graphviz and GraphML.

function download(name, kind, text) {
  const file = document.createElement('a');
  file.href = URL.createObjectURL(new Blob([text], {type: kind}));
  file.download = name;
  file.click();
  setTimeout(() => URL.revokeObjectURL(file.href), 10000);
}

// The network as the last request leaves it, for what draws a network only.
function lastDrawn() {
  const round = lastRound();
  if (!round) tell('There is no network that is drawn.');
  return round;
}

const saved = {
  requests: () => download('requests.jsonl', 'text/plain', textOf(lines, places, names)),
  strict: () => download('requests.jsonl', 'text/plain', textOf(lines, {}, {})),
  page: () => later(async () => {
    const text = await sent('saved', '');
    if (text !== null) download('revroute.html', 'text/html', text);
  }),
  picture: () => viewer.shown && !by('net').hasAttribute('hidden') ?
      download('network.svg', 'image/svg+xml', pictureOf(viewer.shown)) :
      tell('There is no network that is drawn.'),
  dot: () => {
    const round = lastDrawn();
    if (round) download('network.dot', 'text/vnd.graphviz', dotOf(round));
  },
  graphml: () => {
    const round = lastDrawn();
    if (round) download('network.graphml', 'application/xml', graphmlOf(round));
  }
};

const openSaving = () => openDialog(by('saving'));

// The picture as it is on the screen, without what only a page has: styles are written at each part, since elsewhere
// there are none.
const STYLES = [
  'fill', 'stroke', 'stroke-width', 'stroke-dasharray', 'stroke-linejoin', 'paint-order', 'font-family', 'font-size',
  'font-weight', 'text-anchor'
];

function pictureOf(view) {
  const rim = 12, [wide, high] = view.size.map(side => Math.ceil(side + 2 * rim));
  const copyOf = it => {
    const style = getComputedStyle(it);
    if (style.display === 'none' || style.visibility === 'hidden' || it.matches('.hit, .packet')) return null;
    const copy = it.cloneNode(it.children.length === 0);
    for (const {name} of [...copy.attributes])
      if (!/^(d|r|x|y|rx|width|height|transform)$/.test(name)) copy.removeAttribute(name);
    if (it.localName !== 'g')
      for (const name of STYLES)
        if (style.getPropertyValue(name) !== 'none' || name === 'fill')
          copy.setAttribute(name, style.getPropertyValue(name));
    copy.append(...[...it.children].map(copyOf).filter(Boolean));
    return copy;
  };
  const svg = document.createElementNS('http://www.w3.org/2000/svg', 'svg');
  mark(
      svg,
      {xmlns: 'http://www.w3.org/2000/svg', viewBox: [-rim, -rim, wide, high].join(' '), width: wide, height: high});
  make(svg, 'title', {}).textContent = by('title').textContent;
  make(
      svg, 'rect',
      {x: -rim, y: -rim, width: wide, height: high, fill: getComputedStyle(document.body).backgroundColor});
  // A small drawing on the screen leaves out counts. The picture has them.
  const kind = view.group.getAttribute('class');
  mark(view.group, {class: null});
  const drawn = copyOf(view.group);
  mark(view.group, {class: kind});
  drawn.removeAttribute('transform');
  svg.append(drawn);
  return new XMLSerializer().serializeToString(svg) + NL;
}

// The network as a graph of Graphviz, with the places and names of its nodes. Graphviz counts up from below, in points.
const quoted = text => '"' + text.replace(/[\\"]/g, '\\$&') + '"';
const nameIn = (round, node) => acts.names(round.view)[node] ?? null;

function dotOf(round) {
  const {nodes, home, links, hops, view} = round, where = fixedPlaces(view);
  const nodeLine = node => {
    const name = nameIn(round, node), [x, y] = where[node].map(side => side.toFixed(1));
    return '    ' + node + ' [ ' + (name === null ? '' : 'label = ' + quoted(name) + ' ') +
        (node === home ? 'shape = doublecircle ' : '') + 'pos = "' + x + ',' + (0 - y).toFixed(1) + '!" ]';
  };
  const linkLine = ([tail, head]) =>
      '    ' + tail + ' -> ' + head + (hops[tail] === String(head) ? ' [ penwidth = 2.5 ]' : '');
  return [
    'digraph network {', '    node [ shape = circle ]', ...upTo(nodes, nodeLine), ...links.map(linkLine), '}', ''
  ].join(NL);
}

const escaped = text => text.replace(/[<>&"]/g, it => '&#' + it.charCodeAt(0) + ';');

function graphmlOf(round) {
  const {nodes, home, links, view} = round, where = fixedPlaces(view);
  const data = (key, value) => '<data key="' + key + '">' + escaped(String(value)) + '</data>';
  const nodeLine = node => {
    const name = nameIn(round, node), [x, y] = where[node].map(side => side.toFixed(1));
    return '    <node id="' + node + '">' + (name === null ? '' : data('label', name)) + data('x', x) + data('y', y) +
        (node === home ? data('destination', true) : '') + '</node>';
  };
  const key = (id, kind) => '  <key id="' + id + '" for="node" attr.name="' + id + '" attr.type="' + kind + '"/>';
  return [
    '<?xml version="1.0" encoding="UTF-8"?>', '<graphml xmlns="http://graphml.graphdrawing.org/xmlns">',
    key('label', 'string'), key('x', 'double'), key('y', 'double'), key('destination', 'boolean'),
    '  <graph id="network" edgedefault="directed">', ...upTo(nodes, nodeLine),
    ...links.map(([tail, head]) => '    <edge source="' + tail + '" target="' + head + '"/>'), '  </graph>',
    '</graphml>', ''
  ].join(NL);
}
