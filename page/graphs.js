// Graphs that others have made, in the DOT language of Graphviz or in GraphML, read as a network. A graph is its nodes
// in the order in which they come, each with a name, a place and whether it is the destination, if that is said; and
// its links, each with whether it has a direction.

class NoGraph extends Error {}

class ReadGraph {
  constructor() {
    this.nodes = new Map();
    this.links = [];
  }
  node(id, said = {}) {
    if (!this.nodes.has(id)) this.nodes.set(id, {name: id});
    Object.assign(this.nodes.get(id), said);
  }
  link(tail, head, isDirected) {
    this.node(tail);
    this.node(head);
    this.links.push([tail, head, isDirected]);
  }
}

// The words of a text in DOT: signs, and texts with what they mean. Comments are left out.
function dotWords(text) {
  const word =
      /\s+|\/\/[^\n]*|\/\*[^]*?\*\/|#[^\n]*|(->|--|[{}\[\];,=:+])|"((?:[^"\\]|\\[^])*)"|([\w.\u0080-\uffff]+|-[\d.]+)|(<)/gmy;
  const words = [];
  while (word.lastIndex < text.length) {
    const at = word.lastIndex, found = word.exec(text);
    if (!found) throw new NoGraph('it has ' + JSON.stringify(text.slice(at, at + 12)) + ' where DOT has none');
    const [, sign, quote, plain, html] = found;
    if (sign) words.push({sign});
    else if (quote !== undefined) words.push({text: quote.replace(/\\\n/g, '').replace(/\\(["\\])/g, '$1')});
    else if (plain !== undefined) words.push({text: plain, isPlain: true});
    else if (html) words.push({text: htmlWord(text, word)});
  }
  return words;
}

// A label between < and >, which can hold others. Only its text counts.
function htmlWord(text, word) {
  let depth = 1, at = word.lastIndex;
  for (; depth && at < text.length; at++) depth += text[at] === '<' ? 1 : text[at] === '>' ? -1 : 0;
  if (depth) throw new NoGraph('a label does not end');
  const label = text.slice(word.lastIndex, at - 1);
  word.lastIndex = at;
  return label.replace(/<br\s*\/?>[^]*/i, '').replace(/<[^>]*>/g, '').trim();
}

class DotReader {
  constructor(text) { Object.assign(this, {words: dotWords(text), at: 0, graph: new ReadGraph()}); }
  sign(...signs) { return signs.includes(this.words[this.at]?.sign) ? this.words[this.at++].sign : null; }
  keyword(...names) {
    const word = this.words[this.at];
    if (!word?.isPlain || !names.includes(word.text.toLowerCase())) return null;
    this.at++;
    return word.text.toLowerCase();
  }
  text() {
    const word = this.words[this.at++];
    if (word?.text === undefined) throw new NoGraph('it ends early, or a name is missing');
    let {text} = word;
    while (this.sign('+')) text += this.text();
    return text;
  }
  read() {
    this.keyword('strict');
    const kind = this.keyword('graph', 'digraph');
    if (!kind) throw new NoGraph('it does not begin as DOT');
    this.isDirected = kind === 'digraph';
    if (this.words[this.at]?.text !== undefined) this.text();
    this.block();
    return this.graph;
  }
  // What is between braces. Returns the nodes in it.
  block() {
    if (!this.sign('{')) throw new NoGraph('a brace is missing');
    const nodes = new Set();
    while (!this.sign('}')) {
      if (this.at >= this.words.length) throw new NoGraph('it ends early');
      if (!this.sign(';', ','))
        for (const node of this.statement()) nodes.add(node);
    }
    return nodes;
  }
  statement() {
    if (this.keyword('graph', 'node', 'edge')) {
      this.attributes();
      return [];
    }
    const ends = [this.end()];
    if (typeof ends[0] === 'string' && this.sign('=')) {
      this.text();
      return [];
    }
    const all = [...this.namesOf(ends[0])];
    while (this.sign('->', '--')) {
      ends.push(this.end());
      for (const tail of this.namesOf(ends.at(-2)))
        for (const head of this.namesOf(ends.at(-1))) this.graph.link(tail, head, this.isDirected);
      all.push(...this.namesOf(ends.at(-1)));
    }
    const said = this.attributes();
    if (ends.length === 1 && typeof ends[0] === 'string') this.graph.node(ends[0], saidInDot(said));
    return all;
  }
  // A node or a subgraph.
  end() {
    if (this.keyword('subgraph')) {
      if (this.words[this.at]?.text !== undefined) this.text();
      return this.block();
    }
    if (this.words[this.at]?.sign === '{') return this.block();
    const name = this.text();
    while (this.sign(':')) this.text();
    return name;
  }
  namesOf(end) { return typeof end === 'string' ? [end] : end; }
  attributes() {
    const said = {};
    while (this.sign('[')) {
      while (!this.sign(']')) {
        if (this.sign(';', ',')) continue;
        const name = this.text();
        said[name] = this.sign('=') ? this.text() : 'true';
      }
    }
    return said;
  }
}

// What the attributes of a node say of it.
function saidInDot({label, pos, shape, peripheries}) {
  const said = {}, at = pos ? pos.replace('!', '').split(',').map(Number) : [];
  if (label !== undefined && label !== '\\N') said.name = label.replace(/\\[nlr]/g, ' ');
  if (at.length >= 2 && at.every(Number.isFinite)) said.place = [at[0], -at[1]];
  if (shape === 'doublecircle' || peripheries === '2') said.isHome = true;
  return said;
}

function readGraphml(text) {
  const page = new DOMParser().parseFromString(text, 'application/xml'), graph = new ReadGraph();
  const first = page.querySelector('graph');
  if (page.querySelector('parsererror') || !first) throw new NoGraph('it is no XML with a graph');
  const keys = new Map(
      [...page.querySelectorAll('key')].map(it => [it.id, (it.getAttribute('attr.name') ?? it.id).toLowerCase()]));
  const saidOf = it => Object.fromEntries([...it.children].filter(({localName}) => localName === 'data').map(data => {
    const key = data.getAttribute('key');
    return [keys.get(key) ?? key, data.textContent.trim()];
  }));
  for (const it of first.getElementsByTagName('node')) {
    const {label, name, x, y, destination} = saidOf(it), said = {}, place = [x, y].map(Number);
    if (label || name) said.name = label || name;
    if (x && y && place.every(Number.isFinite)) said.place = place;
    if (destination === 'true') said.isHome = true;
    graph.node(it.id, said);
  }
  for (const it of first.getElementsByTagName('edge')) {
    const own = it.getAttribute('directed');
    const isDirected = own === null ? first.getAttribute('edgedefault') === 'directed' : own === 'true';
    graph.link(it.getAttribute('source'), it.getAttribute('target'), isDirected);
  }
  return graph;
}

// Links as a network has them: at most one between two nodes, and no cycle. Where that is not so, each link points to
// the end that is nearer to the destination, as the last of these says.
function directed(graph, number, home) {
  const pairs = new Map();
  let left = 0, isFree = false;
  for (const [from, to, isDirected] of graph.links) {
    const [tail, head] = [number.get(from), number.get(to)], key = Math.min(tail, head) + ' ' + Math.max(tail, head);
    if (tail === head || pairs.has(key)) left++;
    if (tail === head) continue;
    isFree ||= !isDirected || pairs.has(key) && pairs.get(key)[0] !== tail;
    if (!pairs.has(key)) pairs.set(key, [tail, head]);
  }
  const links = [...pairs.values()];
  if (!isFree && !hasCycle(graph.nodes.size, links)) return {links, left, isTurned: false};
  return {links: towards(graph.nodes.size, home, links), left, isTurned: true};
}

function hasCycle(nodes, links) {
  const coming = Array(nodes).fill(0), heads = upTo(nodes, () => []);
  for (const [tail, head] of links) {
    coming[head]++;
    heads[tail].push(head);
  }
  const ready = [...coming.keys()].filter(node => !coming[node]);
  for (const node of ready)
    for (const head of heads[node])
      if (!--coming[head]) ready.push(head);
  return ready.length < nodes;
}

// Each link from its farther end to the one that is nearer to this node, or else to the lower number.
function towards(nodes, home, links) {
  const near = upTo(nodes, () => []), far = Array(nodes).fill(Infinity), reached = [home];
  for (const [a, b] of links) {
    near[a].push(b);
    near[b].push(a);
  }
  far[home] = 0;
  for (const node of reached)
    for (const other of near[node])
      if (far[other] === Infinity) {
        far[other] = far[node] + 1;
        reached.push(other);
      }
  return links.map(([a, b]) => far[a] > far[b] || far[a] === far[b] && a > b ? [a, b] : [b, a]);
}

// The destination: the node that is said to be it, or else the only one that no link leads from, or else the first one.
function homeOf(graph, all) {
  const said = all.findIndex(([, it]) => it.isHome), tails = new Set(graph.links.map(([tail]) => tail));
  const ends = [...all.keys()].filter(at => !tails.has(all[at][0]));
  const isDirected = graph.links.length > 0 && graph.links.every(([, , it]) => it);
  return said >= 0 ? said : isDirected && ends.length === 1 ? ends[0] : 0;
}

// A graph as the text of one request, with the places and names of its nodes; and what was changed of it.
function networkOf(graph) {
  const all = [...graph.nodes], number = new Map(all.map(([id], at) => [id, at]));
  if (!all.length) throw new NoGraph('it has no node');
  const home = homeOf(graph, all), {links, left, isTurned} = directed(graph, number, home);
  const places = all.every(([, it]) => it.place) ? {0: all.map(([, it]) => rounded(it.place))} : {};
  const called = all.map(([, {name}], at) => [at, tidyName(name)]).filter(([at, name]) => name && name !== String(at));
  const notes = [
    isTurned ? 'Its links had no direction, or a cycle: now each points towards node ' + home + '.' : '',
    left ? left + (left === 1 ? ' link was' : ' links were') +
            ' left out: one joins two nodes, and none a node with itself.' :
           ''
  ];
  return {
    lines: net(all.length, home, links),
    places,
    names: called.length ? {0: Object.fromEntries(called)} : {},
    note: notes.filter(Boolean).join(' ') || null
  };
}

// The text with requests that a page has which the lab has saved, or null.
function textInPage(text) {
  const page = new DOMParser().parseFromString(text, 'text/html').getElementById('given');
  try {
    return page && String(JSON.parse(page.textContent));
  } catch { return null; }
}

// What a text has that somebody opens: requests, a graph, or a page that the lab has saved.
function readOpened(text) {
  const begin = text.replace(/^\ufeff/, '').trimStart();
  if (/^<!doctype html/i.test(begin)) {
    const given = textInPage(text);
    if (given === null) throw new NoGraph('it is no page that the lab has saved');
    return viewer.readText(given);
  }
  if (begin.startsWith('<')) return networkOf(readGraphml(begin));
  if (/^(\/\/|\/\*|strict\b|graph\b|digraph\b)/i.test(begin)) return networkOf(new DotReader(begin).read());
  return viewer.readText(text);
}

// The same, or null. Then the hint says why it cannot be read.
function opening(text) {
  try {
    return readOpened(text);
  } catch (why) {
    if (!(why instanceof NoGraph)) throw why;
    tell('This text cannot be read: ' + why.message + '.');
    return null;
  }
}
