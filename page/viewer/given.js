// What a page knows beside its story. In a page of the lab this is the text with requests, one a line; blank lines and
// comments are none. In a page of revdot it is comments alone, which its story has percent-encoded. Comments may say
// where nodes are and what they are called: for the place of a request from which on a network is laid out, the places
// of its nodes, and the names of those that have one.

const PLACES = '# places ', NAMES = '# names ';

const isRequest = line => !/^[ \t\r]*(#|$)/.test(line);
const isPlace = at => Array.isArray(at) && at.length === 2 && at.every(Number.isFinite);
const arePlaces = nodes => Array.isArray(nodes) && nodes.every(isPlace);
const areNames = nodes => nodes !== null && typeof nodes === 'object' && !Array.isArray(nodes) &&
    Object.entries(nodes).every(([node, name]) => /^[0-9]{1,4}$/.test(node) && typeof name === 'string');

// What the last comment of a kind says, where it is what it must be.
function commentIn(lines, kind, isGood) {
  const comment = lines.findLast(line => line.startsWith(kind));
  if (!comment) return {};
  try {
    return Object.fromEntries(Object.entries(JSON.parse(comment.slice(kind.length))).filter(([, it]) => isGood(it)));
  } catch { return {}; }
}

function readText(text) {
  const all = text.split(NL);
  return {
    lines: all.filter(isRequest),
    places: commentIn(all, PLACES, arePlaces),
    names: commentIn(all, NAMES, areNames)
  };
}

function textOf(lines, places, names) {
  const comment = (kind, said) => Object.keys(said).length ? [kind + JSON.stringify(said)] : [];
  return [...lines, ...comment(PLACES, places), ...comment(NAMES, names)].map(line => line + NL).join('');
}

// The comments of a story. One that is no text is left out.
function commentsOf(story) {
  return [...story.matchAll(/^#.*/gm)].map(([comment]) => {
    try {
      return decodeURIComponent(comment);
    } catch { return ''; }
  });
}

const givenText = by('given') ? JSON.parse(by('given').textContent) : commentsOf(by('story').textContent).join(NL),
      given = readText(givenText);

// The places and the names of the nodes of a drawing, if they are known.
const placesIn = (places, view) =>
    places[view.first] && places[view.first].length === view.nodes ? places[view.first] : null;
const namesIn = (names, view) => names[view.first] ?? {};
