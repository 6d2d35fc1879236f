// The ways of nodes: the nodes to which the links of a settled network point, nearest first. The page shows them if a
// reader asks for them.

const isOfWays = () => by('lines').value === 'ways';

// The ways that packets can take at a step, or null where the page shows next hops: within a round, and while hops are
// pushed, it always does. In the lab some ways may have failed; then it has the ways as the engine answers them.
function waysShown(round, state) {
  if (!state.hops || state.push || !isOfWays()) return null;
  return (acts.ways() ?? round.ways).map((list, node) => list.filter(way => !acts.hasFailed(node, way)));
}

// From a node along the first way of each.
function walkOf(ways, node) {
  const walk = [node];
  while (ways[walk.at(-1)].length) walk.push(ways[walk.at(-1)][0]);
  return walk;
}

function chooseLines(name) {
  by('lines').value = name;
  show(now);
}
