// Names of nodes, in the lab. Requests have numbers only, so the engine knows no names: they are in a comment of the
// text that is kept.

const MOST_NAME = 60;

// The names of all networks, with these for the one that begins at this request.
function withNames(at, called) {
  const {[at]: _, ...others} = names;
  return Object.keys(called).length ? {...others, [at]: called} : others;
}

// A name is one line, without blanks at its ends.
const tidyName = text => text.replace(/[\u0000-\u001f\u007f\s]+/g, ' ').trim().slice(0, MOST_NAME);

function nameNode(view, node, name) {
  const {[node]: before, ...others} = acts.names(view), was = stateNow();
  if ((before ?? '') === name) return;
  names = withNames(view.first, name ? {...others, [node]: name} : others);
  remember(was);
  show(viewer.now, true);
  later(keepText);
}

// Asks for the name of the chosen node. No text takes its name away.
function openName() {
  const node = nodeMeant(), view = viewer.shown;
  if (node === null || !view) return noNode('It gets a name.');
  by('naming').dataset.node = node;
  by('nameof').textContent = 'The name of node ' + node + ', which the requests do not have:';
  by('name').value = acts.names(view)[node] ?? '';
  openDialog(by('naming'));
  by('name').select();
}

function listenToNames() {
  // Enter in the field presses the first button that sends a form, so this one sends none.
  by('naming').querySelector('[value=cancel]').addEventListener('click', () => by('naming').close('cancel'));
  by('naming').addEventListener('close', () => {
    const node = Number(by('naming').dataset.node), view = viewer.shown;
    if (by('naming').returnValue === 'ok' && view && node < view.nodes)
      nameNode(view, node, tidyName(by('name').value));
  });
}
