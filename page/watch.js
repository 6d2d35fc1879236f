// What only the page has that the lab shows on the network. It looks, and changes nothing. When the requests have
// changed, it is loaded again and plays the last round.
'use strict';
{
  const {by, stepsIn, show, play} = viewer, EVERY = 2000, note = document.createElement('p');
  note.style.cssText = 'margin:0;padding:.6rem .9rem;color:var(--soft);border-bottom:1px solid var(--edge)';
  note.id = 'watching';
  note.setAttribute('role', 'status');
  document.querySelector('aside').prepend(note);
  const tell = text => {
    if (note.textContent !== text) note.textContent = text;
  };
  const look = async () => {
    const reply = await fetch('now').catch(() => null),
          now = reply && reply.ok ? await reply.text().catch(() => null) : null;
    tell(
        now === null ? 'The lab has ended, or cannot be reached.' :
                       'You are looking at a lab. This page changes nothing.');
    if (now === null || now === by('given').dataset.hash) return;
    history.replaceState(null, '', location.pathname);
    location.reload();
  };
  setInterval(look, EVERY);
  look();
  if (viewer.blocks.length && !location.hash) {
    show(viewer.starts.at(-1));
    if (stepsIn(viewer.blocks.at(-1)) > 1) play(true);
  }
}
