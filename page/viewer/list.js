// The list of lines.

// The list of lines, from this one on.
function list(from) {
  const box = by('list'), items = document.createDocumentFragment(), wasLong = box.classList.contains('long');
  rows.first = rows.last = 0;
  box.classList.toggle('long', blocks.length > MOST_ROWS);
  if (blocks.length > MOST_ROWS) return placeRows();
  const kept = wasLong ? 0 : from;
  while (box.children.length > kept) box.lastChild.remove();
  for (let at = kept; at < blocks.length; at++) items.append(itemOf(blocks[at], at));
  box.append(items);
}

// A list of more lines than this has only those near its sight, all of one height, and room for the others.
const MOST_ROWS = 1000, MARGIN = 40, RIM = 5, rows = {
  first: 0,
  last: 0,
  height: 0
};

function placeRows() {
  const box = by('list');
  rows.height ||= heightOfRow();
  const seen = Math.floor(box.scrollTop / rows.height),
        last = Math.min(blocks.length, seen + Math.ceil(box.clientHeight / rows.height) + 1);
  if (rows.first <= seen && last <= rows.last) return;
  Object.assign(rows, {first: Math.max(0, seen - MARGIN), last: Math.min(blocks.length, last + MARGIN)});
  const top = box.scrollTop, focus = box.contains(document.activeElement) ? document.activeElement.at : null,
        items = [];
  for (let at = rows.first; at < rows.last; at++) items.push(itemOf(blocks[at], at));
  box.replaceChildren(roomFor(rows.first), ...items, roomFor(blocks.length - rows.last));
  box.scrollTop = top;
  for (const item of items) {
    mark(item, {'aria-setsize': blocks.length, 'aria-posinset': item.firstChild.at + 1});
    if (current && item.firstChild.at === current.at) (current = item.firstChild).setAttribute('aria-current', 'step');
    if (item.firstChild.at === focus) item.firstChild.focus({preventScroll: true});
  }
}

function heightOfRow() {
  const item = itemOf(blocks[0], 0);
  by('list').append(item);
  const {height} = item.getBoundingClientRect();
  item.remove();
  return height || 28;
}

function roomFor(lines) {
  const item = document.createElement('li');
  mark(item, {'aria-hidden': true, style: 'height:' + lines * rows.height + 'px'});
  return item;
}

function itemOf(block, at) {
  const item = document.createElement('li'), button = document.createElement('button');
  const request = requestOf(block).slice(0, 80), answer = block.answer.slice(0, 80), fault = faultOf(block);
  const put = (name, text) => button.append(Object.assign(document.createElement(name), {textContent: text}));
  put('b', block.line);
  put('code', request);
  put('span', answer);
  if (fault) {
    button.className = 'no';
    put('small', fault);
  }
  const told = 'Line ' + block.line + ', ' + request + ': ' + answer;
  button.setAttribute('aria-label', fault ? told + ', ' + fault : told);
  button.at = at;
  item.append(button);
  return item;
}

// The button of a line in the list, scrolled into sight.
function buttonOf(at) {
  const box = by('list');
  if (!box.classList.contains('long')) {
    const {firstChild, offsetTop, offsetHeight} = box.children[at], top = offsetTop - box.offsetTop - RIM;
    box.scrollTop = Math.min(top, Math.max(top + offsetHeight + 2 * RIM - box.clientHeight, box.scrollTop));
    return firstChild;
  }
  const top = at * rows.height, least = top + rows.height + 2 * RIM - box.clientHeight;
  box.scrollTop = Math.min(top, Math.max(least, box.scrollTop));
  placeRows();
  return box.children[1 + at - rows.first].firstChild;
}

let current = null;

function currentButton(at) {
  if (current) current.removeAttribute('aria-current');
  current = buttonOf(at);
  current.setAttribute('aria-current', 'step');
}

function listenToList() {
  const box = by('list'), isLong = () => box.classList.contains('long');
  box.addEventListener('scroll', () => {
    if (isLong()) placeRows();
  }, {passive: true});
  new ResizeObserver(() => {
    if (!isLong()) return;
    Object.assign(rows, {first: 0, last: 0, height: 0});
    placeRows();
    currentButton(blockAt(now));
  }).observe(box);
}
