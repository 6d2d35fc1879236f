// What all parts of the viewer use.

const by = id => document.getElementById(id), SVG = 'http://www.w3.org/2000/svg', NL = String.fromCharCode(10),
      BLANK = String.fromCharCode(160), ARROW = BLANK + String.fromCharCode(8594) + BLANK,
      ELLIPSIS = String.fromCharCode(8230);
const isLab = document.querySelector('meta[name=lab]') !== null;

function make(parent, name, attributes) {
  const element = document.createElementNS(SVG, name);
  for (const key in attributes) element.setAttribute(key, attributes[key]);
  parent.append(element);
  return element;
}

// Sets attributes, and touches only what changes.
function mark(element, attributes) {
  for (const key in attributes) {
    const value = attributes[key];
    if (value === null) {
      if (element.hasAttribute(key)) element.removeAttribute(key);
    } else if (element.getAttribute(key) !== String(value)) element.setAttribute(key, value);
  }
}
