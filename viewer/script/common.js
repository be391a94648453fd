// What all parts of the viewer use.

const LEVELS = ["TRACE", "DEBUG", "INFO", "WARN", "ERROR"], WARN = 3, ERROR = 4, SPAN = 255, NONE = -1;
const ABOUT = 0, NEW = 1, RECORD = 2, EVENT = 3, CLOSE = 4, END = 5;
const AUTO = 0, OPEN = 1, FOLDED = 2;
// Seconds from which a clock counts from 1970.
const CALENDAR = 1e8;
const SLICE = 20, FEW = 200, TALLEST = 5e6, EDGE = 5e5, LONGEST = 400;

const find = (id) => document.getElementById(id);
const clamp = (value, least, most) => Math.max(least, Math.min(most, value));
const counted = (count, one, many = one + "s") => `${count.toLocaleString("en")} ${count === 1 ? one : many}`;

function make(tag, className = "", text = "") {
  const element = document.createElement(tag);
  if (className) element.className = className;
  if (text) element.textContent = text;
  return element;
}

// Paints the inside of an element again. Where one has scrolled to stays, and so does the focus on one
// of its buttons.
function repaint(element, paint) {
  const top = element.scrollTop, at = [...element.querySelectorAll("button")].indexOf(document.activeElement);
  paint();
  element.scrollTop = top;
  element.querySelectorAll("button")[at]?.focus({ preventScroll: true });
}


// Replaces the children that have changed. The others stay, and so does a selection of text in them.
function replaceChanged(element, children) {
  for (const [at, child] of children.entries()) {
    const before = element.childNodes[at];
    if (!before) element.append(child);
    else if (!before.isEqualNode(child)) before.replaceWith(child);
  }
  while (element.childNodes.length > children.length) element.lastChild.remove();
}

function setText(element, text) {
  if (element.textContent !== text) element.textContent = text;
}
