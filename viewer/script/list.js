// The list: only the visible rows have elements.

const scroller = find("scroller"), sizer = find("sizer"), rowsBox = find("rows"), nothing = find("nothing");
// All elements of rows, and each by its element.
const pool = [], owners = new Map();
// The element of each node in sight.
let inSight = new Map();
let rowHeight = 24, offset = 0, lastTop = 0, isPaintWanted = false, isStale = false;

const wholeHeight = () => shownRows * rowHeight;
const boxHeight = () => Math.min(wholeHeight(), TALLEST);
const reach = (height) => Math.max(1, height - scroller.clientHeight);

function layOut() {
  sizer.style.height = `${boxHeight()}px`;
  scrollToPixel(clamp(pixel(), 0, reach(wholeHeight())));
  isStale = true;
}

// All rows together may be taller than a browser allows. Then the box is lower than they are, and
// `offset` is the difference between the positions in both. Near both ends, a pixel of the box is one
// of the rows. Between, positions are proportional.
function convert(at, one, other) {
  if (one === other || at <= EDGE) return at;
  return at >= one - EDGE ? other - (one - at) : EDGE + (at - EDGE) / (one - 2 * EDGE) * (other - 2 * EDGE);
}

const pixel = () => scroller.scrollTop + offset;
const inBox = (at) => convert(at, reach(wholeHeight()), reach(boxHeight()));

function scrollToPixel(at) {
  scroller.scrollTop = inBox(at);
  lastTop = scroller.scrollTop;
  offset = boxHeight() < wholeHeight() ? Math.round(at - lastTop) : 0;
  wantPaint();
}

// A step that is longer than a wheel's, such as one of the scroll bar, moves to the rows at that
// position. A smaller step moves the rows as far as the box. If the box ends too early, or the
// scrolling stops, the position in the box is corrected.
function followScroll() {
  const top = scroller.scrollTop, height = scroller.clientHeight, isAtEdge = top <= 0 || top >= reach(boxHeight()) - 1;
  clearTimeout(followScroll.timer);
  if (boxHeight() < wholeHeight()) {
    if (Math.abs(top - lastTop) > Math.min(2 * height, TALLEST / height / 2)) offset = Math.round(convert(top, reach(boxHeight()), reach(wholeHeight())) - top);
    else if (isAtEdge) scrollToPixel(pixel());
    else followScroll.timer = setTimeout(() => Math.abs(inBox(pixel()) - top) > 1 && scrollToPixel(pixel()), 200);
  }
  lastTop = scroller.scrollTop;
  wantPaint();
}

function scrollToRow(row) {
  const top = row * rowHeight, height = scroller.clientHeight;
  if (top < pixel() || top + rowHeight > pixel() + height) scrollToPixel(clamp(top - height / 3, 0, reach(wholeHeight())));
  isStale = true;
  wantPaint();
}

function wantPaint() {
  if (!isPaintWanted) requestAnimationFrame(paint);
  isPaintWanted = true;
}

function makeRow() {
  const element = make("div", "row");
  element.id = `row-${pool.length}`;
  element.setAttribute("role", "treeitem");
  const parts = { tree: make("div", "tree"), count: make("div", "count"), self: make("div", "self"), time: make("div", "time"), lane: make("div", "lane"), track: make("div", "track"), bar: make("div", "bar") };
  parts.lane.append(parts.track);
  parts.track.append(parts.bar);
  element.append(parts.tree, parts.count, parts.self, parts.time, parts.lane);
  const one = { element, parts, node: NONE };
  pool.push(one);
  owners.set(element, one);
  return one;
}

function paint() {
  isPaintWanted = false;
  const top = clamp(pixel(), 0, Math.max(0, wholeHeight() - 1)), height = scroller.clientHeight;
  const first = Math.max(0, Math.floor(top / rowHeight) - 8), last = Math.min(shownRows, Math.ceil((top + height) / rowHeight) + 8);
  fitIndent(first, last);
  for (const [at, one] of placeElements(first, last).entries()) {
    const row = first + at, node = run.rows[row];
    if (isStale || one.node !== node) paintRow(one, node);
    one.element.style.transform = `translateY(${row * rowHeight - offset}px)`;
  }
  isStale = false;
  paintPath(Math.floor(top / rowHeight));
  const active = inSight.get(selected);
  active ? scroller.setAttribute("aria-activedescendant", active.element.id) : scroller.removeAttribute("aria-activedescendant");
}

// Returns the element of each of these rows, and hides the others. A node that stays in sight keeps
// its element, and so a selection of text in it. The elements are in the order of the rows, so that a
// selection over several rows is that of the rows between.
function placeElements(first, last) {
  const before = inSight, spare = new Set(pool), ones = [];
  inSight = new Map();
  for (let row = first; row < last; row++) spare.delete(before.get(run.rows[row]));
  const isSpare = (element) => spare.has(owners.get(element));
  let next = rowsBox.firstChild;
  for (let row = first; row < last; row++) {
    const node = run.rows[row], staying = before.get(node);
    while (staying && isSpare(next)) next = next.nextSibling;
    const one = staying ?? (isSpare(next) ? owners.get(next) : spare.values().next().value ?? makeRow());
    spare.delete(one);
    if (next === one.element) next = next.nextSibling;
    else rowsBox.insertBefore(one.element, next);
    inSight.set(node, one);
    ones.push(one);
  }
  for (const one of spare) one.element.hidden = true, one.node = NONE;
  return ones;
}

// If the visible rows are too deep for the width, their indentation counts from a deeper level and is
// narrower.
function fitIndent(first, last) {
  let least = Infinity, most = 0;
  for (let row = first; row < last; row++) {
    const depth = run.depth[run.rows[row]];
    least = Math.min(least, depth), most = Math.max(most, depth);
  }
  const width = scroller.clientWidth / 5, usual = parseFloat(getComputedStyle(document.body).getPropertyValue("--indent"));
  const base = most * usual <= width ? 0 : Math.min(least, most - 4), indent = clamp(Math.floor(width / (most - base)), 3, usual);
  if (base !== rowsBox.base || indent !== rowsBox.indent) isStale = true;
  Object.assign(rowsBox, { base, indent });
  rowsBox.style.setProperty("--indent", `${indent}px`);
  rowsBox.classList.toggle("is-tight", indent < 10);
}

function paintRow(one, node) {
  const { element, parts } = one, span = isSpan(node), worst = run.worst[node];
  const canFold = span && run.firstChild[node] !== NONE, inTree = treeParts(node, span, canFold, worst);
  one.node === node ? replaceChanged(parts.tree, inTree) : parts.tree.replaceChildren(...inTree);
  one.node = node;
  element.hidden = false;
  element.className = `row ${span ? "span" : "event"} ${LEVELS[worst].toLowerCase()}${run.direct[node] === ERROR ? " direct" : ""}${node === selected ? " selected" : ""}${run.match[node] ? " match" : ""}`;
  element.setAttribute("aria-level", run.depth[node] + 1);
  element.setAttribute("aria-posinset", run.ordinal[node]);
  element.setAttribute("aria-setsize", run.ordinal[run.parent[node] === NONE ? run.lastRoot : run.lastChild[run.parent[node]]]);
  element.setAttribute("aria-selected", node === selected);
  canFold ? element.setAttribute("aria-expanded", isOpen(node)) : element.removeAttribute("aria-expanded");
  parts.tree.style.setProperty("--depth", clamp(run.depth[node] - rowsBox.base, 0, 100));
  setText(parts.count, span && run.events[node] ? run.events[node].toLocaleString("en") : "");
  setText(parts.self, span && hasTimes() && run.own[node] < lengthOf(node) ? lengthText(run.own[node]) : "");
  setText(parts.time, !hasTimes() ? "" : span ? lengthText(lengthOf(node)) : sinceText(from(node) - (run.parent[node] === NONE ? run.least : from(run.parent[node]))));
  paintBar(parts.bar, node, span);
}

function treeParts(node, span, canFold, worst) {
  const parts = [make("span", canFold ? "fold" : "fold none")];
  if (rowsBox.base > 0 && run.depth[node] === rowsBox.base) parts.push(make("span", "deep", `${run.depth[node]}`));
  if (span) {
    const name = make("span", "name");
    mark(name, inRow(nameOf(node)) || "(no name)");
    const state = make("span", "state");
    if (worst >= WARN) state.role = "img", state.ariaLabel = worst === ERROR ? "errors" : "warnings";
    parts.push(state, name);
  } else parts.push(make("span", "level", LEVELS[run.level[node]]));
  const text = make("span", "fields");
  for (const [at, [name, value]] of fieldsOf(node, 40).entries()) {
    if (text.textContent.length > LONGEST) break;
    if (at) text.append("  ");
    if (name === "message" && (!span || at === 0)) mark(text.appendChild(make("span", "message")), inRow(value));
    else {
      const field = text.appendChild(make("span", "field"));
      mark(field.appendChild(make("span", "key")), `${inRow(name)}=`);
      mark(field.appendChild(make("span", "value")), inRow(value));
    }
  }
  parts.push(text);
  if (span && isUnfinished(node)) parts.push(make("span", "tag", run.isWhole ? "unfinished" : "open"));
  if (threadNames.length > 1 && (run.parent[node] === NONE || run.thread[node] !== run.thread[run.parent[node]])) parts.push(make("span", "tag thread", threadText(run.thread[node])));
  return parts;
}

const threadText = (thread) => inRow(threadNames[thread].replace(/^\d*$/, (it) => it ? `thread ${it}` : "no thread"));

function mark(element, text) {
  const query = search.query.toLowerCase(), lower = text.toLowerCase();
  let done = 0;
  for (let at = query ? lower.indexOf(query) : -1; at >= 0; at = lower.indexOf(query, done)) {
    element.append(text.slice(done, at), make("mark", "", text.slice(at, at + query.length)));
    done = at + query.length;
  }
  element.append(text.slice(done));
}

function paintPath(row) {
  const node = shownRows ? run.rows[clamp(row, 0, shownRows - 1)] : NONE;
  const path = node === NONE ? [] : spansAround(node, 6);
  setText(find("path"), path.length ? path.map((it) => cut(inRow(nameOf(it)), 60)).join(" › ") : "Span");
  find("path").classList.toggle("is-path", path.length > 0);
}

