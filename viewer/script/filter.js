// What is shown: filters, folds, and the rows that are left.

const filter = { level: 0, failed: false, thread: NONE };
const isFiltered = () => filter.level > 0 || filter.failed || filter.thread !== NONE;
let shownRows = 0, selected = NONE;

function keep() {
  const { size, parent, level, thread, worst, kept } = run;
  kept.fill(0, 0, size);
  for (let node = size - 1; node >= 0; node--) {
    const isEvent = level[node] !== SPAN, above = parent[node];
    let fits = filter.thread === NONE || thread[node] === filter.thread;
    if (isEvent) fits &&= level[node] >= filter.level;
    else fits &&= filter.level === 0;
    if (filter.failed) fits &&= (isEvent && above !== NONE ? worst[above] : worst[node]) === ERROR;
    if (fits) kept[node] = 1;
    if (kept[node] && above !== NONE) kept[above] = 1;
  }
}

function isOpen(node) {
  const fold = run.fold[node];
  return fold === OPEN || fold === AUTO && (isFiltered() || run.worst[node] === ERROR || run.depth[node] < run.autoDepth);
}

function flatten() {
  shownRows = 0;
  for (let next = 0; next < run.placed;) {
    const node = run.order[next], span = isSpan(node);
    if (run.kept[node]) run.rows[shownRows++] = node;
    next = span && !(run.kept[node] && isOpen(node)) ? run.past[node] : next + 1;
  }
  nothing.hidden = shownRows > 0 || !run.isRead;
  nothing.textContent = run.size ? "Nothing fits these filters." : "No calls.";
  layOut();
}

// Computes the rows again. The first visible row stays where it is.
function flattenInPlace() {
  const top = pixel(), first = shownRows ? run.rows[Math.floor(top / rowHeight)] : NONE;
  flatten();
  if (top > 0 && first !== NONE) scrollToPixel(clamp(rowOf(first) * rowHeight + top % rowHeight, 0, reach(wholeHeight())));
}

// The row of a node, or the nearest row before it.
function rowOf(node) {
  let low = 0, high = shownRows - 1;
  while (low < high) {
    const middle = (low + high + 1) >> 1;
    if (run.place[run.rows[middle]] <= run.place[node]) low = middle;
    else high = middle - 1;
  }
  return low;
}

const isRow = (node) => node !== NONE && shownRows > 0 && run.rows[rowOf(node)] === node;

function setFold(node, isNowOpen) {
  run.fold[node] = isNowOpen ? OPEN : FOLDED;
  flatten();
}

// Folds or unfolds all spans, also those that are read later.
function foldAll(isNowOpen) {
  run.laterFold = isNowOpen ? OPEN : FOLDED;
  run.fold.fill(run.laterFold, 0, run.size);
  for (; !isNowOpen && selected !== NONE && run.parent[selected] !== NONE;) selected = run.parent[selected];
  flatten();
  if (selected !== NONE) scrollToRow(rowOf(selected));
}

// Has a node stay a row, also when more calls have been read or other filters are set.
function reveal(node) {
  openAround(node);
  if (!isRow(node)) flatten();
}

function openAround(node) {
  for (let above = run.parent[node]; above !== NONE; above = run.parent[above]) run.fold[above] = OPEN;
}

// Has the rows with a selection of text stay rows.
function holdSelection() {
  const chosen = getSelection();
  if (chosen.isCollapsed) return;
  for (const [node, one] of inSight) if (chosen.containsNode(one.element, true)) openAround(node);
}

function setFilter(change) {
  Object.assign(filter, change);
  find("failed").setAttribute("aria-pressed", filter.failed);
  find("level").value = filter.level;
  keep();
  placeMatches();
  flatten();
  scrollToRow(selected === NONE ? 0 : rowOf(selected));
}

