// The run: numbers of each span and event. Both are nodes, in the order of their calls. Strings are
// read again from their line when they are shown.

const KINDS = {
  at: Uint32Array, level: Uint8Array, id: Float64Array, thread: Int32Array, parent: Int32Array, depth: Int32Array, ordinal: Int32Array,
  firstChild: Int32Array, lastChild: Int32Array, nextSibling: Int32Array, start: Float64Array, end: Float64Array, opened: Int32Array,
  closed: Int32Array, fold: Uint8Array, events: Int32Array, errors: Int32Array, worst: Uint8Array, direct: Uint8Array, own: Float64Array, place: Int32Array,
  past: Int32Array, kept: Uint8Array, match: Uint8Array, order: Int32Array, rows: Int32Array,
};
const run = {
  size: 0, placed: 0, placedEnd: 0, room: 0, spans: 0, calls: 0, damaged: 0, firstRoot: NONE, lastRoot: NONE, isWhole: false, isRead: false, title: "",
  least: Infinity, most: -Infinity, second: null, levels: [0, 0, 0, 0, 0], unfinished: 0, errorPlaces: [], deepest: 0, autoDepth: 0,
  isTimed: false, laterFold: AUTO, totals: new Set(),
};
const live = new Map(), threads = new Map(), threadNames = [], records = new Map(), recordOwners = new Map();

function grow() {
  run.room = Math.max(4096, run.room * 2);
  for (const [name, Kind] of Object.entries(KINDS)) {
    const wider = new Kind(run.room);
    if (run[name]) wider.set(run[name]);
    run[name] = wider;
  }
}

grow();

// The data that has arrived. It is taken from the document only when there is more, as that may copy
// it.
let source = "";

function lookForMore() {
  const data = find("data"), first = data && data.firstChild;
  if (first && first === data.lastChild && first.length === source.length) return;
  source = !first ? "" : first === data.lastChild ? first.data : data.textContent;
}

const callAt = (at) => JSON.parse(source.slice(at, source.indexOf("\n", at)));

const isSpan = (node) => run.level[node] === SPAN;
const hasTimes = () => run.isTimed;
const begins = () => hasTimes() ? run.start : run.opened;
const ends = () => hasTimes() ? run.end : run.closed;
const from = (node) => begins()[node];
const to = (node) => isSpan(node) ? ends()[node] : from(node);
const lengthOf = (node) => to(node) - from(node);
const isUnfinished = (node) => isSpan(node) && live.get(run.id[node]) === node;

function addNode(level, at, call, time) {
  if (run.size === run.room) grow();
  const node = run.size++, parent = live.get(call[level === SPAN ? 7 : 6]) ?? NONE;
  if (!threads.has(call[5])) {
    threads.set(call[5], threadNames.length);
    threadNames.push(call[5]);
  }
  run.at[node] = at;
  run.level[node] = level;
  run.thread[node] = threads.get(call[5]);
  run.fold[node] = run.laterFold;
  run.start[node] = time;
  run.opened[node] = run.calls;
  run.parent[node] = parent;
  run.firstChild[node] = run.lastChild[node] = run.nextSibling[node] = NONE;
  const before = parent === NONE ? run.lastRoot : run.lastChild[parent];
  run.depth[node] = parent === NONE ? 0 : run.depth[parent] + 1;
  run.ordinal[node] = before === NONE ? 1 : run.ordinal[before] + 1;
  if (before !== NONE) run.nextSibling[before] = node;
  else if (parent === NONE) run.firstRoot = node;
  else run.firstChild[parent] = node;
  if (parent === NONE) run.lastRoot = node;
  else run.lastChild[parent] = node;
  return node;
}

// Takes in one line, which begins at this place of the data.
function addCall(call, at) {
  const kind = call[0];
  if (kind === ABOUT) run.title = String(call[2]);
  if (kind === END) run.isWhole = true;
  if (kind < NEW || kind > CLOSE) return;
  run.calls++;
  if (kind === RECORD) return addRecord(call[1], at);
  run.second ??= call[1];
  if (run.second === 0 && run.most <= 0 && call[1] >= CALENDAR) startAt(call);
  const time = (call[1] - run.second) * 1e9 + call[2];
  if (kind === CLOSE) return closeSpan(call[6], time);
  spanTime(time);
  if (kind === NEW) {
    const node = addNode(SPAN, at, call, time);
    run.id[node] = call[6];
    live.set(call[6], node);
    run.spans++;
  } else {
    const level = clamp(call[8] | 0, 0, ERROR);
    const node = addNode(level, at, call, time);
    run.levels[level]++;
    if (level === ERROR && isTotals(call)) run.totals.add(node);
  }
}

// The line that ends a run of tests counts them. It is no error of its own.
function isTotals(call) {
  if (call[6] !== 0) return false;
  const names = call.filter((_, at) => at >= 10 && at % 2 === 0);
  return names.includes("passed") && names.includes("failed") && !names.includes("message");
}

// A close may come without a time of its own.
function closeSpan(id, time) {
  const node = live.get(id);
  if (node === undefined) return;
  run.end[node] = Math.max(time, run.start[node]);
  run.closed[node] = run.calls;
  spanTime(run.end[node]);
  live.delete(id);
}

// The time of the run goes from the earliest to the latest time in it.
function spanTime(time) {
  if (time < run.least) run.least = time;
  if (time > run.most) run.most = time;
}

// Lines without a time come at 0 until the first line that has one. They get the time of that line.
function startAt(call) {
  run.second = call[1];
  run.least = run.most = call[2];
  run.start.fill(call[2], 0, run.size);
  run.end.fill(call[2], 0, run.size);
}

// A record has no time of its own.
function addRecord(id, at) {
  const node = live.get(id);
  if (node === undefined) return;
  records.has(node) ? records.get(node).push(at) : records.set(node, [at]);
  recordOwners.set(at, node);
}

// Computes for each span the end, the counts, and the worst level in it and directly in it.
function sumUp() {
  const { size, parent, level, events, errors, worst, direct, start, end, closed } = run;
  run.isTimed = run.most > run.least;
  for (const node of live.values()) {
    end[node] = Math.max(run.most, start[node]);
    closed[node] = run.calls + 1;
  }
  run.unfinished = live.size;
  events.fill(0, 0, size), errors.fill(0, 0, size), worst.fill(0, 0, size), direct.fill(0, 0, size);
  for (let node = size - 1; node >= 0; node--) {
    const above = parent[node], isEvent = level[node] !== SPAN;
    if (isEvent) worst[node] = level[node];
    if (above === NONE) continue;
    // A span ends after all that is in it, also if its threads have clocks of their own.
    end[above] = Math.max(end[above], isEvent ? start[node] : end[node]);
    events[above] += isEvent ? 1 : events[node];
    errors[above] += isEvent ? (level[node] === ERROR ? 1 : 0) : errors[node];
    if (worst[node] > worst[above]) worst[above] = worst[node];
    if (isEvent && level[node] > direct[above]) direct[above] = level[node];
  }
}

// Computes own times: for each span, its time without the times of its children. Children usually come
// in the order of their start: `covered` is the end of those so far. Others are sorted first.
function computeOwnTimes() {
  const { size, parent, level, own, firstChild, nextSibling } = run, begin = begins(), finish = ends();
  const covered = begin.slice(0, size), latest = new Float64Array(size).fill(-Infinity), unsorted = new Set();
  const cover = (above, node) => {
    const left = Math.max(covered[above], begin[node]), right = Math.min(finish[node], finish[above]);
    if (right > left) own[above] -= right - left, covered[above] = right;
  };
  for (let node = 0; node < size; node++) {
    if (level[node] !== SPAN) continue;
    own[node] = finish[node] - begin[node];
    const above = parent[node];
    if (above === NONE) continue;
    if (begin[node] < latest[above]) unsorted.add(above);
    latest[above] = begin[node];
    cover(above, node);
  }
  for (const above of unsorted) {
    const children = [];
    for (let node = firstChild[above]; node !== NONE; node = nextSibling[node]) if (level[node] === SPAN) children.push(node);
    own[above] = finish[above] - begin[above];
    covered[above] = begin[above];
    children.sort((one, other) => begin[one] - begin[other]).forEach((node) => cover(above, node));
  }
}

// Computes the depth down to which spans are open at first.
function computeAutoDepth() {
  const { size, level, depth } = run, perDepth = [];
  for (let node = 0; node < size; node++) {
    perDepth[depth[node]] = (perDepth[depth[node]] || 0) + 1;
    if (level[node] === SPAN && depth[node] > run.deepest) run.deepest = depth[node];
  }
  run.autoDepth = 0;
  for (let nodes = 0, at = 0; at < perDepth.length && at < 1e4; at++) {
    nodes += perDepth[at];
    if (nodes > FEW && at > 0) break;
    if (nodes <= FEW) run.autoDepth = at + 1;
  }
}

// Computes the order of the tree. Nodes that come later have no place in it until the next time.
function orderNodes() {
  const { parent, level, firstChild, nextSibling, order, place, past } = run;
  const isError = (node) => level[node] === ERROR && (!run.totals.has(node) || run.totals.size === run.levels[ERROR]);
  run.errorPlaces = [];
  let next = 0;
  for (let node = run.firstRoot; node !== NONE;) {
    if (isError(node)) run.errorPlaces.push(next);
    place[node] = next;
    order[next++] = node;
    if (firstChild[node] !== NONE) {
      node = firstChild[node];
      continue;
    }
    past[node] = next;
    while (node !== NONE && nextSibling[node] === NONE) {
      node = parent[node];
      if (node !== NONE) past[node] = next;
    }
    if (node !== NONE) node = nextSibling[node];
  }
  run.placed = next;
}
