// Time: the visible part of it, bars, and the map of all of it.

const view = { from: 0, to: 1, isWhole: true };
const whole = () => hasTimes() ? { from: run.least, to: run.most } : { from: 0, to: run.calls + 1 };

function setView(begin, end) {
  const all = whole(), least = hasTimes() ? Math.min(100, all.to - all.from) : 2;
  if (end - begin < least) [begin, end] = [(begin + end - least) / 2, (begin + end + least) / 2];
  view.from = clamp(begin, all.from, all.to - least), view.to = clamp(end, all.from + least, all.to);
  view.isWhole = view.from <= all.from && view.to >= all.to;
  paintAxis();
  paintRange();
  isStale = true;
  wantPaint();
}

const resetView = () => setView(whole().from, whole().to);

// While the page loads, all of the time grows. A part that was chosen stays.
function growView() {
  if (view.isWhole && run.size) resetView();
}

// Zooms to a part of the axis. Without times, the axis counts calls. While the page loads, no part of
// that axis can be chosen, since the axis of times may still take its place.
function zoom(begin, end) {
  if (hasTimes() || run.isRead) setView(begin, end);
  else notify("There are no times yet");
}

function zoomTo(node) {
  const span = isSpan(node) ? node : run.parent[node];
  if (span === NONE) return resetView();
  const room = lengthOf(span) * 0.04;
  return zoom(from(span) - room, to(span) + room);
}

function paintBar(bar, node, span) {
  const scale = 100 / (view.to - view.from), left = (from(node) - view.from) * scale, right = (to(node) - view.from) * scale;
  bar.className = `bar ${span ? "" : "dot "}${right < 0 ? "before" : left > 100 ? "after" : ""}`;
  bar.style.left = `${clamp(left, 0, 100)}%`;
  bar.style.width = span ? `${clamp(right, 0, 100) - clamp(left, 0, 100)}%` : "";
}

function paintAxis() {
  const axis = find("axis"), width = axis.clientWidth || 1, span = view.to - view.from, rough = span / Math.max(2, width / 84);
  const power = 10 ** Math.floor(Math.log10(rough)), step = [1, 2, 5, 10].map((it) => it * power).find((it) => it >= rough) || rough;
  const zero = whole().from, firstTick = Math.ceil((view.from - zero) / step);
  axis.replaceChildren();
  for (let tick = firstTick; zero + tick * step <= view.to; tick++) {
    const label = make("span", "", hasTimes() ? tickText(tick * step, step) : `call ${Math.round(tick * step).toLocaleString("en")}`);
    const left = (zero + tick * step - view.from) / span * 100;
    if (left / 100 * width > width - 40) continue;
    label.style.left = `${left}%`;
    axis.append(label);
  }
  document.body.style.setProperty("--step", `${step / span * width}px`);
  document.body.style.setProperty("--shift", `${(zero + firstTick * step - view.from) / span * width}px`);
}

function paintRange() {
  const all = whole(), range = find("map-range"), scale = 100 / (all.to - all.from || 1);
  range.hidden = view.isWhole;
  range.style.left = `${(view.from - all.from) * scale}%`;
  range.style.width = `${(view.to - view.from) * scale}%`;
}

// Draws spans by their depth, from the top, those with warnings and errors over others, and warnings
// and errors as ticks below.
function paintMap() {
  const canvas = find("map-picture"), density = devicePixelRatio || 1, width = canvas.clientWidth, height = canvas.clientHeight;
  canvas.width = width * density, canvas.height = height * density;
  const pen = canvas.getContext("2d"), style = getComputedStyle(document.body), colour = (name) => style.getPropertyValue(name).trim();
  const colours = [0, 1, 2].map(() => colour("--bar")).concat(colour("--bar-warn"), colour("--bar-error"));
  const all = whole(), scale = width / (all.to - all.from || 1), deepest = clamp(run.deepest + 1, 1, 9), tall = Math.min(9, (height - 11) / deepest);
  // The last part that is painted at each depth, and the worst short span in each column.
  const partFrom = new Float64Array(deepest), partTo = new Float64Array(deepest), columns = new Uint8Array(deepest * (width + 2));
  pen.scale(density, density);
  const begin = begins(), finish = ends(), { level, depth, direct } = run, ticks = [new Uint8Array(width + 1), new Uint8Array(width + 1)];
  const paintSpan = (node) => {
    const left = (begin[node] - all.from) * scale, deep = depth[node], right = Math.max(left + 1, (finish[node] - all.from) * scale), column = deep * (width + 2) + Math.floor(left);
    const isShort = right - left < 1.5, worst = Math.max(WARN - 1, direct[node]);
    if (deep >= deepest || isShort && columns[column] >= worst || worst < WARN && left >= partFrom[deep] && right <= partTo[deep] + 0.3) return;
    if (left < partFrom[deep] || left > partTo[deep]) partFrom[deep] = left, partTo[deep] = right;
    else partTo[deep] = Math.max(partTo[deep], right);
    if (isShort) columns[column] = worst;
    pen.fillStyle = colours[direct[node]];
    pen.fillRect(left, deep * tall, Math.max(1, right - left - 0.5), tall - 1);
  };
  const bad = [];
  for (let node = 0; node < run.size; node++) {
    if (level[node] === SPAN) direct[node] < WARN ? paintSpan(node) : bad.push(node);
    else if (level[node] >= WARN) ticks[level[node] - WARN][Math.round((begin[node] - all.from) * scale)] = 1;
  }
  bad.forEach(paintSpan);
  pen.fillStyle = colour("--cut");
  ticks[1].forEach((isThere, x) => isThere && pen.fillRect(x - 0.5, 0, 1, height));
  for (const [at, name] of ["--tick-warn", "--error"].entries()) {
    pen.fillStyle = colour(name);
    ticks[at].forEach((isThere, x) => isThere && pen.fillRect(x - 1, height - (at ? 9 : 6), 2, 9));
  }
}

// Dragging over an element chooses the visible part of time: what is between the pointer's positions
// when the drag ends. `click` is called for a mere click.
function dragsRange(element, wholeOfIt, click) {
  let begin = null, box = null;
  const timeAt = (x) => {
    const { from, to } = wholeOfIt();
    return from + clamp((x - box.left) / box.width, 0, 1) * (to - from);
  };
  element.addEventListener("pointerdown", (event) => {
    const lane = element.id === "scroller" ? event.target.closest(".lane") : element;
    if (!lane || event.button !== 0 || event.pointerType === "touch" && lane !== element) return;
    box = (lane.querySelector(".track") || lane).getBoundingClientRect(), begin = { x: event.clientX };
  });
  addEventListener("pointermove", (event) => {
    if (!begin || Math.abs(event.clientX - begin.x) < 4 && !begin.isDrag) return;
    begin.isDrag = true;
    const ends = begin.ends = [begin.x, event.clientX].sort((one, other) => one - other);
    element.id === "map" ? zoom(...ends.map(timeAt)) : showBand(box, ...ends);
  });
  addEventListener("pointerup", (event) => {
    if (!begin) return;
    if (begin.ends && element.id !== "map") zoom(...begin.ends.map(timeAt));
    if (!begin.isDrag && click) click(event);
    wasDrag = Boolean(begin.isDrag);
    begin = null;
    showBand(null);
  });
  element.addEventListener("dblclick", (event) => (element.id === "map" || event.target.closest(".lane")) && resetView());
}

const band = document.body.appendChild(make("div", "band"));
band.hidden = true;
let wasDrag = false;

function showCursor(event) {
  const lane = event.pointerType === "mouse" && event.target.closest && event.target.closest(".lane"), cursor = find("cursor");
  cursor.hidden = !lane || !run.size;
  if (cursor.hidden) return;
  const box = find("axis").getBoundingClientRect(), part = clamp((event.clientX - box.left) / box.width, 0, 1), at = view.from + part * (view.to - view.from);
  cursor.style.left = `${box.left + part * box.width - document.querySelector(".table").getBoundingClientRect().left}px`;
  cursor.classList.toggle("is-late", part > 0.8);
  cursor.firstChild.textContent = hasTimes() ? lengthText(at - whole().from) : `call ${Math.round(at)}`;
}

function showBand(box, left, right) {
  band.hidden = !box;
  if (!box) return;
  left = Math.max(left, box.left), right = Math.min(right, box.right);
  const list = scroller.getBoundingClientRect();
  Object.assign(band.style, { left: `${left}px`, width: `${right - left}px`, top: `${list.top}px`, height: `${list.height}px` });
}

