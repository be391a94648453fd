// The overview.

function paintOverview() {
  const warnings = run.levels[WARN], errors = run.errorPlaces.length, events = run.levels.reduce((sum, it) => sum + it), verdict = find("verdict");
  document.title = errors ? `✗ ${shown(run.title)}` : shown(run.title) || "ttree";
  find("title").textContent = inRow(run.title) || "ttree";
  document.body.classList.toggle("is-untimed", !hasTimes());
  verdict.className = errors ? "bad" : run.isRead ? "good" : "";
  verdict.textContent = errors ? counted(errors, "error") : run.isRead ? "No errors" : "Reading";
  if (hasTimes()) verdict.append(make("small", "", ` in ${lengthText(run.most - run.least)}${run.isRead ? "" : " so far"}`));
  const counts = [[run.spans, "span", "spans"], [events, "event", "events"]];
  if (warnings) counts.push([warnings, "warning", "warnings", "warn"]);
  if (threadNames.length > 1) counts.push([threadNames.length, "thread", "threads"]);
  if (run.unfinished && run.isRead) counts.push([run.unfinished, "not closed", "not closed", "warn"]);
  if (run.damaged) counts.push([run.damaged, "damaged line", "damaged lines", "warn"]);
  find("counts").replaceChildren(...counts.map(([count, one, many, kind]) => {
    const box = make("div", kind);
    box.append(make("dd", "", count.toLocaleString("en")), make("dt", "", count === 1 ? one : many));
    return box;
  }));
  if (run.isRead && !run.isWhole) find("counts").append(make("p", "cut", "The page ends early: this is what came before."));
  find("next-error").hidden = !errors;
  find("failed").hidden = run.isRead && !errors && !filter.failed;
  find("next-error").textContent = counted(errors, "error");
  const groups = errorGroups();
  listNodes("errors", [...groups.values()].slice(0, 4), ({ where, text, count }) => {
    const parts = [make("span", "what", where), make("span", "detail", text)];
    return count > 1 ? [...parts, make("span", "times", `× ${count}`)] : parts;
  });
  const slow = hasTimes() ? slowest(4) : [];
  listNodes("slowest", slow.map((node) => ({ node })), ({ node }) => {
    const share = make("span", "share"), fields = fieldsOf(node, 3).map(([name, value]) => inRow(name === "message" ? value : `${name}=${value}`));
    share.appendChild(make("span")).style.width = `${clamp(run.own[node] / run.own[slow[0]] * 100, 2, 100)}%`;
    return [make("span", "length", lengthText(run.own[node])), share, make("span", "what", inRow(nameOf(node))), make("span", "detail", cut(fields.join(" "), 80))];
  });
}

// Lists the first error of each span, unless a span in it is listed. Equal errors in spans of one name
// are listed once, at the first of them.
function errorGroups() {
  const groups = new Map(), firsts = firstErrors().slice(0, 2000);
  for (const [at, error] of firsts.entries()) {
    const node = at < FEW ? causeOf(error) : error, above = run.parent[node], where = above === NONE ? "" : inRow(nameOf(above)), text = inRow(messageOf(node)), key = `${where}\n${text}`;
    groups.has(key) ? groups.get(key).count++ : groups.set(key, { node, where, text, count: 1 });
  }
  return groups;
}

function firstErrors() {
  const firsts = [], listed = new Set(), outer = new Set();
  for (const place of run.errorPlaces.slice(0, 1e5)) {
    const node = run.order[place], span = run.parent[node];
    if (span !== NONE && listed.has(span)) continue;
    listed.add(span);
    firsts.push(node);
    for (let above = span === NONE ? NONE : run.parent[span]; above !== NONE && !outer.has(above); above = run.parent[above]) outer.add(above);
  }
  return firsts.filter((it) => !outer.has(run.parent[it]));
}

// Returns what says why a test failed: the event itself, or, for a mere `fail`, one before it in its
// span. That is the start of a panic, otherwise a line of a report, otherwise the first.
function causeOf(error) {
  const above = run.parent[error];
  if (above === NONE || messageOf(error) !== "fail") return error;
  const before = [];
  for (let node = run.firstChild[above]; node !== error && before.length < FEW; node = run.nextSibling[node]) if (!isSpan(node)) before.push(node);
  const first = (pattern) => before.find((it) => pattern.test(messageOf(it)));
  return first(PANIC) ?? first(REPORT) ?? before[0] ?? error;
}

const PANIC = /^\s*(panic: |thread '.*' panicked|Traceback \(most recent call last\):|goroutine \d+ \[)/;
const REPORT = /^\s*((error|message): *[^\s|>]|\S+\.go:\d+: .)/i;

function slowest(count) {
  const top = [];
  for (let node = 0; node < run.size; node++) {
    if (!isSpan(node) || run.own[node] <= (top.length === count ? run.own[top[count - 1]] : 0) || isSum(node)) continue;
    top.push(node);
    top.sort((one, other) => run.own[other] - run.own[one]);
    top.length = Math.min(top.length, count);
  }
  return top;
}

// Clang adds spans that are sums of others.
const isSum = (node) => nameOf(node).startsWith("Total ") && fieldsOf(node, 9).some(([name]) => name === "avg ms");

// A list that reads the same stays, so that a click isn't lost while the page loads.
function listNodes(id, ones, partsOf) {
  const list = find(id), items = ones.map((one) => {
    const item = make("li"), button = item.appendChild(make("button"));
    button.append(...partsOf(one));
    button.addEventListener("click", () => (select(one.node), showDetails(true), scroller.focus()));
    return item;
  });
  const key = items.map((item, at) => `${ones[at].node} ${item.textContent}`).join("\n");
  find(`${id}-box`).hidden = !ones.length;
  if (key !== list.key) repaint(list, () => list.replaceChildren(...items));
  list.key = key;
}

