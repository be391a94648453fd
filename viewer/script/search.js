// Search: a pattern over the lines as they are written finds candidates, and their strings decide.

// `end` is where the lines begin that aren't searched yet. `isNew` holds until there is a match.
const search = { query: "", found: [], count: 0, end: 0, run: 0, isDone: true, isNew: false };

function nodeOfLine(at) {
  let low = 0, high = run.size - 1;
  while (low < high) {
    const middle = (low + high + 1) >> 1;
    if (run.at[middle] <= at) low = middle;
    else high = middle - 1;
  }
  return run.size && run.at[low] === at ? low : recordOwners.get(at) ?? NONE;
}

function fits(line, query) {
  const call = JSON.parse(line), kind = call[0], texts = kind === NEW ? [call[8]] : [];
  for (let at = kind === RECORD ? 2 : 10; at + 1 < call.length; at += 2) texts.push(call[at] === "message" ? call[at + 1] : `${call[at]}=${call[at + 1]}`);
  return texts.some((it) => it.toLowerCase().includes(query));
}

// Yields the nodes whose lines fit, among those that are in the tree and aren't searched yet, and NONE
// after some work without one.
function* matches(query) {
  const written = JSON.stringify(query).slice(1, -1).replace(/</g, "\\u003c").replace(/\\[nrtbf]/g, (it) => `\\u00${{ n: "0a", r: "0d", t: "09", b: "08", f: "0c" }[it[1]]}`);
  const pattern = new RegExp(written.replace(/[.*+?^${}()|[\]\\]/g, "\\$&").replace(/=/g, '(?:=|",")'), "gi"), lower = query.toLowerCase();
  while (search.end < run.placedEnd) {
    const begin = search.end, cut = source.indexOf("\n", begin + (1 << 19)), end = cut < 0 ? run.placedEnd : Math.min(cut + 1, run.placedEnd), block = source.slice(begin, end);
    pattern.lastIndex = 0;
    for (let hit, hits = 0; (hit = pattern.exec(block));) {
      const start = block.lastIndexOf("\n", hit.index) + 1, stop = block.indexOf("\n", hit.index);
      if (stop < 0) break;
      pattern.lastIndex = stop;
      const node = nodeOfLine(begin + start);
      if (node !== NONE && fits(block.slice(start, stop), lower)) yield node;
      if (++hits % 200 === 0) yield NONE;
    }
    search.end = end;
    yield NONE;
  }
}

function startSearch(query) {
  Object.assign(search, { query, found: [], count: 0, end: 0, run: search.run + 1, isDone: true, isNew: true });
  run.match.fill(0, 0, run.size);
  isStale = true;
  wantPaint();
  continueSearch();
}

// Searches what isn't searched yet. The matches so far stay while it does.
function continueSearch() {
  if (!search.isDone) return;
  const turn = search.run, steps = search.query ? matches(search.query) : [][Symbol.iterator]();
  search.isDone = false;
  const work = () => {
    if (turn !== search.run) return;
    for (const until = performance.now() + SLICE; performance.now() < until;) {
      const { value, done } = steps.next();
      if (done) return endSearch();
      // A span is found once, also if several of its lines fit.
      if (value === NONE || run.match[value]) continue;
      run.match[value] = 1;
      search.count++;
    }
    showFound();
    setTimeout(work);
  };
  work();
}

function endSearch() {
  search.isDone = true;
  placeMatches();
  isStale = true;
  wantPaint();
  if (search.isNew && search.found.length && document.activeElement === find("search") && !run.match[selected]) goToMatch(1);
  search.isNew &&= !search.found.length;
}

// Computes the places of the matches that the filters leave, in the order of the tree.
function placeMatches() {
  const { order, match, kept, placed } = run, found = [];
  for (let place = 0; search.count && place < placed; place++) if (match[order[place]] && kept[order[place]]) found.push(place);
  search.found = found;
  showFound();
}

function showFound() {
  const { query, found, count, isDone } = search, here = selected === NONE ? -1 : found.indexOf(run.place[selected]), all = found.length.toLocaleString("en");
  find("found").textContent = !query ? "" : here >= 0 ? `${(here + 1).toLocaleString("en")} of ${all}` : !isDone ? `${count.toLocaleString("en")}…` : found.length ? all : "none";
  document.body.classList.toggle("is-searching", Boolean(query));
}

function goToMatch(step) {
  const { found } = search;
  if (!found.length) return search.isDone && notify(search.query ? "No match" : "Type / to search");
  const here = selected === NONE ? -1 : run.place[selected];
  const next = step > 0 ? found.find((it) => it > here) ?? found[0] : found.findLast((it) => it < here) ?? found[found.length - 1];
  select(run.order[next]);
  showFound();
}

