// Reading: takes in the lines that have arrived, a slice at a time.

let read = 0, nextRefresh = 0;

// Takes in lines for a while. Returns whether all that arrived are taken in.
function readSlice() {
  for (const until = performance.now() + SLICE; performance.now() < until;) {
    for (let lines = 0, enough = read + (1 << 18); lines < 500 && read < enough; lines++) {
      const end = source.indexOf("\n", read);
      if (end < 0) return true;
      try {
        if (end > read) addCall(JSON.parse(source.slice(read, end)), read);
      } catch {
        run.damaged++;
      }
      read = end + 1;
    }
  }
  return false;
}

const pause = (time = 0) => new Promise((done) => setTimeout(done, time));

// Computes and paints what depends on all nodes so far. Each step is a task of its own if the ones
// before took long. What is shown fits together between any two.
const STEPS = [
  () => (sumUp(), growView()), computeOwnTimes, () => (holdSelection(), computeAutoDepth()), keep, () => (orderNodes(), run.placedEnd = read, placeMatches()), flattenInPlace, () => selected === NONE && goToFragment(), continueSearch, paintOverview,
  () => (find("map").hidden = !run.spans, measure()),
];

async function refresh() {
  let until = performance.now() + SLICE;
  for (const step of STEPS) {
    step();
    if (performance.now() < until) continue;
    await pause();
    until = performance.now() + SLICE;
  }
}

async function readAll() {
  for (;;) {
    const isLast = document.readyState !== "loading", isEmpty = readSlice(), length = source.length;
    if (isEmpty) lookForMore();
    const isMore = source.length > length;
    if (isEmpty && isLast && !isMore) return finish();
    find("progress").style.width = `${source.length ? read / source.length * 90 : 0}%`;
    const begun = performance.now();
    if (begun >= nextRefresh && run.size) {
      await refresh();
      nextRefresh = performance.now() + Math.max(250, 8 * (performance.now() - begun));
    }
    await pause(isEmpty && !isMore ? 30 : 0);
  }
}

async function finish() {
  run.isRead = true;
  await refresh();
  for (const at of threadNames.keys()) {
    if (at === 0) find("thread").append(new Option("All threads", NONE));
    find("thread").append(new Option(threadText(at), at));
  }
  find("thread").hidden = threadNames.length < 2;
  if (!find("details").hidden) repaintDetails();
  document.body.classList.add("is-read");
}

const list = find("help").appendChild(make("dl"));
find("help").prepend(make("h2", "", "Keys"));
for (const [keys, text] of KEYS) {
  const term = list.appendChild(make("dt"));
  for (const key of keys.split(" ")) term.append(key === "…" ? " … " : make("kbd", "", key));
  list.append(make("dd", "", text));
}
find("help").append(make("p", "", "Drag over the timeline to zoom in, click a bar to zoom to its span, and double-click to see all of the time again."));
new ResizeObserver(measure).observe(document.querySelector(".table"));
measure();
readAll();
