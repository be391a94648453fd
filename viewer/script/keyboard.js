// Keys and pointers.

const KEYS = [
  ["↑ ↓", "row above, row below"], ["← →", "fold or parent, unfold or first child"], ["Enter", "fold or unfold a span, details of an event"], ["Home End", "first row, last row"],
  ["/", "search"], ["n N", "next match, the one before"], ["e E", "next error, the one before"], ["f", "only what failed"], ["1 … 5", "least level, from trace to error"],
  ["z", "zoom to the span"], ["0", "all of the time"], ["d", "details"], ["Esc", "close the details or the search"], ["+ −", "unfold all, fold all"], ["?", "these keys"],
];

function step(rows) {
  if (!shownRows) return;
  const here = selected !== NONE ? rowOf(selected) : rows > 0 ? -1 : shownRows, row = clamp(here + rows, 0, shownRows - 1), top = row * rowHeight;
  if (top < pixel()) scrollToPixel(top);
  else if (top + rowHeight > pixel() + scroller.clientHeight) scrollToPixel(top + rowHeight - scroller.clientHeight);
  select(run.rows[row], false);
}

function toggle(node) {
  if (isSpan(node) && run.firstChild[node] !== NONE) setFold(node, !isOpen(node));
}

function goInward() {
  if (selected === NONE || !isSpan(selected) || run.firstChild[selected] === NONE) return;
  isOpen(selected) ? step(1) : setFold(selected, true);
}

function goOutward() {
  if (selected === NONE) return;
  if (isSpan(selected) && run.firstChild[selected] !== NONE && isOpen(selected)) setFold(selected, false);
  else if (run.parent[selected] !== NONE) select(run.parent[selected]);
}

const hasSelected = () => selected !== NONE || notify("No row is selected");

const page = () => Math.max(1, Math.floor(scroller.clientHeight / rowHeight) - 2);
const treeKeys = {
  ArrowDown: () => step(1), ArrowUp: () => step(-1), PageDown: () => step(page()), PageUp: () => step(-page()), Home: () => step(-run.size), End: () => step(run.size),
  ArrowRight: goInward, ArrowLeft: goOutward, Enter: () => selected !== NONE && (isSpan(selected) ? toggle(selected) : showDetails(true)), " ": () => selected !== NONE && toggle(selected),
};
const pageKeys = {
  "/": () => (find("search").focus(), find("search").select()), n: () => goToMatch(1), N: () => goToMatch(-1), e: () => goToError(1), E: () => goToError(-1),
  f: () => setFilter({ failed: !filter.failed }), z: () => hasSelected() && zoomTo(selected), 0: resetView, d: () => hasSelected() && showDetails(find("details").hidden), "?": () => find("help").showModal(),
  "+": () => foldAll(true), "-": () => foldAll(false), Escape: () => find("details").hidden ? resetView() : showDetails(false),
  1: () => setFilter({ level: 0 }), 2: () => setFilter({ level: 1 }), 3: () => setFilter({ level: 2 }), 4: () => setFilter({ level: 3 }), 5: () => setFilter({ level: 4 }),
};

addEventListener("keydown", (event) => {
  const target = event.target instanceof Element ? event.target : document.body, isInTree = target === scroller || target === document.body;
  // A button that was clicked has the focus. It needs Enter and Space, and the details scroll.
  const isOfButton = !target.closest("#details") && event.key !== "Enter" && event.key !== " ";
  if (event.ctrlKey || event.metaKey || event.altKey || find("help").open || target.closest("input, select")) return;
  const act = ((isInTree || isOfButton) && treeKeys[event.key]) || (Object.hasOwn(pageKeys, event.key) && pageKeys[event.key]);
  if (!act) return;
  event.preventDefault();
  if (!target.closest("#details")) scroller.focus({ preventScroll: true });
  act();
});

const isNewQuery = () => find("search").value !== search.query;
find("search").addEventListener("input", () => {
  clearTimeout(startSearch.timer);
  startSearch.timer = setTimeout(() => isNewQuery() && startSearch(find("search").value), 80);
});
find("search").addEventListener("keydown", (event) => {
  if (event.key === "Enter") event.preventDefault(), isNewQuery() ? startSearch(event.target.value) : goToMatch(event.shiftKey ? -1 : 1);
  if (event.key === "Escape") event.target.value = "", startSearch(""), scroller.focus();
  if (event.key === "ArrowDown") event.preventDefault(), scroller.focus();
});
for (const [id, act] of [["previous", pageKeys.N], ["next", pageKeys.n], ["next-error", pageKeys.e], ["failed", pageKeys.f], ["unfold", pageKeys["+"]], ["fold", pageKeys["-"]], ["ask", pageKeys["?"]]]) find(id).addEventListener("click", act);
find("level").addEventListener("change", (event) => setFilter({ level: Number(event.target.value) }));
find("thread").addEventListener("change", (event) => setFilter({ thread: Number(event.target.value) }));
find("help").addEventListener("click", () => find("help").close());

const rowAt = (event) => owners.get(event.target.closest(".row"))?.node ?? NONE;
scroller.addEventListener("click", (event) => {
  const node = rowAt(event);
  if (node === NONE || wasDrag || String(getSelection())) return;
  select(node, false);
  if (event.target.closest(".fold")) toggle(node);
  else if (event.target.closest(".bar")) zoomTo(node);
  else if (!event.target.closest(".lane")) showDetails(true);
});
scroller.addEventListener("dblclick", (event) => event.target.closest(".tree") && !event.target.closest(".fold") && rowAt(event) !== NONE && toggle(rowAt(event)));
scroller.addEventListener("scroll", followScroll, { passive: true });
document.querySelector(".table").addEventListener("pointermove", showCursor, { passive: true });
document.querySelector(".table").addEventListener("pointerleave", () => find("cursor").hidden = true);
dragsRange(scroller, () => view);
dragsRange(find("axis"), () => view);
dragsRange(find("map"), whole, resetView);
// The address may name the selected row again by now.
addEventListener("hashchange", (event) => goToFragment(new URL(event.newURL).hash));
matchMedia("(prefers-color-scheme: dark)").addEventListener("change", paintMap);

function measure() {
  rowHeight = parseFloat(getComputedStyle(document.body).getPropertyValue("--row")) || 24;
  if (!run.size) return;
  document.body.style.setProperty("--gutter", `${scroller.offsetWidth - scroller.clientWidth}px`);
  layOut();
  paintAxis();
  paintRange();
  paintMap();
}

