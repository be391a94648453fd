// Selection, details, and the link to a span or an event.

function select(node, shouldScroll = true) {
  selected = node;
  if (node !== NONE) {
    reveal(node);
    if (shouldScroll) scrollToRow(rowOf(node));
    clearTimeout(select.timer);
    select.timer = setTimeout(() => history.replaceState(null, "", fragmentOf(node)), 150);
  }
  if (!find("details").hidden) paintDetails();
  isStale = true;
  wantPaint();
}

const fragmentOf = (node) => isSpan(node) ? `#span-${run.id[node]}` : `#call-${run.opened[node]}`;

function goToFragment(fragment = location.hash) {
  const [, kind, number] = fragment.match(/^#(span|call)-(\d+)$/) || [];
  for (let node = 0; kind && node < run.placed; node++) {
    if (isSpan(node) !== (kind === "span") || Number(number) !== (isSpan(node) ? run.id : run.opened)[node]) continue;
    if (node !== selected) select(node), showDetails(true);
    break;
  }
}

function showDetails(isShown) {
  find("details").hidden = !isShown || selected === NONE;
  paintDetails();
  paintAxis();
  isStale = true;
  wantPaint();
  if (isRow(selected)) scrollToRow(rowOf(selected));
}

const paintDetails = () => find("details").replaceChildren(...partsOfDetails(selected));

// Paints the details again when all has been read. What hasn't changed stays, also a selection of text.
const repaintDetails = () => repaint(find("details"), () => replaceChanged(find("details"), partsOfDetails(selected)));

function partsOfDetails(node) {
  if (node === NONE) return [];
  const call = callAt(run.at[node]), span = isSpan(node), fields = fieldsOf(node, 1000), head = make("div", "details-head");
  const close = make("button", "icon", "×");
  close.title = "Close (d)", close.ariaLabel = "Close details";
  close.addEventListener("click", () => showDetails(false));
  head.append(make("span", `kind ${span && run.worst[node] < WARN ? "" : LEVELS[run.worst[node]].toLowerCase()}`, span ? "Span" : LEVELS[run.level[node]]), copyButton(), close);
  const parts = [head], message = span ? call[8] || "(no name)" : fields.filter(([name]) => name === "message").map(([, value]) => value).join("\n");
  if (message) parts.push(make("pre", "text", whole100k(message)));
  const path = make("nav", "crumbs");
  path.append(...spansAround(node, 12).map(linkTo));
  if (path.firstChild) parts.push(path);
  const parent = run.parent[node], current = span ? NONE : currentOf(node, call), facts = [];
  if (span && hasTimes()) facts.push(["Time", `${lengthText(lengthOf(node))}${isUnfinished(node) ? " so far" : ""}`], ["Own time", `${lengthText(run.own[node])}`]);
  if (hasTimes()) facts.push([span ? "Begins at" : "Happens at", sinceText(from(node) - run.least)]);
  if (hasTimes() && !span && parent !== NONE) facts.push(["In its span", sinceText(from(node) - from(parent))]);
  if (wallText(call)) facts.push(["Clock", wallText(call)]);
  if (span) facts.push(["Events below", `${run.events[node].toLocaleString("en")}${run.errors[node] ? `, ${counted(run.errors[node], "error")}` : ""}`]);
  if (call[5] && threadNames.length > 1) facts.push(["Thread", call[5]]);
  if (current !== NONE) facts.push(["Current span", linkTo(current)]);
  if (call[9]) facts.push(["Target", call[9]]);
  const shownFields = fields.filter(([name]) => name !== "message" || span);
  return [...parts, table("Fields", shownFields), table("", facts)];
}

// The current span of an event, if that isn't its parent.
function currentOf(node, call) {
  if (call[7] === call[6] || call[7] === 0) return NONE;
  for (let before = node - 1; before >= 0; before--) if (isSpan(before) && run.id[before] === call[7]) return before;
  return NONE;
}

function linkTo(span) {
  const link = make("button", "crumb", cut(inRow(nameOf(span)), 80) || "(no name)");
  link.addEventListener("click", () => select(span));
  return link;
}

const whole100k = (text) => shown(text.slice(0, 1e5)) + (text.length > 1e5 ? `\n… ${counted(text.length - 1e5, "more character")}` : "");

function copyButton() {
  const button = make("button", "link", "Copy link");
  button.addEventListener("click", async () => {
    const fragment = fragmentOf(selected);
    try {
      await navigator.clipboard.writeText(location.href.replace(/#.*|$/, fragment));
      notify("Link copied");
    } catch {
      notify(fragment);
    }
  });
  return button;
}

function table(title, pairs) {
  const list = make("dl", title ? "facts fields-list" : "facts");
  for (const [name, value] of pairs) {
    const cell = make("dd");
    cell.append(value instanceof Node ? value : whole100k(value));
    list.append(make("dt", "", inRow(name)), cell);
  }
  list.hidden = !pairs.length;
  return list;
}

function notify(text) {
  const box = find("notice");
  box.textContent = text;
  box.classList.add("is-shown");
  clearTimeout(notify.timer);
  notify.timer = setTimeout(() => box.classList.remove("is-shown"), 2200);
}

function goToError(step) {
  const places = run.errorPlaces, here = selected === NONE ? -1 : run.place[selected];
  const kept = (place) => run.kept[run.order[place]];
  const ahead = step > 0 ? places.find((it) => it > here && kept(it)) ?? places.find(kept) : places.findLast((it) => it < here && kept(it)) ?? places.findLast(kept);
  if (ahead === undefined) return notify(places.length ? "The filters hide every error" : "No errors");
  select(run.order[ahead]);
  notify(`Error ${places.indexOf(ahead) + 1} of ${places.length}`);
}

