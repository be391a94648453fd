// Strings as they are shown: invisible characters, and those that change the writing direction, are
// written by their code.

const UNSEEN = /[\u0000-\u0008\u000b-\u001f\u007f-\u009f\u061c\u200e\u200f\u2028-\u202e\u2066-\u2069\ufeff]/g;
const shown = (text) => text.replace(UNSEEN, (it) => `\\u{${it.charCodeAt(0).toString(16)}}`);
const cut = (text, most) => text.length > most ? `${text.slice(0, most)}…` : text;
const inRow = (text) => shown(text.slice(0, LONGEST)).replace(/\n/g, " ⏎ ") + (text.length > LONGEST ? " …" : "");

function fieldsOf(node, most = Infinity) {
  const call = callAt(run.at[node]), fields = [];
  for (let at = 10; at + 1 < call.length && fields.length < most; at += 2) fields.push([call[at], call[at + 1]]);
  for (const record of records.get(node) || []) {
    if (fields.length >= most) break;
    const more = callAt(record);
    for (let at = 2; at + 1 < more.length; at += 2) fields.push([more[at], more[at + 1]]);
  }
  return fields;
}

const nameOf = (node) => callAt(run.at[node])[8];

function messageOf(node) {
  const fields = fieldsOf(node, 40), messages = fields.filter(([name]) => name === "message").map(([, value]) => value);
  return messages.length ? messages.join(": ") : fields.map((it) => it.join("=")).join(" ");
}

// The nearest ancestors of a node, the outermost first.
function spansAround(node, most) {
  const path = [];
  for (let above = run.parent[node]; above !== NONE && path.length < most; above = run.parent[above]) path.push(above);
  return path.reverse();
}

function lengthText(ns) {
  const digits = (value) => value < 9.995 ? value.toFixed(2) : value < 99.95 ? value.toFixed(1) : value.toFixed(0);
  if (ns < 1e3) return `${Math.round(ns)} ns`;
  if (ns < 999.5e3) return `${digits(ns / 1e3)} µs`;
  if (ns < 999.5e6) return `${digits(ns / 1e6)} ms`;
  if (ns < 59.995e9) return `${digits(ns / 1e9)} s`;
  const seconds = Math.round(ns / 1e9), minutes = Math.floor(seconds / 60);
  return minutes < 60 ? `${minutes} m ${seconds % 60} s` : `${Math.floor(minutes / 60)} h ${minutes % 60} m`;
}

const sinceText = (ns) => `${ns < 0 ? "−" : "+"}${lengthText(Math.abs(ns))}`;

function tickText(ns, step) {
  if (ns === 0) return "0";
  if (ns >= 60e9 && step >= 1e9) return lengthText(ns);
  const [unit, size] = ns < 1e3 ? ["ns", 1] : ns < 1e6 ? ["µs", 1e3] : ns < 1e9 ? ["ms", 1e6] : ["s", 1e9];
  return `${(ns / size).toFixed(clamp(Math.ceil(Math.log10(size / step) - 1e-9), 0, 9))} ${unit}`;
}

function wallText(call) {
  let second = call[1] + call[3], nano = call[2] + call[4];
  if (nano >= 1e9) second++, nano -= 1e9;
  const date = new Date(second * 1000);
  if (isNaN(date) || second < CALENDAR) return ""; // no wall clock
  return date.toISOString().replace("T", " ").replace(/\.000Z$/, `.${String(nano).padStart(9, "0").replace(/(000)+$/, "") || "000"} UTC`);
}

