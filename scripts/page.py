#!/usr/bin/env python3
"""Compares the pages and the JSON lines of ttree with docs/reference/pages.md: page.py TTREE
DRAWING_PROGRAM

For each input, the page's bytes before and after the data must be those of viewer/build.py. Each
line of the data must be what viewer/pages.py writes for its values, without `<` and control
characters. Each line of --json must have the same values under its keys. Then the lines are
converted back to calls. The first program must draw for them what ttree draws for the input. In a
drawing, a line end in the name or a field of a span is `\\n`. In that of a trace, a span that has a
time and nothing in it is an event. The last line is 'program ttree's pages: N of M runs ended as
they must'."""

import json
import pathlib
import subprocess
import sys
import tempfile

from runs import Runs

TOP = pathlib.Path(__file__).resolve().parent.parent
sys.path.insert(0, str(TOP / "viewer"))
import build  # noqa: E402
import pages  # noqa: E402

LEVELS = ["trace", "debug", "info", "warn", "error"]
KINDS = ["about", "new", "record", "event", "close", "end"]
SETTINGS = {"indent_lines": True, "bracketed_fields": False, "span_retrace": True, "close_retrace": True}
HOSTILE = [
    "</xmp><script>alert(1)</script>", "</XMP >", "<!--", "]]>", "\u2028\u2029", "\x1b[31mred\x1b[0m", "a\0b", "\u202egnp.exe",
    "'\"`\\", "\\u003c", "é→𝄞\U0010ffff", "\r\n\t", "__proto__", "[5]\n</script>", "", "x" * 100_000,
    "".join(map(chr, range(256))),
]


def run(program, *args):
    done = subprocess.run([program, *args], stdout=subprocess.PIPE, stderr=subprocess.PIPE, check=False, timeout=300)
    return done.returncode, done.stdout, done.stderr


def pairs_of(strings):
    return list(zip(strings[::2], strings[1::2]))


def line_of(values):
    """Returns the page's line for these values, as viewer/pages.py writes it."""
    kind, *rest = values
    if kind == 0:
        return pages.about(rest[1])
    if kind == 5:
        return pages.end()
    if kind == 2:
        return pages.record(rest[0], pairs_of(rest[1:]))
    second, nano, ahead, ahead_nano, thread, *rest = rest
    mono = second * pages.SECOND + nano
    at = mono, mono + ahead * pages.SECOND + ahead_nano, thread
    if kind == 1:
        return pages.new(at, *rest[:4], pairs_of(rest[4:]))
    if kind == 3:
        return pages.event(at, *rest[:4], pairs_of(rest[4:]))
    return pages.close(at, rest[0])


def object_of(values):
    """Returns the keys and values of the object that --json writes for a line of the page."""
    kind, *rest = values
    pairs = [("step", KINDS[kind])]
    if kind == 0:
        return pairs + [("version", rest[0]), ("title", rest[1])]
    if kind == 5:
        return pairs
    if kind == 2:
        return pairs + [("id", rest[0]), ("fields", pairs_of(rest[1:]))]
    pairs += zip(("seconds", "nanos", "ahead_seconds", "ahead_nanos", "thread"), rest)
    rest = rest[5:]
    if kind == 4:
        return pairs + [("id", rest[0])]
    if kind == 3:
        return pairs + [("parent", rest[0]), ("current", rest[1]), ("level", LEVELS[rest[2]]), ("target", rest[3]), ("fields", pairs_of(rest[4:]))]
    return pairs + [*zip(("id", "parent", "name", "target"), rest), ("fields", pairs_of(rest[4:]))]


def calls_of(lines):
    """Yields the settings and calls that draw the lines of a page."""
    yield SETTINGS
    for kind, *rest in lines:
        if kind in (0, 5):
            continue
        if kind == 2:
            yield {"call": "record", "id": rest[0], "fields": pairs_of(rest[1:])}
            continue
        second, nano, ahead, ahead_nano, thread, *rest = rest
        mono = second * pages.SECOND + nano
        name = thread.partition(":")
        at = {"mono": mono, "wall": mono + ahead * pages.SECOND + ahead_nano, "thread": int(name[0])}
        at |= {"thread_name": name[2]} if name[1] else {}
        if kind == 1:
            above = {"parent": rest[1]} if rest[1] else {"parent": "root"}
            yield {"call": "new", "name": rest[2], "target": rest[3], "fields": pairs_of(rest[4:]), **above, **at}
        elif kind == 3:
            yield {"call": "event", "level": LEVELS[rest[2]].upper(), "target": rest[3], "fields": pairs_of(rest[4:]), **spans_of(*rest[:2]), **at}
        else:
            yield {"call": "close", "id": rest[0], **at}


def spans_of(parent, current):
    """Returns the members of an event's call for its parent and its current span. The parent is
    named if it is another span."""
    named = {"parent": parent or "root"} if parent != current else {}
    return {**named, **({"current": current} if current else {})}


def in_one_row(text):
    return text.replace("\n", "\\n")


def spans_in_one_row(calls):
    """Yields the settings and calls with `\\n` for each line end in a span's name and fields."""
    for call in calls:
        if call.get("call") in ("new", "record"):
            call = {**call, "fields": [tuple(map(in_one_row, it)) for it in call["fields"]]}
        if "name" in call:
            call = {**call, "name": in_one_row(call["name"])}
        yield call


def leaves_as_rows(calls):
    """Yields the settings and calls of a trace, with an event for each span that has a time and
    nothing in it."""
    settings, *calls = calls
    yield settings
    count, ids, is_drawn = 0, {}, False
    for call, after in zip(calls, calls[1:] + [{}]):
        if is_drawn:
            is_drawn = False
            continue
        kind = call["call"]
        if kind == "new":
            count += 1
            above = ids.get(call["parent"])
            if after.get("call") == "close" and after["id"] == count and [it[0] for it in call["fields"][:1]] == ["time"]:
                is_drawn = True
                at = {key: call[key] for key in ("mono", "wall", "thread", "thread_name") if key in call}
                current = {"current": above} if above else {}
                yield {"call": "event", "level": "INFO", "target": "", "fields": [("message", call["name"]), *call["fields"]], **current, **at}
                continue
            ids[count] = len(ids) + 1
            yield {**call, "parent": above or "root"}
        elif kind == "event":
            above = {key: ids[call[key]] for key in ("parent", "current") if call.get(key, "root") != "root"}
            yield {**call, **above}
        else:
            yield {**call, "id": ids[call["id"]]}


class Pages(Runs):
    def __init__(self, ttree, tree, room):
        super().__init__("program ttree's pages")
        self.ttree, self.tree, self.room = ttree, tree, pathlib.Path(room)

    def check(self, name, is_right, what=""):
        self.add(is_right, f"{self.name}: {name}: FAILED {str(what)[:500]}")

    def try_input(self, name, path, *options):
        """Checks the page, the JSON lines and the calls of an input."""
        lines, drawing = self.try_page(name, path, *options)
        is_trace = path.suffix == ".json" or "chrome" in options
        calls = list(calls_of(lines))
        self.try_drawing(name, spans_in_one_row(leaves_as_rows(calls) if is_trace else calls), drawing)

    def try_calls(self, name, path):
        """Checks the page and the JSON lines of settings and calls. Under the same settings, the
        calls of the page draw what the input draws."""
        lines, drawing = self.try_page(name, path)
        settings = json.loads(path.read_text(encoding="utf-8").partition("\n")[0])
        _, *calls = calls_of(lines)
        self.try_drawing(name, [settings, *calls], drawing)
        return lines

    def try_page(self, name, path, *options):
        """Checks the page and the JSON lines of an input. Returns the page's lines, and what the
        input draws."""
        status, drawing, said = run(self.ttree, *options, str(path))
        page_status, page, page_said = run(self.ttree, "--html", *options, str(path))
        self.check(f"{name}: status and messages are those of the drawing", (page_status, page_said) == (status, said), (status, page_status, said, page_said))
        head, tail = build.head().encode(), build.tail().encode()
        self.check(f"{name}: head", page.startswith(head))
        self.check(f"{name}: tail", page.endswith(b"[5]\n" + tail))
        data = page[len(head):-len(tail)]
        self.check(f"{name}: no `<` and no control character", not any(it == 0x3C or it < 32 and it != 10 for it in data))
        lines = [json.loads(it) for it in data.decode().split("\n")[:-1]]
        self.check(f"{name}: title", lines[0] == [0, 2, path.name], lines[0])
        self.check(f"{name}: lines are those of the format", b"".join(map(line_of, lines)) == data)
        self.try_json(name, path, options, lines)
        return lines, drawing

    def try_json(self, name, path, options, lines):
        _, data, _ = run(self.ttree, "--json", *options, str(path))
        self.check(f"{name}: --json has no control character", not any(it < 32 and it != 10 for it in data))
        said = [json.loads(it, object_pairs_hook=list) for it in data.decode().split("\n")[:-1]]
        want = [object_of(it) for it in lines]
        self.check(f"{name}: --json has the same values", said == want, next(((one, other) for one, other in zip(said, want) if one != other), (len(said), len(want))))

    def try_drawing(self, name, calls, drawing):
        path = self.room / "calls.jsonl"
        path.write_text("".join(json.dumps(it, ensure_ascii=False) + "\n" for it in calls), encoding="utf-8")
        status, drawn, said = self.draw(path)
        self.check(f"{name}: the page's calls draw the tree", (status, said) == (0, b"") and drawn == drawing, (status, said))

    def draw(self, calls):
        with open(calls, "rb") as file:
            done = subprocess.run([self.tree], stdin=file, stdout=subprocess.PIPE, stderr=subprocess.PIPE, check=False, timeout=300)
        return done.returncode, done.stdout, done.stderr


def write(path, text):
    path.write_bytes(text.encode("utf-8", "surrogatepass"))
    return path


def calls_with_parents():
    """Yields settings and calls with events whose parent isn't the current span. The last two
    events come after the close of a span that they name."""
    yield SETTINGS
    for name, above in (("root", {}), ("first", {"current": 1}), ("second", {"current": 1})):
        yield {"call": "new", "name": name, **above}
    event = {"call": "event", "level": "INFO"}
    for spans in ({"current": 2}, {"parent": 3, "current": 2}, {"parent": "root", "current": 2}, {"parent": 3}, {"parent": "root"}):
        yield {**event, **spans}
    yield {"call": "new", "name": "gone", "parent": "root"}
    yield {"call": "close", "id": 4}
    for spans in ({"parent": 4, "current": 2}, {"parent": 3, "current": 4}):
        yield {**event, **spans}


def hostile_tracing():
    for number, text in enumerate(HOSTILE):
        span = {"name": text, "number": number, "text": text}
        base = {"timestamp": f"2026-11-24T10:00:{number:02}.000000Z", "target": text}
        yield {**base, "level": "INFO", "fields": {"message": "new"}, "span": span, "spans": []}
        yield {**base, "level": "WARN", "fields": {"message": text, text or "empty": text}, "span": span, "spans": [span]}


def hostile_go():
    for text in HOSTILE:
        yield {"Action": "output", "Package": text, "Test": text, "Output": text + "\n"}
        yield {"Action": "fail", "Package": text, "Test": text}


def hostile_trace():
    return {"traceEvents": [{"ph": "X", "ts": 10 * at, "dur": 5, "pid": 1, "tid": 1, "name": text, "args": {text: text}} for at, text in enumerate(HOSTILE)]}


def try_all(runs):
    examples = TOP / "examples"
    for name in ("go-test.jsonl", "go-fail.jsonl", "go-std.jsonl", "tracing.jsonl", "tracing-flat.jsonl", "tracing-full.jsonl", "tracing-plain.jsonl", "clang-trace.json", "uftrace.json"):
        runs.try_input(name, examples / name)
    runs.try_input("only what failed", examples / "go-test.jsonl", "--failed")
    runs.try_input("no short spans", examples / "clang-trace.json", "--min", "1ms")
    runs.try_input("two levels", examples / "uftrace.json", "--depth", "2")
    for name, text in (("tracing", hostile_tracing()), ("go-test", hostile_go()), ("chrome", [hostile_trace()])):
        path = write(runs.room / f"hostile-{name}", "".join(json.dumps(it) + "\n" for it in text))
        runs.try_input(f"hostile {name}", path, "--from", name)
    runs.try_input("nothing", write(runs.room / "nothing", ""))
    for name in ("first.jsonl", "server.jsonl"):
        runs.try_calls(name, examples / name)
    path = write(runs.room / "parents", "".join(json.dumps(it) + "\n" for it in calls_with_parents()))
    spans = [it[6:8] for it in runs.try_calls("parents", path) if it[0] == 3]
    runs.check("parents: each event has its parent and its current span", spans == [[2, 2], [3, 2], [0, 2], [3, 0], [0, 0], [0, 2], [3, 0]], spans)


def try_messages(runs):
    path = str(TOP / "examples/go-fail.jsonl")
    for name, words, status, said in (
        ("both forms", ("--html", "--json", path), 2, b"cannot be used with '--json'"),
        ("no file", ("--html", "/nowhere"), 2, b"ttree: /nowhere: "),
        ("several files", ("--html", path, path), 2, b"cannot be used with several files"),
        ("an option of drawings", ("--html", "--times", path), 2, b"--times has no meaning for --html and --json"),
        ("a width", ("--json", "--width", "9", path), 2, b"--width has no meaning for --html and --json"),
        ("a title of a drawing", ("--title", "x", path), 2, b"--title has no meaning for a drawing"),
    ):
        found, out, err = run(runs.ttree, *words)
        runs.check(name, found == status and said in err and not out, (found, err))
    _, page, _ = run(runs.ttree, "--html", "--title", "a </title> \x1b", path)
    runs.check("--title", b'[0,2,"a \\u003c/title> \\u001b"]\n' in page)
    with open(path, "rb") as file:
        done = subprocess.run([runs.ttree, "--html"], stdin=file, stdout=subprocess.PIPE, stderr=subprocess.DEVNULL, check=False)
    runs.check("standard input", b'[0,2,"ttree"]\n' in done.stdout)
    _, page, _ = run(runs.ttree, "--html", "--level", "error", str(TOP / "examples/tracing.jsonl"))
    lines = [json.loads(it) for it in page[len(build.head().encode()):].split(b"\n") if it.startswith(b"[")]
    runs.check("--level", {it[8] for it in lines if it[0] == 3} <= {4} and any(it[0] == 1 for it in lines))


def main():
    args = sys.argv[1:]
    with tempfile.TemporaryDirectory() as room:
        runs = Pages(*(str(pathlib.Path(it).resolve()) for it in args), room)
        try_all(runs)
        try_messages(runs)
    return runs.end()


if __name__ == "__main__":
    sys.exit(main())
