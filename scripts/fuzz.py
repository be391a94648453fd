#!/usr/bin/env python3
"""Runs the programs on random inputs and compares them with scripts/model.py and
scripts/model_rows.py. Those were written only from the docs.

usage: fuzz.py [--lines N] [--calls N] [--drawings N] [--sizes N] [--seed S] [--checked]
               DRAWING_PROGRAM READING_PROGRAM

There are four kinds of runs:

- --lines: lines of calls, with some lines changed by byte, token, member or as a whole.
- --calls: unchanged calls, under all settings.
- --sizes: inputs with one quantity of a given size, up to this one.
- --drawings: lines of drawings, with some changed.

The output, the standard error and the status of each run must be those of the model, within a time
limit. The rows that the reading program writes, drawn again, must be the drawing up to its first
bad line. A run that fails is written below bin/fuzz as a worked case and can be run again. Each
seed gives the same runs. --checked says that the programs were compiled with checks of memory, so
rows that never fit in memory are left out. The last line is 'fuzz: N of M runs ended as they must'.
"""
import argparse, os, random, subprocess, sys, time

import model, model_rows, random_calls, sizes

TOP = os.path.dirname(os.path.dirname(os.path.abspath(__file__)))
SECONDS = 60
RETRACING = {"span_retrace": True, "deferred_spans": True, "close_retrace": True}


def run(words, source):
    """Returns a program's output, its standard error and its status."""
    try:
        done = subprocess.run(words, input=source, capture_output=True, timeout=SECONDS, check=False)
        return done.stdout, done.stderr, done.returncode
    except subprocess.TimeoutExpired:
        return b"", f"no end within {SECONDS} seconds\n".encode(), -1


def shrunk(source, is_wrong):
    """Returns a failing input without the lines that it doesn't need to fail. Makes at most 400
    runs."""
    lines, left = source.split(b"\n"), 400
    part = len(lines) // 2
    while part and left > 0:
        at = 0
        while at < len(lines) and left > 0:
            fewer, left = lines[:at] + lines[at + part:], left - 1
            if is_wrong(b"\n".join(fewer)):
                lines = fewer
            else:
                at += part
        part //= 2
    return b"\n".join(lines)


class Tally:
    """The number of runs so far, and of those that ended differently than the model says."""

    def __init__(self, seed):
        self.seed, self.runs, self.wrong, self.start = seed, 0, 0, time.time()

    def compare(self, name, words, source, evaluate, wanted=None):
        """Runs a program and compares it with `wanted` or with what `evaluate` returns for its
        input. Returns the output, or None if they differ."""
        self.runs += 1
        ended = run(words, source)
        if ended == (wanted or evaluate(source)):
            return ended[0]
        if self.wrong < 20 and ended[2] != -1:
            source = shrunk(source, lambda it: evaluate(it) not in (None, run(words, it)))
        self.fail(name, words, source, evaluate(source), run(words, source))
        return None

    def fail(self, name, words, source, wanted, ended):
        """Writes a failing input as a worked case."""
        self.wrong += 1
        path = f"{TOP}/bin/fuzz/{name}_{self.seed}_{self.runs}"
        os.makedirs(os.path.dirname(path), exist_ok=True)
        for ending, what in (("in", source), ("out", wanted[0]), ("err", wanted[1]), ("status", b"%d\n" % wanted[2])):
            with open(f"{path}.{ending}", "wb") as file:
                file.write(what)
        at = os.path.commonprefix([wanted[0], ended[0]])
        print(f"fuzz: FAILED: {' '.join(words)} < {os.path.relpath(path, TOP)}.in: status {ended[2]} and not {wanted[2]}, standard error"
              f" {ended[1][:200]!r} and not {wanted[1]!r}, output alike for {len(at)} bytes of {len(ended[0])} and {len(wanted[0])}",
              flush=True)

    def say(self, name, text):
        print(f"fuzz: {name}: {text}, seed {self.seed}, {time.time() - self.start:.1f} s", flush=True)
        self.start = time.time()


# ---- lines and calls

def drawn_of(source):
    """Returns the model's result for an input of the program that draws. Returns None if it depends
    on the machine's memory whether a row can be drawn."""
    try:
        return model.run_of(source).ended()
    except model.Unsure:
        return None


def is_spelled(line, is_first):
    """Returns whether a line encodes settings or a call, or is skipped."""
    try:
        (model.Settings if is_first else model.Call)(model.read_object(line))
    except model.Unspelled:
        return not is_first and not line.strip(b" \t\r")
    return True


class Input:
    """An input that is made line by line, and the model's run of it."""

    def __init__(self, rng, is_wide, share):
        self.rng, self.share = rng, share
        self.run, self.lines, self.is_open = model.Run(), [], True
        self.put(self.turned(random_calls.line(rng, random_calls.settings(rng, is_wide)), 0.3))
        self.calls = random_calls.Calls(rng, self.run.tree) if self.is_open else None

    def put(self, source):
        """Appends lines, up to the first that ends the run."""
        for line in source.split(b"\n"):
            if not self.is_open:
                return
            try:
                self.is_open = self.run.take(line)
            except model.Unsure:
                self.is_open = False
                return
            self.lines.append(line)

    def turned(self, line, share):
        """Returns the line, or a changed one in this share of the calls. Most changes that end the
        run are dropped, so that runs get longer."""
        if self.rng.random() >= share * (self.share > 0):
            return line
        changed = random_calls.changed(self.rng, line)
        is_first = not self.lines
        is_good = all(is_spelled(it, is_first and place == 0) for place, it in enumerate(changed.split(b"\n")))
        return changed if is_good or self.rng.random() < (0.3 if is_first else 0.1) else line

    def grow(self, count):
        while self.is_open and len(self.lines) < count:
            self.put(self.turned(random_calls.line(self.rng, self.calls.next()), self.share))

    def end(self):
        """Returns the input. May first append a call that is refused, and, after a fault, lines
        that aren't read."""
        rng = self.rng
        if self.is_open and rng.random() < 0.3:
            self.put(random_calls.line(rng, self.calls.refused()))
        if self.run.fault:
            self.lines += [b'{"call":"new","name":"after"}', b"}", b""][:rng.randrange(4)]
        ends = bool(self.lines) and (rng.random() < 0.9 or not self.lines[-1])
        return b"\n".join(self.lines) + b"\n" * ends


def fuzz_lines(tally, program, count, is_wide, share):
    """Runs calls, `count` lines in total. Changes about this share of the lines."""
    name = "lines" if share else "calls"
    rng, lines, runs, faults = random.Random(f"{name} {tally.seed}"), 0, 0, {}
    while lines < count:
        made = Input(rng, is_wide, share)
        made.grow(int(2 ** rng.uniform(0, 10.5)))
        source = made.end()
        tally.compare(name, [program], source, drawn_of, made.run.ended())
        runs, lines = runs + 1, lines + len(made.lines)
        fault = (made.run.fault or "none").rstrip("0123456789 ")
        faults[fault] = faults.get(fault, 0) + 1
    tally.say(name, f"{lines} lines in {runs} runs, faults {faults}")


def sized_inputs(rng, most):
    """Returns inputs with one quantity of a given size, for sizes up to `most`. The settings
    are random, and in half of the inputs retracing is on too."""
    for size in sizes.sizes(most):
        yield from sizes.of_lines(size)
        for quantity, largest in sizes.QUANTITIES.items():
            asked = random_calls.settings(rng, False) | ({} if rng.random() < 0.5 else RETRACING)
            asked["indent_amount"] = min(asked.get("indent_amount", 2), 8)
            if size <= largest:
                yield sizes.lines(asked, quantity(size))


def fuzz_sizes(tally, program, reader, most):
    """Runs quantities at sizes up to `most`. Also reads back each drawing without ANSI styles that
    is shorter than 4 MiB, valid or not."""
    runs, drawn = tally.runs, 0
    for lines in sized_inputs(random.Random(f"sizes {tally.seed}"), most):
        source = b"\n".join(lines) + b"\n"
        out = tally.compare("sizes", [program], source, drawn_of)
        if out and len(out) < 2**22 and b"ansi" not in lines[0]:
            tally.compare("sizes_read", [reader], out, lambda it: model_rows.ended(it, 2))
            drawn += 1
    tally.say("sizes", f"{tally.runs - runs} runs of sizes up to {most}, {drawn} of them read a drawing")


# ---- drawings

LINE_PIECES = (
    "┐", "┘", "└", "┌", "├", "│", "─", "──", "───", " ", "  ", "    ", "a", "x y", "\r", "\t", "\u00a0", "└─┐b", "├─ INFO x", "┌─┘", "└┐",
    " ┌┘", "│  ")


def random_row(rng):
    shape, verbose = rng.choice(list(model_rows.KINDS))
    is_root = shape in ("OpenRoot", "CloseRoot")
    level = 0 if is_root else rng.choice((1, 1, 2, 3, 5, 9))
    if shape in ("PreOpen", "PostClose", "Event") and rng.random() < 0.2:
        level = 0
    is_one = is_root or (shape == "Event" and level == 0)
    lines = ["".join(rng.choice(LINE_PIECES) for _ in range(rng.randrange(4))) for _ in range(1 if is_one else rng.choice((1, 1, 1, 2, 3)))]
    return model_rows.TextRow(shape, verbose, level, [f"x{lines[0]}"] if shape == "Event" and level == 0 else lines)


def drawn_run(rng, amount):
    """Returns the drawing of a run under settings without prefixes and wrap marks."""
    settings = random_calls.settings(rng) | {"indent_lines": True, "indent_amount": amount}
    for name in ("wraparound", "thread_ids", "thread_names"):
        settings.pop(name, None)
    run = model.Run()
    run.take(random_calls.line(rng, settings))
    calls = random_calls.Calls(rng, run.tree)
    for _ in range(rng.choice((3, 20, 200))):
        run.take(random_calls.line(rng, calls.next()))
    return run.ended()[0].decode()


def changed_drawing(rng, text):
    """Returns a drawing with changed characters and lines, as bytes."""
    for _ in range(rng.choice((0, 1, 1, 2, 4))):
        at, end = sorted((rng.randrange(len(text) + 1), rng.randrange(len(text) + 1)))
        kind = rng.randrange(5)
        if kind == 0:
            text = text[:at] + rng.choice(LINE_PIECES) + text[at:]
        elif kind == 1:
            text = text[:at] + text[at + rng.choice((1, 1, 2, 7)):]
        elif kind == 2:
            text = text[:at] + rng.choice(LINE_PIECES) + text[at + 1:]
        elif kind == 3:
            text = text[:at] + text[at:end][:200] + text[at:]
        else:
            lines = text.split("\n")
            lines[rng.randrange(len(lines))] = "".join(rng.choice(LINE_PIECES) for _ in range(rng.randrange(6)))
            text = "\n".join(lines)
    source = text.encode()
    if rng.random() < 0.05:
        source = random_calls.change_bytes(rng, source)
    return source[:-1] if rng.random() < 0.02 else source


def is_law_kept(source, out, amount):
    """Returns whether the rows in `out`, drawn again, are `source` up to its first bad line. Also
    checks the ancestors of each event in the first 50 rows."""
    _, bad = model_rows.read_rows(source, amount)
    before = source if bad is None else b"".join(it + b"\n" for it in source.split(b"\n")[:bad - 1])
    rows, ancestors = model_rows.rows_of(out.decode())
    above = [[max((place for place, it in enumerate(rows[:at]) if it.shape in ("OpenRoot", "Open") and it.level == level), default=None)
              for level in range(row.level)] if row.shape == "Event" else None for at, row in enumerate(rows[:50])]
    return model_rows.rows_text(rows, amount).encode() == before and above == ancestors[:50]


def fuzz_drawings(tally, program, count):
    """Runs drawings, `count` lines in total."""
    rng, lines, bad, laws = random.Random(f"drawings {tally.seed}"), 0, 0, 0
    while lines < count:
        amount = rng.choice((2, 2, 2, 3, 4, 5, 8))
        rows = [random_row(rng) for _ in range(rng.randrange(30))]
        text = drawn_run(rng, amount) if rng.random() < 0.5 else model_rows.rows_text(rows, amount)
        source = changed_drawing(rng, text)
        read = amount if rng.random() < 0.95 else rng.choice((2, 3, 300, 2**64 - 1))
        wanted = model_rows.ended(source, read)
        words = [program] + ([] if read == 2 and rng.random() < 0.5 else ["--amount", str(read)])
        out = tally.compare("drawings", words, source, lambda it: model_rows.ended(it, read), wanted)
        if out is not None and read < 2**20 and not is_law_kept(source, out, read):
            tally.fail("law", words, source, wanted, (out, b"its rows drawn again are another text", 0))
        lines, bad, laws = lines + source.count(b"\n"), bad + wanted[2], laws + 1
    tally.say("drawings", f"{lines} lines in {laws} texts, {bad} of them with a bad line")


def main():
    asked = argparse.ArgumentParser(description=__doc__, formatter_class=argparse.RawDescriptionHelpFormatter)
    for name, count in (("--lines", 1_000_000), ("--calls", 300_000), ("--drawings", 300_000), ("--sizes", 2**14 + 1), ("--seed", 1)):
        asked.add_argument(name, type=int, default=count)
    asked.add_argument("--checked", action="store_true")
    asked.add_argument("drawing_program")
    asked.add_argument("reading_program")
    asked = asked.parse_args()
    tally = Tally(asked.seed)
    program, reader = os.path.abspath(asked.drawing_program), os.path.abspath(asked.reading_program)
    fuzz_lines(tally, program, asked.lines, not asked.checked, 0.3)
    fuzz_lines(tally, program, asked.calls, not asked.checked, 0.0)
    fuzz_sizes(tally, program, reader, asked.sizes)
    fuzz_drawings(tally, reader, asked.drawings)
    print(f"fuzz: {tally.runs - tally.wrong} of {tally.runs} runs ended as they must")
    return 1 if tally.wrong else 0


if __name__ == "__main__":
    sys.exit(main())
