#!/usr/bin/env python3
"""Computes what the reading program must write for a drawing. It was written only from 'Rows and
their reader' and 'The reading program' in docs/reference/formats.md.

usage: model_rows.py [AMOUNT] < DRAWING      writes the lines of JSON and the fault line, and exits
                                             with the status, as the program does
"""
import collections, json, sys

import model

TextRow = collections.namedtuple("TextRow", "shape verbose level lines")
# The kind of row in model.py for each shape.
KINDS = {
    ("PreOpen", None): model.PRE_OPEN, ("OpenRoot", None): model.OPEN, ("Open", False): model.OPEN, ("Open", True): model.OPEN_VERBOSE,
    ("CloseRoot", None): model.CLOSE, ("Close", False): model.CLOSE, ("Close", True): model.CLOSE_VERBOSE,
    ("PostClose", None): model.POST_CLOSE, ("Event", None): model.EVENT,
}
ROOTS = {"┐": "OpenRoot", "┘": "CloseRoot"}
EDGES = {"└": ("┐", "Open", "PreOpen"), "┌": ("┘", "Close", "PostClose")}


def used(row):
    return row.level + (row.shape in ("PreOpen", "PostClose"))


def row_text(row, amount):
    """Returns the drawing of a row."""
    return "".join(f"{line}\n" for line in model.lined(KINDS[row.shape, row.verbose], used(row), amount, row.lines))


def rows_text(rows, amount):
    return "".join(row_text(it, amount) for it in rows)


def edge_row(first, spaces, rest, amount):
    """Returns the row of a line that opens or closes a span, or None."""
    corner, plain, shown = EDGES[first]
    text = rest.lstrip("─")
    dashes, half = len(rest) - len(text), amount // 2
    if not text.startswith(corner):
        return None
    if spaces % amount == 0 and dashes == amount - 1:
        return TextRow(plain, False, spaces // amount + 1, [text[1:]])
    if spaces % amount == 0 and dashes == max(half - 1, 0):
        return TextRow(shown, None, spaces // amount, [text[1:]])
    if spaces % amount == half and dashes == amount - 1 - half:
        return TextRow(plain, True, spaces // amount + 1, [text[1:]])
    return None


def is_later_line(line, row, amount):
    """Returns whether a line that starts with a bar continues the row before it."""
    width = used(row) * amount if row else 0
    shift = model.shift(KINDS[row.shape, row.verbose]) if row else 0
    return width > 0 and line.startswith(" " * (width - amount + shift) + "│" + " " * amount)


def read_line(line, row, amount):
    """Returns the row that a line starts. If the line continues `row`, returns `row` with the line
    appended. Returns None if the line is invalid."""
    rest = line.lstrip(" ")
    first, spaces = rest[:1], len(line) - len(rest)
    if first in ROOTS:
        return TextRow(ROOTS[first], None, 0, [rest[1:]]) if spaces == 0 else None
    if first in EDGES:
        return edge_row(first, spaces, rest[1:], amount)
    if first == "├":
        is_event = spaces % amount == 0 and len(rest[1:]) - len(rest[1:].lstrip("─")) >= amount - 1
        return TextRow("Event", None, spaces // amount + 1, [rest[amount:]]) if is_event else None
    if first == "│":
        return row._replace(lines=row.lines + [rest[1 + amount:]]) if is_later_line(line, row, amount) else None
    return TextRow("Event", None, 0, [line]) if first else None


def read_rows(source, amount):
    """Returns the rows up to a drawing's end or its first bad line, and the number of that line or
    None."""
    lines = source.split(b"\n")
    rows = []
    for number, line in enumerate(lines, 1):
        if number == len(lines):
            return rows, number if line else None
        try:
            row = read_line(line.decode(), rows[-1] if rows else None, amount)
        except UnicodeDecodeError:
            row = None
        if row is None:
            return rows, number
        if rows and row.shape == rows[-1].shape and len(row.lines) > 1:
            rows.pop()
        rows.append(row)
    return rows, None


def rows_json(rows):
    """Returns rows as lines of JSON. An event has the numbers of its ancestors' rows."""
    latest, text = {}, ""
    for place, row in enumerate(rows):
        value = {"shape": row.shape, "verbose": row.verbose, "level": row.level, "lines": row.lines}
        if row.verbose is None:
            del value["verbose"]
        if row.shape in ("OpenRoot", "Open"):
            latest[row.level] = place
        if row.shape == "Event":
            value["ancestors"] = [latest.get(level) for level in range(row.level)]
        text += json.dumps(value, ensure_ascii=False, separators=(",", ":")) + "\n"
    return text


def rows_of(text):
    """Returns the rows in lines of JSON, and the ancestors of each row."""
    values = [json.loads(it) for it in text.split("\n")[:-1]]
    return [TextRow(it["shape"], it.get("verbose"), it["level"], it["lines"]) for it in values], [it.get("ancestors") for it in values]


def ended(source, amount):
    """Returns the output, the standard error and the status."""
    rows, bad = read_rows(source, amount)
    told = f"line {bad}: not a row\n" if bad else ""
    return rows_json(rows).encode(), told.encode(), 1 if bad else 0


def main():
    out, err, status = ended(sys.stdin.buffer.read(), int(sys.argv[1]) if sys.argv[1:] else 2)
    sys.stdout.buffer.write(out)
    sys.stderr.buffer.write(err)
    return status


if __name__ == "__main__":
    sys.exit(main())
