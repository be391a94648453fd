#!/usr/bin/env python3
"""Checks the ancestors of tracing's events: tracing_paths.py TTREE TRACING_TREE_READ FILE..

Draws each file with TTREE, reads the drawing back with TRACING_TREE_READ, and compares the
ancestors of each event with the spans that its line lists. Prints how many events were right, and
how many there are. The status is 1 if one was wrong."""
import json, subprocess, sys

# The keys of a line that aren't fields of its event.
LINE_KEYS = {"timestamp", "level", "target", "filename", "line_number", "span", "spans", "threadId", "threadName"}


def shown(value):
    """Returns a JSON value as `ttree` draws it."""
    if isinstance(value, str):
        return value
    if isinstance(value, (list, dict)):
        return "[..]" if isinstance(value, list) else "{..}"
    return json.dumps(value)


def entry(span):
    """Returns the name of a span and its fields, as a drawing has them."""
    return span.get("name", ""), {f"{key}={shown(value)}" for key, value in span.items() if key != "name"}


def fields_of(line):
    """Returns the fields of a line's event."""
    return line.get("fields", {key: value for key, value in line.items() if key not in LINE_KEYS})


def is_span_event(line):
    """Returns whether a line reports a span's life, and draws no event."""
    fields = fields_of(line)
    spans = line.get("spans")
    if spans is None or list(fields) != ["message"]:
        return False
    if fields["message"] == "enter":
        return True
    is_current = bool(spans) and line.get("span") == spans[-1]
    return fields["message"] in ("new", "exit", "close") and not is_current


def is_close(line):
    """Returns whether a line reports a span's close with its times."""
    fields = fields_of(line)
    return fields.get("message") == "close" and "time.busy" in fields


def wanted(path):
    """Yields the ancestors of each line's event, or None if the line doesn't determine them."""
    for text in open(path, encoding="utf-8"):
        line = json.loads(text)
        if is_span_event(line):
            continue
        spans = [entry(span) for span in line.get("spans", [])]
        if is_close(line):
            yield spans + [entry(line["span"])] if "span" in line and spans else None
        else:
            yield spans


def found(ttree, read, path):
    """Returns the ancestors of each event of the drawing: the strings of their rows."""
    drawn = subprocess.run([ttree, path], capture_output=True, check=False).stdout
    rows = [json.loads(row) for row in subprocess.run([read], input=drawn, capture_output=True, check=True).stdout.splitlines()]
    for row in rows:
        if row["shape"] == "Event":
            yield [rows[place]["lines"][0] if place is not None else None for place in row["ancestors"]]


def is_same(rows, spans):
    """Returns whether these rows show these spans. A field that was recorded later may be
    missing."""
    if len(rows) != len(spans):
        return False
    for row, (name, fields) in zip(rows, spans):
        if row is None or not row.startswith(f"{name} "):
            return False
        text = row[len(name) + 1 :]
        if text and not set(text.split(", ")) <= fields:
            return False
    return True


def main():
    ttree, read, *paths = sys.argv[1:]
    right = events = 0
    for path in paths:
        drawn, lines = list(found(ttree, read, path)), list(wanted(path))
        events += max(len(drawn), len(lines))
        good = [spans is None or is_same(rows, spans) for rows, spans in zip(drawn, lines)]
        right += sum(good)
        if not all(good) or len(drawn) != len(lines):
            print(f"{path}: {sum(good)} of {len(lines)} lines' events, {len(drawn)} drawn, first wrong {good.index(False) if False in good else None}")
    print(f"tracing paths: {right} of {events} events are under the spans of their lines")
    return 0 if right == events else 1


if __name__ == "__main__":
    sys.exit(main())
