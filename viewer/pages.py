"""Writes pages as docs/reference/pages.md says, from calls that are dictionaries. The tests compare
with it, so it shares no code with the program."""

import json
import re

import build

LEVELS = {"TRACE": 0, "DEBUG": 1, "INFO": 2, "WARN": 3, "ERROR": 4}
SECOND = 10**9


def quoted(text):
    return b'"' + b"".join(map(escaped, text.encode())) + b'"'


def escaped(byte):
    if byte in b'"\\':
        return b"\\" + bytes([byte])
    if byte < 0x20 or byte == 0x3C:
        return b"\\u00%02x" % byte
    return bytes([byte])


TABLE = [escaped(it) for it in range(256)]
SPECIAL = re.compile(rb'[\x00-\x1f"\\<]')


def quick(text):
    """Like `quoted`, but faster."""
    data = text.encode()
    return b'"' + (data if not SPECIAL.search(data) else b"".join([TABLE[it] for it in data])) + b'"'


def number(value):
    return b"%d" % value


def moment(mono, wall, thread):
    ahead = wall - mono
    times = [mono // SECOND, mono % SECOND, ahead // SECOND, ahead % SECOND]
    return [*map(number, times), quick(thread)]


def line(kind, *parts):
    return b"[" + b",".join([number(kind), *parts]) + b"]\n"


def strings(fields):
    return [quick(text) for field in fields for text in field]


def about(title):
    return line(0, b"2", quick(title))


def end():
    return line(5)


def new(at, span, parent, name, target, fields):
    return line(1, *moment(*at), number(span), number(parent), quick(name), quick(target), *strings(fields))


def record(span, fields):
    return line(2, number(span), *strings(fields))


def event(at, parent, current, level, target, fields):
    return line(3, *moment(*at), number(parent), number(current), number(level), quick(target), *strings(fields))


def close(at, span):
    return line(4, *moment(*at), number(span))


class Calls:
    """Writes the lines of calls. `live` has the parent, handles and children of each live span."""

    def __init__(self, write):
        self.write, self.next, self.live = write, 1, {}

    def take(self, call):
        name = ":" + call["thread_name"] if "thread_name" in call else ""
        at = call.get("mono", 0), call.get("wall", 0), f"{call.get('thread', 1)}{name}"
        kind, fields = call["call"], call.get("fields") or []
        if kind == "new":
            parent = self.parent_of(call)
            span, self.next = self.next, self.next + 1
            self.live[span] = [parent, 1, 0]
            if parent:
                self.live[parent][2] += 1
            self.write(new(at, span, parent, call["name"], call.get("target", ""), fields))
        elif kind == "event":
            parent = self.parent_of(call)
            parent, current = (it if it in self.live else 0 for it in (parent, call.get("current")))
            self.write(event(at, parent, current, LEVELS[call["level"]], call.get("target", ""), fields))
        elif kind == "record" and call["id"] in self.live:
            self.write(record(call["id"], fields))
        elif kind == "clone":
            self.live[call["id"]][1] += 1
        elif kind == "close":
            self.close(at, call["id"])

    def close(self, at, span):
        self.live[span][1] -= 1
        while span and self.live[span][1:] == [0, 0]:
            parent = self.live.pop(span)[0]
            self.write(close(at, span))
            if parent:
                self.live[parent][2] -= 1
            span = parent

    def parent_of(self, call):
        parent = call.get("parent", "current")
        if parent == "root":
            return 0
        return call.get("current") or 0 if parent == "current" else parent


def take_lines(text, take):
    """Makes the calls in lines of settings and calls."""
    for it in text.split("\n")[1:]:
        if it.strip():
            take(json.loads(it))


def write_page(out, title, calls):
    """Writes a page. `calls` is passed a function that it calls with each call."""
    out.write(build.head().encode())
    out.write(about(title))
    calls(Calls(out.write).take)
    out.write(end() + build.tail().encode())
