"""Looks for drawings whose events don't have their ancestors in the rows above them.

usage: reading_law.py PROGRAM [RUNS [CALLS [SEED]]]

Each run is an input of random calls with retracing on. The program draws it, and a reader that
knows nothing of the layer reads the drawing. For each event, the last open row of each lower
level must be that of the event's ancestor at that level. The event's message has the path, which
this script computed.
"""
import json
import random
import subprocess
import sys


class Spans:
    """The live spans, each with its parent, name and handles."""

    def __init__(self):
        self.live = {}
        self.next = 1

    def path(self, span):
        path = []
        while span is not None:
            path.append(self.live[span]["name"])
            span = self.live[span]["parent"]
        return path[::-1]

    def make(self, parent):
        self.live[self.next] = {"parent": parent, "name": f"s{self.next}", "handles": 1}
        self.next += 1

    def close(self, span):
        self.live[span]["handles"] -= 1
        while span is not None:
            kept = self.live[span]["handles"] or any(s["parent"] == span for s in self.live.values())
            if kept:
                return
            span = self.live.pop(span)["parent"]


def settings(rng):
    retrace, deferred = rng.choice([(True, False), (False, True), (True, True)])
    return {
        "indent_lines": True,
        "indent_amount": rng.choice([2, 2, 3, 4]),
        "span_retrace": retrace,
        "deferred_spans": deferred,
        "close_retrace": True,
        "verbose_entry": rng.random() < 0.3,
        "verbose_exit": rng.random() < 0.3,
    }


def calls(rng, spans, count):
    lines = []
    for _ in range(count):
        live = list(spans.live)
        held = [span for span in live if spans.live[span]["handles"]]
        word = rng.choice(["new", "new", "event", "event", "event", "close", "close", "clone"])
        if word == "new" or not live:
            parent = rng.choice(live + [None])
            call = {"call": "new", "name": f"s{spans.next}", "parent": parent or "root"}
            spans.make(parent)
        elif word == "event":
            current = rng.choice(live)
            message = "/".join(spans.path(current))
            call = {"call": "event", "level": "INFO", "fields": [["message", message]], "current": current}
        elif word == "clone":
            span = rng.choice(live)
            spans.live[span]["handles"] += 1
            call = {"call": "clone", "id": span}
        elif held:
            span = rng.choice(held)
            spans.close(span)
            call = {"call": "close", "id": span}
        else:
            continue
        lines.append(json.dumps(call))
    return lines


def opened(line, amount):
    """Returns the level and the name of an open row, or None for another line."""
    half = amount // 2
    text = line.lstrip(" ")
    spaces = len(line) - len(text)
    if text.startswith("┐"):
        return (0, text[1:].strip()) if spaces == 0 else None
    if not text.startswith("└"):
        return None
    dashes = len(text[1:]) - len(text[1:].lstrip("─"))
    rest = text[1 + dashes:]
    if not rest.startswith("┐"):
        return None
    plain = spaces % amount == 0 and dashes == amount - 1
    verbose = spaces % amount == half and dashes == amount - 1 - half
    return (spaces // amount + 1, rest[1:].strip()) if plain or verbose else None


def check(text, amount):
    """Returns the first event whose ancestors aren't the last open rows before it, or None, and the
    number of events up to there."""
    latest, events = {}, 0
    for line in text.split("\n"):
        row = opened(line, amount)
        if row:
            latest[row[0]] = row[1]
        elif " INFO s" in line:
            events += 1
            path = line.split(" INFO ")[1].split("/")
            if [latest.get(level) for level in range(len(path))] != path:
                return line, events
    return None, events


def main():
    program = sys.argv[1]
    runs, count, seed = (int(word) for word in (sys.argv[2:] + ["10000", "50", "1"][len(sys.argv) - 2:]))
    events = 0
    for run in range(runs):
        rng = random.Random(seed * 1_000_003 + run)
        asked = settings(rng)
        source = "\n".join([json.dumps(asked)] + calls(rng, Spans(), count)) + "\n"
        done = subprocess.run([program], input=source, capture_output=True, text=True)
        bad, found = check(done.stdout, asked["indent_amount"])
        events += found
        if bad is not None or done.returncode:
            print(source, done.stdout, done.stderr, sep="\n")
            sys.exit(f"run {run}: {bad!r}")
    print(f"{runs} runs of {count} calls, {events} events: each finds its ancestors")


if __name__ == "__main__":
    main()
