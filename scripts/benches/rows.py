"""Times the reading of drawings. TIMING_PROGRAM reads each drawing five times and prints the best
time. The drawings are of spans nested five deep, of ten times as many (linear if the rate is the
same), of rows a thousand levels deep, and of lines with a million columns.
"""
import json
import subprocess


def nested(rounds):
    """Yields settings and calls: spans nested five deep, an event in the lowest, and their
    closes."""
    yield {"indent_lines": True}
    first = 1
    for _ in range(rounds):
        for depth in range(5):
            yield {"call": "new", "name": "span", "fields": [["key", "1"]], "current": first + depth - 1 if depth else None}
        yield {"call": "event", "level": "INFO", "fields": [["message", "something happened"], ["n", "12"]], "current": first + 4}
        for depth in reversed(range(5)):
            yield {"call": "close", "id": first + depth}
        first += 5


def drawn(program, calls):
    lines = "".join(json.dumps(call, separators=(",", ":")) + "\n" for call in calls)
    return subprocess.run([program], input=lines.encode(), stdout=subprocess.PIPE, check=True).stdout


def deep(events):
    opened = "┐a\n" + "".join("  " * (depth - 1) + "└─┐a\n" for depth in range(1, 1000))
    return (opened + ("  " * 999 + "├─x\n") * events).encode()


def main(drawing, timing):
    for name, text in (
        ("nested, 10^5 lines", drawn(drawing, nested(10_000))),
        ("nested, 10^6 lines", drawn(drawing, nested(100_000))),
        ("1,000 levels deep", deep(5_000)),
        ("lines of 10^6 columns", (" " * 1_000_000 + "├─x\n").encode() * 50),
    ):
        print(f"{name}, {len(text) / 1e6:.1f} MB:", flush=True)
        print(subprocess.run([timing, "reading"], input=text, stdout=subprocess.PIPE, check=True).stdout.decode(), end="", flush=True)
