"""Times the program on generated inputs, which are the same each time. Prints for each input the
calls per second, the output in MB per second, the peak memory, and how much longer ten times as
many calls took (10 is linear). Then prints the cost of a call among many live spans. Asserts
nothing. The smallest peak that can be shown is Python's own, about 14 MiB.
"""
import itertools
import json
import os
import subprocess
import tempfile
import time

LINES = {"indent_lines": True}
EVERYTHING = {
    "indent_lines": True, "ansi": True, "targets": True, "span_modes": True, "verbose_entry": True, "verbose_exit": True,
    "bracketed_fields": True, "wraparound": 8,
}


def new(name, current=None):
    return {"call": "new", "name": name, "target": "bench", "fields": [["key", "1"]], "current": current}


def event(current):
    return {"call": "event", "level": "INFO", "target": "bench", "fields": [["message", "something happened"], ["n", "12"]],
            "current": current}


def close(i):
    return {"call": "close", "id": i}


def nested(calls):
    """Yields rounds of eleven calls: five nested spans, an event in the lowest, and five closes."""
    first = 1
    for _ in range(calls // 11):
        for depth in range(5):
            yield new("span", first + depth - 1 if depth else None)
        yield event(first + 4)
        for depth in reversed(range(5)):
            yield close(first + depth)
        first += 5


def chain(spans):
    """Yields nested spans whose handles are dropped from the root down. All close with the last
    one."""
    for i in range(1, spans + 1):
        yield new("span", i - 1 if i > 1 else None)
    for i in range(1, spans + 1):
        yield close(i)


def roots(spans):
    """Yields roots that are all live at once and close in the order of their creation."""
    for _ in range(spans):
        yield new("span")
    for i in range(1, spans + 1):
        yield close(i)


def opened(spans):
    """Yields roots that are all live at once."""
    for _ in range(spans):
        yield new("span")


def spread(spans, calls):
    """Yields clones and records in turn, spread over the spans."""
    for n in range(calls):
        i = n * 7919 % spans + 1
        if n % 2 == 0:
            yield {"call": "clone", "id": i}
        else:
            yield {"call": "record", "id": i, "fields": [["k", "v"]]}


def oldest(calls):
    """Yields closes, each of the oldest span."""
    for i in range(1, calls + 1):
        yield close(i)


def write(file, settings, calls):
    """Writes an input. Returns how many calls it has."""
    count = 0
    file.write(json.dumps(settings) + "\n")
    for call in calls:
        file.write(json.dumps(call, separators=(",", ":")) + "\n")
        count += 1
    file.flush()
    return count


def run(program, path):
    """Runs the program on an input. Returns the seconds, the bytes written, the peak memory in KiB
    and the status."""
    with open(path, "rb") as source, tempfile.TemporaryFile() as out:
        began = time.perf_counter()
        child = subprocess.Popen([program], stdin=source, stdout=out)
        _, status, used = os.wait4(child.pid, 0)
        seconds = time.perf_counter() - began
        child.returncode = os.waitstatus_to_exitcode(status)
        return seconds, os.fstat(out.fileno()).st_size, used.ru_maxrss, child.returncode


def report(name, program, settings, calls, before=None):
    with tempfile.NamedTemporaryFile("w", suffix=".jsonl") as file:
        count = write(file, settings, calls)
        seconds, size, peak, status = run(program, file.name)
    ratio = f"  ratio {seconds / before:5.2f}" if before else ""
    fault = "" if status == 0 else f"  STATUS {status}"
    print(f"{name:34} {count:9} calls {count / seconds:12,.0f} calls/s {size / seconds / 1e6:8.2f} MB/s {peak / 1024:8.1f} MiB"
          f" {seconds:8.3f} s{ratio}{fault}", flush=True)
    return seconds


def best(program, calls):
    """Returns the seconds of the shortest of three runs of these calls."""
    with tempfile.NamedTemporaryFile("w", suffix=".jsonl") as file:
        write(file, LINES, calls)
        return min(run(program, file.name)[0] for _ in range(3))


def report_live(program, spans):
    """Prints the cost of a call among this many live spans, without the cost of creating and
    removing them."""
    without = best(program, opened(spans))
    for name, count, calls in (
        ("a clone or a record", 1_000_000, spread(spans, 1_000_000)),
        ("a close of the oldest", 100, oldest(100)),
    ):
        cost = best(program, itertools.chain(opened(spans), calls)) - without
        print(f"{name:22} of {spans:9,} live spans {cost / count * 1e6:12.3f} us", flush=True)


def main(program):
    for name, settings in (("nested, five deep", LINES), ("nested, every setting on", EVERYTHING)):
        before = None
        for calls in (10_000, 100_000, 1_000_000):
            before = report(name, program, settings, nested(calls), before)
    for spans in (5_000, 10_000):
        report("chain that closes at once", program, LINES, chain(spans))
    for spans in (10_000, 100_000):
        report("live roots", program, LINES, roots(spans))
    for spans in (1_000, 100_000, 1_000_000):
        report_live(program, spans)
