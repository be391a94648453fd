#!/usr/bin/env python3
"""Counts the memory of fixed works and compares it with the figures in counts.txt next to this
script.

BENCH is crates/bench, which makes calls of the library, directly and through the
layers for several threads. CLI, TTREE and SERVICE are the programs of those crates. They read lines
of calls, other tools' output, and requests for which a tracer makes calls. COUNTER is
scripts/count.c.

Three numbers of each work must be exactly those of counts.txt: how often it allocates, how many
bytes it allocates, and how many bytes it holds at most at once. They include the work's calls and
their results. No contract states these numbers. They are the same on each machine. They change with
the code and the toolchain, and --write then writes them again. The last line is
'counts: N of M runs ended as they must'.

usage: counts.py BENCH CLI TTREE SERVICE COUNTER [--write]
"""
import collections, json, os, re, subprocess, sys, tempfile

from runs import Runs

FIGURES = os.path.join(os.path.dirname(os.path.abspath(__file__)), "counts.txt")
PROGRAMS = ("bench", "cli", "ttree", "service")
# A work: the program, its arguments, its input, and a pattern for the end of its output.
Work = collections.namedtuple("Work", "program words given ending")
# Works of the library's calls, each with its number of rounds.
CALLS = (
    ("nested", 64), ("nested", 640), ("nested-styled", 640), ("nested-retraced", 640),
    ("alternating-10", 64), ("alternating-100", 64), ("alternating-1000", 4),
    ("close-oldest", 2000), ("close-newest", 2000), ("close-shuffled", 2000), ("close-leaf", 2000),
    ("below-10", 64), ("below-10", 640), ("chain", 100), ("chain", 200),
    ("spread-1000", 64), ("spread-1000", 4000), ("records", 500), ("records", 1000), ("records", 2000), ("gaps", 400), ("gaps", 700),
    ("event", 640), ("event-utc", 640), ("event-local", 640), ("event-uptime", 640), ("long-text", 3),
)
# Works of one thread through the layers for several threads.
THREADS = ("shared", "shared-drafted", "streaming", "streaming-drafted")


def json_lines(values):
    return "".join(json.dumps(it) + "\n" for it in values).encode()


def line_calls(rounds):
    """Yields the settings, then two spans, an event and two closes for each round."""
    yield {"indent_lines": True}
    for number in range(rounds):
        root = 2 * number + 1
        fields = [["message", "something happened"], ["n", str(number % 10)]]
        yield {"call": "new", "name": "a", "target": "web", "fields": [["key", "1"]]}
        yield {"call": "new", "name": "b", "current": root}
        yield {"call": "event", "level": "INFO", "fields": fields, "current": root + 1}
        yield {"call": "close", "id": root + 1}
        yield {"call": "close", "id": root}


def go_tests(rounds):
    """Yields a test for each round. It prints two lines, the second one in two parts."""
    for number in range(rounds):
        test = {"Package": "example.com/p", "Test": f"Test{number:06}"}
        yield {"Action": "run", **test}
        for text in ("one line\n", "the first part ", "and the second\n"):
            yield {"Action": "output", **test, "Output": text}
        yield {"Action": "pass", **test, "Elapsed": 0}
    yield {"Action": "pass", "Package": "example.com/p", "Elapsed": 1}


def tracing_events(rounds):
    """Yields an event in two spans for each round. The second span is a new one in each round."""
    for number in range(rounds):
        spans = [{"name": "server", "port": 8080}, {"name": "request", "id": number % 1000}]
        yield {"level": "INFO", "fields": {"message": "served"}, "target": "web", "span": spans[-1], "spans": spans}


def trace(rounds):
    """Yields a span for each round, and one span around all of them."""
    yield {"ph": "X", "name": "all", "pid": 1, "tid": 1, "ts": 0, "dur": 10 * rounds}
    for number in range(rounds):
        yield {"ph": "X", "name": "step", "pid": 1, "tid": 1, "ts": 10 * number, "dur": 5}


def requests(rounds):
    return b"put 12 apples\ntake 5 apples\n" * rounds


def works():
    """Returns all works, by name and rounds."""
    found = {(name, rounds): Work("bench", [name, str(rounds)], b"", rb" 0 refused") for name, rounds in CALLS}
    for rounds in (64, 640):
        ending = rb"1 threads, %d events, \d+ ns an event" % rounds
        for name in THREADS:
            found[f"threads-{name}", rounds] = Work("bench", ["threads", name, "1", str(rounds), "2"], b"", ending)
    for rounds in (200, 2000):
        found["lines", rounds] = Work("cli", [], json_lines(line_calls(rounds)), "┘".encode())
        found["go-test", rounds] = Work("ttree", [], json_lines(go_tests(rounds)), rb"packages_failed=0")
        found["tracing", rounds] = Work("ttree", [], json_lines(tracing_events(rounds)), b"served")
        found["chrome", rounds] = Work("ttree", [], json.dumps(list(trace(rounds))).encode(), "┘".encode())
        found["tracer", rounds] = Work("service", [], requests(rounds), "┘".encode())
    return found


def counted(programs, counter, work):
    """Returns how often a work allocates, how many bytes, and how many it holds at most. Returns
    None if the work failed."""
    # The input is a file: how much a read of a pipe returns differs between runs, and a line that
    # two reads return is copied. The program's name is one of the strings that it keeps.
    with tempfile.TemporaryFile() as given:
        given.write(work.given)
        given.seek(0)
        run = subprocess.run([work.program, *work.words], executable=programs[work.program], stdin=given, env={"LD_PRELOAD": counter},
                             stdout=subprocess.PIPE, stderr=subprocess.PIPE, timeout=120, check=False)
    told = re.fullmatch(rb"(\d+) (\d+) (\d+)\n", run.stderr)
    done = re.search(work.ending + rb"\n$", run.stdout)
    if run.returncode or not told or not done or told[1] == b"0":
        print(f"counts: status {run.returncode}, ends with {run.stdout[-80:]!r} and {run.stderr[-80:]!r}")
        return None
    return tuple(int(it) for it in told.groups())


def written():
    """Returns the figures in counts.txt."""
    with open(FIGURES, encoding="utf-8") as file:
        lines = [line.split() for line in file if not line.startswith("#")]
    return {(work, int(rounds)): tuple(map(int, numbers)) for work, rounds, *numbers in lines}


def write(found):
    with open(FIGURES, "w", encoding="utf-8") as file:
        print("# work, rounds, requests for memory, bytes asked for, bytes held at most: counts.py --write", file=file)
        for (work, rounds), numbers in found.items():
            print(work, rounds, *numbers or [], file=file)


def main():
    *paths, counter = (os.path.abspath(it) for it in sys.argv[1:6])
    programs = dict(zip(PROGRAMS, paths))
    found = {name: counted(programs, counter, work) for name, work in works().items()}
    if sys.argv[6:] == ["--write"]:
        write(found)
    kept, runs = written(), Runs("counts")
    for (work, rounds), numbers in found.items():
        is_right = numbers is not None and numbers == kept.get((work, rounds))
        shown = "no figures" if numbers is None else "{:,} requests, {:,} bytes, at most {:,} at once".format(*numbers)
        print(f"counts: {work}, {rounds} rounds: {shown}", flush=True)
        runs.add(is_right, f"program counts on {work} {rounds}: FAILED: {numbers} and not {kept.get((work, rounds))}")
    return runs.end()


if __name__ == "__main__":
    sys.exit(main())
