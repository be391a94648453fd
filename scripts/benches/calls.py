"""Times calls of the library itself. PROGRAM makes them. Prints for each work the time of a call in
the shortest of three runs, the bytes written, and the allocations per call. Asserts nothing.

Allocations are counted in two runs of different length, without those that make the calls. So what
a layer allocates once doesn't count.
"""
import os
import re
import subprocess
import sys

# The rounds of each work.
ROUNDS = {
    "nested": 20_000, "nested-styled": 20_000, "nested-retraced": 20_000,
    "alternating-10": 10_000, "alternating-100": 10_000, "alternating-1000": 10_000,
    "below-10": 100_000, "chain": 10_000, "spread-1000": 100_000, "spread-1000000": 100_000, "long-text": 50, "close-leaf": 100_000,
    "event": 100_000, "event-utc": 100_000, "event-local": 100_000, "event-uptime": 100_000,
}
CLOSES = ("close-oldest", "close-newest", "close-shuffled")


def timed(program, work, rounds):
    """Returns the calls, the nanoseconds of a call, and the bytes written."""
    best = None
    for _ in range(3):
        out = subprocess.run([program, work, str(rounds)], stdout=subprocess.PIPE, check=True).stdout.decode()
        calls, nanos, written, refused = map(int, re.fullmatch(r"\S+: (\d+) calls, (\d+) ns a call, (\d+) bytes, (\d+) refused\n", out).groups())
        if refused:
            sys.exit(f"{work}: {refused} calls were refused")
        if best is None or nanos < best[1]:
            best = (calls, nanos, written)
    return best


def requests(program, counter, work, rounds, *idle):
    """Returns how often the program allocates."""
    environment = dict(os.environ, LD_PRELOAD=os.path.abspath(counter))
    run = subprocess.run([program, work, str(rounds), *idle], stdout=subprocess.PIPE, stderr=subprocess.PIPE, env=environment, check=True)
    return int(run.stderr.split()[0])


def taken(program, counter, work, rounds, calls):
    """Returns how often a call allocates, without the allocations that make the call."""
    more, less = (requests(program, counter, work, n) - requests(program, counter, work, n, "idle") for n in (rounds, rounds // 2))
    return (more - less) / (calls / 2)


def report(program, counter, work, rounds, counts=True):
    calls, nanos, written = timed(program, work, rounds)
    memory = f"{taken(program, counter, work, rounds, calls):8.3f} requests for memory a call" if counts else ""
    print(f"{work:18} {rounds:9,} rounds {calls:9,} calls {nanos:9,} ns a call {written:12,} bytes {memory}", flush=True)


def main(program, counter):
    for work, rounds in ROUNDS.items():
        report(program, counter, work, rounds, work not in ("chain", "long-text"))
    for work in CLOSES:
        for rounds in (1_000, 100_000, 1_000_000):
            report(program, counter, work, rounds, rounds == 100_000)
