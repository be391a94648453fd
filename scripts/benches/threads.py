"""Times events through the layers for several threads, through a layer for one thread, and through
that layer in a lock. PROGRAM records the events. Prints the time of an event for each work and
number of threads, from the shortest of three runs. Asserts nothing.

The time of an event is that from the first to the last event of all threads, divided by the number
of events. A layer in a lock has no drafts: its events are drawn under the lock.
"""
import re
import subprocess
import sys

# The number of events that each thread records.
EVENTS = 50_000

# Each work, with the numbers of threads to try.
WORKS = {
    "alone": (1,), "locked": (1, 2, 4), "shared": (1, 2, 4), "shared-drafted": (1,), "streaming": (1, 2, 4), "streaming-drafted": (1,),
    "counted": (1,), "counted-anew": (1,),
}


def timed(program, work, threads, fields):
    """Returns the nanoseconds of an event."""
    out = subprocess.run([program, "threads", work, str(threads), str(EVENTS), str(fields)], stdout=subprocess.PIPE, check=True).stdout.decode()
    events, nanos = map(int, re.fullmatch(r"\S+: \d+ threads, (\d+) events, (\d+) ns an event\n", out).groups())
    if events != threads * EVENTS:
        sys.exit(f"{work}: {threads * EVENTS - events} events were refused")
    return nanos


def main(program):
    for fields in (1, 4):
        for work, counts in WORKS.items():
            for threads in counts:
                nanos = min(timed(program, work, threads, fields) for _ in range(3))
                each = f"{nanos:6,} ns an event {10**9 // max(nanos, 1):10,} events a second"
                print(f"{work:18} {threads} threads {fields} fields {each}", flush=True)
