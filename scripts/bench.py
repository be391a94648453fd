#!/usr/bin/env python3
"""Times the library, the programs, and other tools beside them: bench.py [WORK..]

Without a WORK, all of these run:

    calls     calls on the library
    threads   events of 1, 2 and 4 threads, beside a layer in a lock
    lines     the program tracing_tree on lines of calls
    rows      reading a drawing back
    formats   ttree on each format, beside jq, gotestsum and xmllint

The programs are those in bin/, and bin/count.so counts allocations (`make bench` builds it). Asserts
nothing."""
import os, sys

from benches import calls, formats, lines, rows, threads

BIN = os.path.join(os.path.dirname(os.path.dirname(os.path.abspath(__file__))), "bin")
WORKS = {
    "calls": lambda: calls.main(f"{BIN}/bench", f"{BIN}/count.so"),
    "threads": lambda: threads.main(f"{BIN}/bench"),
    "lines": lambda: lines.main(f"{BIN}/tracing_tree"),
    "rows": lambda: rows.main(f"{BIN}/tracing_tree", f"{BIN}/bench"),
    "formats": lambda: formats.main(f"{BIN}/ttree"),
}


def main():
    asked = sys.argv[1:] or list(WORKS)
    unknown = [it for it in asked if it not in WORKS]
    if unknown:
        sys.exit(f"bench: {unknown[0]} is not one of {', '.join(WORKS)}")
    for name in asked:
        print(f"== {name}", flush=True)
        WORKS[name]()


if __name__ == "__main__":
    main()
