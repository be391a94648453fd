#!/usr/bin/env python3
"""Compares the number of instructions of calls that look spans up, among few live spans and among
many.

PROGRAM is crates/bench, and COUNTER is scripts/steps.c. No contract says how many
places a look-up reads. If no gap between a span and the newest span was closed, it reads one place:
calls among 100,000 live spans take as many instructions as among ten. If gaps were closed evenly,
it reads about six places, however many spans there are. A binary search would exceed the bounds,
and a linear search even more. If the processor doesn't stop after each instruction, nothing is
compared, and a line says so. The last line is 'steps: N of M runs ended as they must'.

usage: steps.py PROGRAM COUNTER
"""
import os, re, subprocess, sys

from runs import Runs

ROUNDS = 64
# A work among few spans, the same work among many, and the largest allowed ratio of instructions.
PAIRS = (("clone-10", "clone-100000", 1.05), ("clone-old-1000", "clone-old-100000", 1.15))


def counted(program, counter, work):
    """Returns the number of instructions of a work's calls: 0 if the processor doesn't report any,
    None if the work failed."""
    how = {"env": {"LD_PRELOAD": counter}, "stdout": subprocess.PIPE, "stderr": subprocess.PIPE, "timeout": 120}
    try:
        run = subprocess.run([program, work, str(ROUNDS), "marked"], check=False, **how)
    except subprocess.TimeoutExpired:
        return None
    done = re.fullmatch(rb"begin\nend\n\S+: %d calls, .* 0 refused\n" % ROUNDS, run.stdout)
    if not done or run.returncode or not re.fullmatch(rb"none\n|[1-9]\d*\n", run.stderr):
        return None
    return 0 if run.stderr == b"none\n" else int(run.stderr)


def main():
    program, counter = os.path.abspath(sys.argv[1]), os.path.abspath(sys.argv[2])
    runs = Runs("steps")
    for few, many, most in PAIRS:
        among_few, among_many = (counted(program, counter, it) for it in (few, many))
        if 0 in (among_few, among_many):
            print("steps: left out: this processor doesn't stop after each instruction")
            continue
        print(f"steps: {ROUNDS} calls: {few} {among_few} instructions, {many} {among_many}", flush=True)
        runs.add(None not in (among_few, among_many) and among_many <= most * among_few,
                 f"program steps on {many}: FAILED: {among_many} instructions, and {among_few} among few spans")
    return runs.end(may_be_empty=True)


if __name__ == "__main__":
    sys.exit(main())
