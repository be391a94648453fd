#!/usr/bin/env python3
"""Makes each allocation, each read and each write of a program fail in turn, and checks the status,
the fault line and the output.

usage: refuse.py PROGRAM SHIM INPUT..
       refuse.py PROGRAM SHIM

SHIM is scripts/refuse.c. With inputs, PROGRAM is a program for users. It must then end with status 1
and report the line and the cause. Its output must be that of the lines before the reported one:
nothing is lost, and nothing of a refused call is drawn. (The program that reads may also lack the
last row.) After a failed write the output may be truncated. It must not end behind what the
reported line draws. If the input has a fault, the program may then report that fault instead, with
its status. The output of ttree only has to be a prefix of the whole output. After a failed read or
write the run must end differently. After a failed allocation it may end as without a failure, since
the program may do without that memory.

Without inputs, PROGRAM is crates/check_out_of_memory, which calls the library. It makes what a work
needs, prints `begin NAME`, does the work, and prints how many allocations failed. After a failure
the program itself checks what was left and tries again. It ends with an error if the result is
wrong. At its end it must hold no more blocks of memory than without a failure. Each run with a
failed allocation counts.

The last line is 'refuse: N of M runs ended as they must'."""
import os
import re
import subprocess
import sys
import tempfile

from runs import Runs

WORDS = {"malloc": "memory", "read": "read", "write": "writer"}
# What ttree reports instead.
SENTENCES = {"malloc": "out of memory", "read": "the input can't be read", "write": "the output can't be written"}
# A work of calls ends after this number of runs in a row without a failed allocation.
QUIET = 3


class Refusals:
    """Runs a program with failing calls, on one input after another."""

    def __init__(self, program, shim, room, runs):
        self.program, self.shim, self.told, self.runs = program, shim, f"{room}/told", runs
        self.kind = next((it for it in ("ttree", "read") if os.path.basename(program).endswith(it)), "draw")

    def run(self, lines, kind=None, at=0):
        """Runs the program so that call number `at` of this kind fails. Returns the status, the
        output and the fault line, and whether the call was reached."""
        env = dict(os.environ)
        if kind:
            env.update(LD_PRELOAD=self.shim, REFUSE_KIND=kind, REFUSE_AT=str(at), REFUSE_TOLD=self.told)
        done = subprocess.run([self.program], input=b"".join(lines), capture_output=True, env=env, timeout=60, check=False)
        was_refused = os.path.exists(self.told)
        if was_refused:
            os.remove(self.told)
        return (done.returncode, done.stdout, done.stderr.decode()), was_refused

    def before(self, lines, line):
        """Returns what the program writes for the lines before this one."""
        return self.run(lines[:line - 1])[0][1] if line > 1 else b""

    def is_right(self, lines, kind, whole, ended):
        """Returns whether a run with a failed call reported it, and has the right status and
        output."""
        status, text, told = ended
        if kind == "malloc" and ended == whole:
            return True
        if kind == "write" and whole[0] and (status, told) == (whole[0], whole[2]):
            return whole[1].startswith(text)
        if self.kind == "ttree":
            found = re.fullmatch(rf"ttree: (?:line \d+: )?{SENTENCES[kind]}\n", told)
            return bool(found) and status == 1 and whole[1].startswith(text)
        found = re.fullmatch(rf"(?:line (\d+)|end): {WORDS[kind]}\n", told)
        if not found or status != 1 or not (found[1] or kind == "write"):
            return False
        if not found[1]:
            return whole[1].startswith(text)
        line = int(found[1])
        if kind == "write":
            return line <= len(lines) and self.before(lines, line + (self.kind == "draw")).startswith(text)
        return self.is_before(text, self.before(lines, line))

    def is_before(self, text, wanted):
        """Returns whether the output is that of the lines before. The program that reads may still
        hold the last row, since the next line can continue it."""
        held = wanted[len(text):].count(b"\n")
        return wanted.startswith(text) and (held == 0 or (self.kind == "read" and held == 1))

    def refuse_all(self, name, lines, kind):
        """Makes one call after another fail, until the run has no further call. Returns the number
        of failed calls, and the number of runs that ended wrongly."""
        whole, at, wrong = self.run(lines)[0], 1, 0
        ended, was_refused = self.run(lines, kind, at)
        while was_refused:
            if not self.is_right(lines, kind, whole, ended):
                print(f"program {os.path.basename(self.program)} on {name}: FAILED: {kind} {at}: status {ended[0]}, {ended[2]!r}")
                wrong += 1
            at += 1
            ended, was_refused = self.run(lines, kind, at)
        return at - 1, wrong

    def take(self, path):
        """Makes each call of the program on this input fail in turn. An input for which nothing is
        drawn has no writes."""
        with open(path, "rb") as file:
            lines = file.readlines()
        for kind in WORDS:
            refused, wrong = self.refuse_all(path, lines, kind)
            is_silent = kind == "write" and not self.run(lines)[0][1]
            print(f"{path}: {refused} refused by {kind}, {wrong} went wrong", flush=True)
            self.runs.add_some(max(refused, not is_silent), max(wrong, refused == 0 and not is_silent))


def run_work(program, shim, work, at=0):
    """Runs a work so that allocation number `at` (from 1) fails. Returns its status, its output,
    its standard error, and the number of blocks that it holds at its end."""
    with tempfile.NamedTemporaryFile("r", prefix="held-") as held:
        env = dict(os.environ, LD_PRELOAD=shim, REFUSE_KIND="malloc", REFUSE_AT=str(at), REFUSE_FROM="begin ", REFUSE_HELD=held.name)
        done = subprocess.run([program, work], stdin=subprocess.DEVNULL, capture_output=True, env=env, timeout=60, check=False)
        return done.returncode, done.stdout.decode(), done.stderr.decode(), int(held.read() or 0)


def works_of(program):
    """Returns the names of all works that end well without a failed allocation."""
    done = subprocess.run([program], stdin=subprocess.DEVNULL, capture_output=True, timeout=60, check=True)
    return re.findall(r"(?m)^end (\w+): 0 refused$", done.stdout.decode())


def refuse_work(program, shim, work):
    """Makes each allocation of a work fail in turn. Returns how many failed, and the errors."""
    refused, wrong, quiet, at = 0, [], 0, 0
    kept = run_work(program, shim, work)[3]
    while quiet < QUIET:
        at += 1
        status, said, told, held = run_work(program, shim, work, at)
        ended = re.fullmatch(rf"begin {work}\nend {work}: (\d+) refused\n", said)
        if status or not ended:
            wrong.append(f"{work}: request {at}: status {status}, {said!r}, {told!r}")
        elif held > kept:
            wrong.append(f"{work}: request {at}: {held} blocks are held at the end, and {kept} without a refusal")
        elif ended[1] == "0":
            quiet += 1
            continue
        refused, quiet = refused + 1, 0
    return refused, wrong


def refuse_works(program, shim, runs):
    """Makes each allocation of each work fail in turn."""
    failed = []
    for work in works_of(program):
        refused, wrong = refuse_work(program, shim, work)
        print(f"{work}: {refused} requests refused, {len(wrong)} went wrong", flush=True)
        found = wrong if refused else [f"{work}: nothing was refused"]
        runs.add_some(max(refused, 1), len(found))
        failed += found
    for it in failed:
        print(f"program refusals, {it}: FAILED")


def main():
    if len(sys.argv) < 3:
        sys.exit(__doc__)
    program, shim, runs = os.path.abspath(sys.argv[1]), os.path.abspath(sys.argv[2]), Runs("refuse")
    with tempfile.TemporaryDirectory(prefix="refuse-") as room:
        refusals = Refusals(program, shim, room, runs)
        for path in sys.argv[3:]:
            refusals.take(path)
    if not sys.argv[3:]:
        refuse_works(program, shim, runs)
    return runs.end()


if __name__ == "__main__":
    sys.exit(main())
