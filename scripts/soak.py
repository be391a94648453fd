#!/usr/bin/env python3
"""Makes many calls, and checks memory and speed.

usage: soak.py PROGRAM --lines GENERATOR [CALLS]
       soak.py PROGRAM [CALLS]

With --lines, PROGRAM reads calls as lines. GENERATOR (scripts/soak.c) writes rounds of calls that
open and close the same spans, up to 100,000 at once, with some long strings. The drawing of the
first round must be that of scripts/model.py, and each later round must draw the same bytes.

Without --lines, PROGRAM is crates/bench, which makes waves of calls of the library itself and times
each call. A wave opens and closes the same spans: 100,000 at once, branches in turn, and a span
whose fields and handles grow. No call may be refused. The longest call is printed.

Half of CALLS (10^8) are made with retracing, and half with deferred spans too. At the end the
program may keep at most a twentieth and 1 MiB more memory than after the first round; of waves,
that is the peak after the second one. The last tenth may take at most 1.5 times the time of the
first: processor time of the rounds, and the time of an average call in the waves. The last line is
'soak: N of M runs ended as they must'."""
import argparse, os, re, subprocess, sys, time, zlib

import model
from runs import Runs

SETTINGS = {
    "retraced": '{"indent_lines":true,"span_retrace":true,"close_retrace":true}',
    "deferred": '{"indent_lines":true,"deferred_spans":true,"span_retrace":true,"close_retrace":true,"verbose_entry":true,'
                '"verbose_exit":true}',
}
TICKS = os.sysconf("SC_CLK_TCK")


def kib_of(process, key):
    """Returns a figure of the process's memory in KiB."""
    with open(f"/proc/{process}/status", encoding="utf-8") as file:
        return next(int(it.split()[1]) for it in file if it.startswith(f"{key}:"))


def seconds_of(process):
    """Returns the process's processor time."""
    with open(f"/proc/{process}/stat", encoding="utf-8") as file:
        words = file.read().rpartition(")")[2].split()
    return (int(words[11]) + int(words[12])) / TICKS


def is_steady(name, before, after, first, last):
    """Returns whether the memory didn't grow and the calls didn't become slower. Says so if not."""
    is_right = after <= before * 1.05 + 1024 and last <= first * 1.5
    print("" if is_right else f"soak: {name}: FAILED: it grew or became slow\n", end="")
    return is_right


def first_round(generator, settings):
    """Returns the number of calls in a round, and the length and the checksum of its drawing. The
    drawing is the model's."""
    made = subprocess.run([generator, settings, "1"], capture_output=True, check=True)
    out, _, status = model.run_of(made.stdout).ended()
    if status:
        sys.exit("soak: the calls of the first round aren't accepted")
    return int(made.stderr), len(out), zlib.crc32(out)


class Soak:
    """A run of the program on lines. `rounds` is its number of calls, and it has at least two
    rounds. Memory and time are recorded at the end of each round's drawing."""

    def __init__(self, program, generator, settings, rounds):
        self.calls, self.length, self.sum = first_round(generator, settings)
        self.rounds = max(2, round(rounds / self.calls))
        self.seen, self.strange = [], 0
        started = time.time()
        making = subprocess.Popen([generator, settings, str(self.rounds)], stdout=subprocess.PIPE, stderr=subprocess.DEVNULL)
        self.drawing = subprocess.Popen([program], stdin=making.stdout, stdout=subprocess.PIPE, stderr=subprocess.PIPE)
        making.stdout.close()
        self.read()
        self.told, self.status = self.drawing.stderr.read(), self.drawing.wait()
        making.wait()
        self.seconds = time.time() - started

    def read(self):
        """Reads the program's output to its end."""
        left, total = self.length, 0
        while part := os.read(self.drawing.stdout.fileno(), 1 << 16):
            while part:
                total = zlib.crc32(part[:left], total)
                part, left = part[left:], left - len(part[:left])
                if left == 0:
                    self.strange += total != self.sum
                    left, total = self.length, 0
                    self.look()

    def look(self):
        try:
            self.seen.append((kib_of(self.drawing.pid, "VmRSS"), seconds_of(self.drawing.pid)))
        except (OSError, StopIteration):
            self.seen.append(self.seen[-1])

    def report(self, name):
        """Prints the figures. Returns whether they are within the bounds."""
        if len(self.seen) != self.rounds or self.strange or self.status or self.told:
            print(f"soak: {name}: FAILED: {len(self.seen)} rounds of {self.rounds}, {self.strange} of another text, status {self.status},"
                  f" {self.told!r}")
            return False
        tenth = max(1, self.rounds // 10)
        first, last = self.seen[tenth - 1][1], self.seen[-1][1] - self.seen[-1 - tenth][1]
        before, after, most = self.seen[0][0], self.seen[-1][0], max(it[0] for it in self.seen)
        rate = [self.calls * tenth / max(it, 0.01) for it in (first, last)]
        print(f"soak: {name}: {self.calls * self.rounds:,} calls in {self.rounds} rounds, {self.seconds:.0f} s; KiB kept after the first"
              f" round {before:,}, at the end {after:,}, at most {most:,}; calls a second of processor time at the start {rate[0]:,.0f},"
              f" at the end {rate[1]:,.0f}", flush=True)
        return is_steady(name, before, after, first, last)


def waves_of(program, settings, waves):
    """Runs waves. Returns a tuple for each wave and the status. A tuple has the number of calls,
    their nanoseconds, those of the longest call, the number of refused calls, and the peak KiB so
    far."""
    seen = []
    with subprocess.Popen([program, settings, str(waves)], stdout=subprocess.PIPE, text=True) as ran:
        for line in ran.stdout:
            told = re.fullmatch(r"wave \d+: (\d+) calls, (\d+) ns, the longest (\d+) ns, (\d+) refused\n", line)
            if not told:
                return seen, 1
            try:
                kept = kib_of(ran.pid, "VmHWM")
            except (OSError, StopIteration):
                # The process has ended.
                kept = seen[-1][4] if seen else 0
            seen.append((*(int(it) for it in told.groups()), kept))
    return seen, ran.returncode


def make_waves(program, settings, count):
    """Makes calls of the library under these settings and prints the figures. Returns whether they
    are within the bounds."""
    first, status = waves_of(program, settings, 1)
    if status or not first:
        print(f"soak: {settings}: FAILED: the first wave ended with status {status}")
        return False
    waves = max(10, -(-count // first[0][0]))
    seen, status = waves_of(program, settings, waves)
    if status or len(seen) != waves or any(it[3] for it in seen):
        print(f"soak: {settings}: FAILED: {len(seen)} waves of {waves}, status {status}, {sum(it[3] for it in seen)} calls refused")
        return False
    tenth = waves // 10
    took = [sum(it[1] for it in part) / sum(it[0] for it in part) for part in (seen[:tenth], seen[-tenth:])]
    before, after = seen[1][4], seen[-1][4]
    print(f"soak: {settings}: {sum(it[0] for it in seen):,} calls in {waves} waves; KiB kept at most in the first wave {seen[0][4]:,}, in"
          f" two {before:,}, in all {after:,}; calls a second at the start {1e9 / took[0]:,.0f}, at the end {1e9 / took[1]:,.0f}; the"
          f" longest call {max(it[2] for it in seen) / 1e6:.2f} ms", flush=True)
    return is_steady(settings, before, after, *took)


def main():
    asked = argparse.ArgumentParser(description=__doc__, formatter_class=argparse.RawDescriptionHelpFormatter)
    asked.add_argument("program", type=os.path.abspath)
    asked.add_argument("--lines", type=os.path.abspath)
    asked.add_argument("calls", type=int, nargs="?", default=10**8)
    asked = asked.parse_intermixed_args()
    runs = Runs("soak")
    for name, settings in SETTINGS.items():
        if asked.lines:
            runs.add(Soak(asked.program, asked.lines, settings, asked.calls / len(SETTINGS)).report(name))
        else:
            runs.add(make_waves(asked.program, name, asked.calls // len(SETTINGS)))
    return runs.end()


if __name__ == "__main__":
    sys.exit(main())
