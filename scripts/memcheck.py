#!/usr/bin/env python3
"""Runs the built programs under valgrind's memcheck.

usage: memcheck.py [--every N] DRAWING_PROGRAM READING_PROGRAM TTREE

The program that draws runs on the worked cases. Of those with a status file, which are many and
alike, it runs on every Nth. The program that reads runs on some of their drawings, and ttree runs
on two examples. No run may have a memory error or lose a block, and each must end as without
valgrind. The memory that a run still holds at its end may not grow with its input: a short input
and a hundred times longer input must leave the same number of bytes. The last line begins
with 'memcheck: N of M runs ended as they must'.
"""
import argparse, glob, os, re, shutil, subprocess, sys, tempfile, time

from runs import Runs

TOP = os.path.dirname(os.path.dirname(os.path.abspath(__file__)))
DATA = f"{TOP}/crates/test_cases/data"
LOST = "definite,indirect,possible"
VALGRIND = ["valgrind", "--leak-check=full", f"--show-leak-kinds={LOST}", f"--errors-for-leak-kinds={LOST}", "--error-exitcode=99"]
DRAWINGS = (
    "first/tree", "retracing/concurrent_eager", "retracing/retrace", "close_retrace/verbose", "drawing/message_of_two_lines",
    "drawing/modes_verbose")


def bytes_of(path):
    with open(path, "rb") as file:
        return file.read()


class Memcheck:
    def __init__(self, room):
        self.room, self.runs, self.start = room, Runs("memcheck"), time.time()

    def run(self, words, source):
        """Runs a program with and without valgrind. Returns whether both ended alike and without an
        error, valgrind's log, and the bytes that are still held at the end."""
        log = f"{self.room}/log"
        plain = subprocess.run(words, input=source, capture_output=True, timeout=60, check=False)
        seen = subprocess.run([*VALGRIND, f"--log-file={log}", *words], input=source, capture_output=True, timeout=600, check=False)
        said = bytes_of(log).decode(errors="replace")
        kept = re.search(r"still reachable: ([\d,]+) bytes", said)
        errors = re.search(r"ERROR SUMMARY: (\d+) errors", said)
        is_alike = (plain.returncode, plain.stdout, plain.stderr) == (seen.returncode, seen.stdout, seen.stderr)
        is_right = is_alike and errors and errors[1] == "0"
        freed = "All heap blocks were freed" in said
        return bool(is_right), said, int(kept[1].replace(",", "")) if kept else 0 if freed else None

    def count(self, name, words, source):
        is_right, said, kept = self.run(words, source)
        self.runs.add(is_right, f"memcheck: FAILED: {name}: {' '.join(words)}\n{said[-3000:]}")
        return kept

    def compare(self, name, words, short, long):
        """Counts whether a short and a long input leave the same number of bytes at the end."""
        kept = [self.count(f"{name}, {it}", words, source) for it, source in (("short", short), ("long", long))]
        print(f"memcheck: {name}: {len(short):,} bytes of input leave {kept[0]} bytes, {len(long):,} leave {kept[1]}", flush=True)
        self.runs.add(kept[0] is not None and kept[0] == kept[1],
                      f"memcheck: FAILED: {name}: what is kept at the end grows with the input")


def calls(count):
    """Returns an input of `count` spans, each with an event. Half of the spans are closed, and the
    others are live at the end."""
    lines = [b'{"indent_lines":true,"span_retrace":true,"deferred_spans":true}']
    for at in range(1, count + 1):
        lines += [b'{"call":"new","name":"a long name of a span","fields":[["key","a value past sixteen bytes"],["b","c"]]%s}'
                  % (b',"current":%d' % (at - 1) if at % 10 != 1 else b""),
                  b'{"call":"event","level":"INFO","fields":[["message","x"]],"current":%d}' % at]
    lines += [b'{"call":"close","id":%d}' % at for at in range(1, count + 1) if at % 20 > 10 or at % 20 == 0]
    return b"\n".join(lines) + b"\n"


def gathered(asked):
    """Returns the worked cases. Of those with a status file, returns every Nth."""
    paths = sorted(glob.glob(f"{DATA}/*/*.in"))
    faults = [it for it in paths if os.path.exists(it.removesuffix(".in") + ".status")]
    return [it for it in paths if it not in faults] + faults[::asked.every]


def main():
    asked = argparse.ArgumentParser(description=__doc__, formatter_class=argparse.RawDescriptionHelpFormatter)
    asked.add_argument("--every", type=int, default=1)
    for name in ("drawing_program", "reading_program", "ttree"):
        asked.add_argument(name, type=os.path.abspath)
    asked = asked.parse_args()
    if not shutil.which("valgrind"):
        print("memcheck: valgrind is not on the PATH", file=sys.stderr)
        return 2
    with tempfile.TemporaryDirectory(prefix="memcheck-") as room:
        check = Memcheck(room)
        for path in gathered(asked):
            check.count(path.removeprefix(f"{DATA}/"), [asked.drawing_program], bytes_of(path))
        print(f"memcheck: {check.runs.right} of {check.runs.all} cases are right, {time.time() - check.start:.0f} s", flush=True)
        for name in DRAWINGS:
            check.count(f"drawing of {name}", [asked.reading_program], bytes_of(f"{DATA}/{name}.out"))
        check.count("what is no row", [asked.reading_program, "--amount", "3"], bytes_of(f"{DATA}/first/tree.out") + b"\xff\n")
        tests = bytes_of(f"{TOP}/examples/go-fail.jsonl")
        check.count("Go's tests", [asked.ttree], bytes_of(f"{TOP}/examples/go-test.jsonl"))
        check.count("Go's tests with lines of which nothing is known", [asked.ttree, "--color", "always"], tests + b"[1]\n\xff\n")
        check.compare("the program that draws", [asked.drawing_program], calls(20), calls(2000))
        check.compare("the program that reads", [asked.reading_program], b"\xe2\x94\x90a\n" * 20, b"\xe2\x94\x90a\n" * 2000)
        check.compare("ttree", [asked.ttree], tests, tests * 100)
        return check.runs.end(f", {time.time() - check.start:.0f} s")


if __name__ == "__main__":
    sys.exit(main())
