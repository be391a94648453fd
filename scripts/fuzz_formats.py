#!/usr/bin/env python3
"""Draws changed examples of other tools' output: fuzz_formats.py [--inputs N] [--seed S] TTREE

Each input is a file of examples/ with a few random changes: bytes are replaced, removed, repeated
or inserted, lines are swapped, or the end is cut off. `ttree` draws many inputs in one run, once
with the --from option of their example, once by detection, and once with a further option that only
their format has. A run ends as it must if its status
is 0, 1 or 2 and if it writes no control characters except tabs and line ends. By detection only
standard error is checked, since an unknown input is printed unchanged. The inputs of a run that
fails are left below bin/fuzz. The last line is 'fuzz formats: N of M runs ended as they must'."""

import argparse
import pathlib
import random
import re
import shutil
import subprocess
import sys
import tempfile

from runs import Runs

TOP = pathlib.Path(__file__).resolve().parent.parent
# The number of inputs in a run.
SHARE = 40
SECONDS = 120
CONTROL = re.compile("[\x00-\x08\x0b-\x1f\x7f-\x9f]")
# Strings that have a meaning in a format or on a terminal.
STRANGE = (b"\x1b[31m", b"\x00", b"\xff", b"\xc2\x9b", b"{", b"}", b"[", b"]", b'"', b"<", b">", b"&#27;", b"&x;", b"\n", b"\r\n",
           b"not ok ", b"ok 1", b"    ", b"# Subtest: ", b"  ---", b"  ...", b"1..0", b"<![CDATA[", b"]]>", b"<!--", b"\\u001b", b",", b"-1", b"1e9")
FORMATS = {"go-": "go-test", "tap-": "tap", "junit-": "junit", "tracing": "tracing", "log-": "logs", "otlp-": "otlp",
           "clang-": "chrome", "uftrace": "chrome", "node-": "chrome"}
# The options that only some formats have.
OPTIONS = {"go-test": "--failed", "junit": "--failed", "tap": "--level=warn", "tracing": "--threads", "logs": "--group=service", "chrome": "--min=1ms",
           "otlp": "--failed"}


def format_of(name):
    """Returns the format of an example, or None if ttree doesn't draw it."""
    return next((found for front, found in FORMATS.items() if name.startswith(front)), None)


def changed(text, chance):
    """Returns these bytes with a few changes."""
    made = bytearray(text)
    for _ in range(chance.randint(1, 6)):
        at = chance.randrange(len(made) + 1)
        end = min(len(made), at + chance.choice((1, 2, 8, 64, 512)))
        kind = chance.randrange(6)
        if kind == 0:
            made[at:end] = b""
        elif kind == 1:
            made[at:at] = chance.choice(STRANGE)
        elif kind == 2:
            made[at:end] = chance.choice(STRANGE)
        elif kind == 3:
            made[at:at] = made[at:end] * chance.randint(1, 9)
        elif kind == 4:
            lines = bytes(made).split(b"\n")
            chance.shuffle(lines)
            made = bytearray(b"\n".join(lines))
        elif chance.random() < 0.3:
            del made[at:]
    return bytes(made)


def fault_of(program, words, files):
    """Draws these files in one run. Returns what is wrong, or None."""
    try:
        ran = subprocess.run([program, *words, *files], stdin=subprocess.DEVNULL, capture_output=True, timeout=SECONDS, check=False)
    except subprocess.TimeoutExpired:
        return f"it took more than {SECONDS} seconds"
    if ran.returncode not in (0, 1, 2):
        return f"status {ran.returncode}: {ran.stderr[-300:]!r}"
    # An input of an unknown format is printed unchanged.
    shown = (ran.stdout if words else b"") + ran.stderr
    found = CONTROL.search(shown.decode(errors="replace"))
    return f"a control character: {shown.decode(errors='replace')[max(0, found.start() - 80):found.end() + 20]!r}" if found else None


def main():
    asked = argparse.ArgumentParser(description=__doc__, formatter_class=argparse.RawDescriptionHelpFormatter)
    asked.add_argument("--inputs", type=int, default=4000)
    asked.add_argument("--seed", type=int, default=1)
    asked.add_argument("program")
    asked = asked.parse_args()
    program = str(pathlib.Path(asked.program).resolve())
    chance = random.Random(asked.seed)
    examples = [(it.read_bytes(), format_of(it.name)) for it in sorted((TOP / "examples").iterdir()) if format_of(it.name)]
    # The first lines of a long example are enough.
    examples = [(text[:20000], name) for text, name in examples]
    runs = Runs("fuzz formats")
    for number in range(0, asked.inputs, SHARE):
        text, name = examples[number // SHARE % len(examples)]
        with tempfile.TemporaryDirectory(prefix="fuzz-") as folder:
            files = [f"{folder}/{it}" for it in range(SHARE)]
            for file in files:
                pathlib.Path(file).write_bytes(changed(text, chance))
            named = [f"--from={name}", "--color=never"]
            for words in (named, [], [*named, *filter(None, [OPTIONS.get(name)])]):
                fault = fault_of(program, words, files)
                kept = TOP / "bin" / "fuzz" / f"formats-{asked.seed}-{number}"
                if fault:
                    shutil.copytree(folder, kept, dirs_exist_ok=True)
                runs.add(not fault, f"program ttree {' '.join(words)} on {kept.relative_to(TOP)}: FAILED: {fault}")
    return runs.end()


if __name__ == "__main__":
    sys.exit(main())
