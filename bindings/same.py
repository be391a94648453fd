#!/usr/bin/env python3
"""Compares what programs in several languages draw for the same calls: same.py CALLS PROGRAM
LINES..

CALLS is a file with the calls as lines of JSON, and PROGRAM draws such lines. LINES are programs
that make the same calls themselves. Each argument of such a program is the number of settings with
which it draws them. Prints each difference, and at the end how many comparisons passed and
failed."""
import json
import subprocess
import sys

SWITCHES = """ansi indent_lines targets thread_names verbose_entry verbose_exit span_retrace deferred_spans close_retrace span_modes
    bracketed_fields""".split()

# Each switch by itself, all but each switch, and other combinations.
NUMBERS = sorted({1 << bit for bit in range(11)} | {2047 - (1 << bit) for bit in range(11)} | {at * 389 % 2048 for at in range(64)})


def settings(number):
    """Returns the settings with this number. Each bit is a switch, and the number determines the
    indent amount and the wraparound."""
    line = {name: bool(number >> bit & 1) for bit, name in enumerate(SWITCHES)}
    line["indent_amount"] = 1 + number % 5
    if number % 3 == 0:
        line["wraparound"] = 1 + number % 4
    return json.dumps(line)


def run(command, given=""):
    return subprocess.run(command, input=given.encode(), stdout=subprocess.PIPE, check=True).stdout


def main():
    calls, program, others = sys.argv[1], sys.argv[2], sys.argv[3:]
    with open(calls, encoding="utf-8") as file:
        lines = file.read()
    wanted = {number: run([program], f"{settings(number)}\n{lines}") for number in NUMBERS}
    passed = failed = 0
    for other in others:
        parts = run([other, *map(str, NUMBERS)]).split(b"== ")[1:]
        drawn = dict(part.split(b"\n", 1) for part in parts)
        for number, text in wanted.items():
            same = text != b"" and drawn.get(str(number).encode()) == text
            passed, failed = passed + same, failed + (not same)
            if not same:
                print(f"same: FAILED: {other} draws otherwise under the settings {number}")
    print(passed, failed)


main()
