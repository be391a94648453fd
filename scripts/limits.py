#!/usr/bin/env python3
"""Runs the programs at the machine's limits and with odd arguments.

usage: limits.py [--checked] DRAWING_PROGRAM READING_PROGRAM TTREE

The limits are memory, the stack, the size of a file, a full device and a full disk. There are also
pipes whose reader stops, is slow or reads nothing, with SIGPIPE ignored or not. The output must be
a prefix of the right output. It must end as docs/reference/formats.md says for the reported line and word,
and the status must be that of the word. scripts/model.py and scripts/model_rows.py compute the
right outputs. For TTREE the right output is what it writes without a limit.

--checked says that the programs were compiled with checks of memory. They reserve terabytes of
addresses, so the limits of memory and of the stack are left out. The last line is
'limits: N of M runs ended as they must'.
"""
import fcntl, os, re, resource, shutil, signal, subprocess, sys, tempfile, threading, time

import limit_inputs
from limit_inputs import Drawing, Lines, Told
from runs import Runs

SECONDS = 120
KIB = 1024
# What ttree reports instead of the other programs' words.
SENTENCES = {"out of memory": "memory", "the input can't be read": "read", "the output can't be written": "writer"}


def in_words(told):
    """Returns a fault that ttree reports in the words of the other programs. If it names no line,
    that is line 1, or the end if the output can't be written."""
    found = re.fullmatch(r"ttree: (line \d+: )?([^:]+)\n", told)
    word = SENTENCES.get(found[2]) if found else None
    if not word:
        return told
    return f"{found[1] or ('end: ' if word == 'writer' else 'line 1: ')}{word}\n"


class Limits:
    """The programs, indexed by the `program` of an input, and the number of runs that ended as they
    must."""

    def __init__(self, programs, room):
        self.programs, self.room = programs, room
        self.runs, self.words = Runs("limits"), {}

    def count(self, name, is_right, ended):
        out, told, status = ended
        self.runs.add(is_right, f"limits: FAILED: {name}: status {status}, {len(out)} bytes out, standard error {told[:200]!r}")

    def run(self, given, limit=None, out=subprocess.PIPE, words=None, **how):
        """Runs an input's program, or the command `words`. `limit` is called in the new process
        first."""
        how = {"input": given.source, "stderr": subprocess.PIPE, "timeout": SECONDS, "check": False, **how}
        done = subprocess.run(words or [self.programs[given.program]], stdout=out, preexec_fn=limit, **how)
        return done.stdout or b"", done.stderr, done.returncode

    def judge(self, name, given, ended, must_end=None):
        """Counts a run under a limit. It either ends as without a limit, or reports a line and a
        word that fit its output. If only one of the two is right, `must_end` says which."""
        out, told, status = ended
        is_whole = ended == (given.whole, given.told, given.status)
        found = re.fullmatch(r"(?:line (\d+): (memory|writer|read)|end: (writer))\n", in_words(told.decode(errors="replace")))
        word = (found[2] or found[3]) if found else ""
        self.words.setdefault(name, set()).add(word)
        if is_whole or not found:
            return self.count(f"{name}, {given.name}", is_whole and must_end is not False, ended)
        least, most = given.out(int(found[1]), word) if found[1] else (b"", given.whole)
        is_right = status == 1 and out.startswith(least) and most.startswith(out) and must_end is not True
        return self.count(f"{name}, {given.name}", is_right, ended)


# ---- memory, files and devices

def at_most(kind, count):
    return lambda: resource.setrlimit(kind, (count, count))


def little_memory(limits, inputs):
    """Limits the address space. The program starts under the first limit, and not under a smaller
    one. With the next ones it runs out of memory at several places."""
    for given in inputs:
        name = f"little memory, program {given.program}"
        empty = Lines("settings alone", [b"{}"]) if given.program == 0 else Drawing("nothing", b"")
        words = [limits.programs[given.program]]
        least = next(it for it in range(2048 * KIB, 2**28, 512 * KIB)
                     if limits.run(empty, at_most(resource.RLIMIT_AS, it), words=words)[2] == 0)
        for more in (0, 1, 2, 3, 4, 6, 9, 14, 22, 30, 40, 60):
            limits.judge(name, given, limits.run(given, at_most(resource.RLIMIT_AS, least + more * 512 * KIB)))
    for name, words in limits.words.items():
        if name.startswith("little memory"):
            limits.count(f"{name}: some runs end by it", "memory" in words, (b"", b"", 0))


def small_stack(limits, inputs):
    for given in inputs:
        limits.judge("a stack of 128 KiB", given, limits.run(given, at_most(resource.RLIMIT_STACK, 128 * KIB)), must_end=True)


def short_files(limits, inputs):
    """Limits the size of the output file, as a quota does. SIGXFSZ is ignored, so that the write
    fails."""
    for given in inputs:
        for most in (0, 1, 7, 4095, 4096, 8191, 8192, 8193, 65536, 65537, len(given.whole) - 1, len(given.whole)):
            with open(f"{limits.room}/file", "w+b") as file:
                _, told, status = limits.run(given, at_most(resource.RLIMIT_FSIZE, most), out=file, restore_signals=False)
                file.seek(0)
                out = file.read()
            limits.judge(f"a file of {most} bytes", given, (out, told, status), must_end=most >= len(given.whole))


def full_devices(limits, inputs):
    for given in inputs:
        with open("/dev/full", "wb") as full:
            limits.judge("a full device", given, limits.run(given, out=full), must_end=False)
    mounting = ["unshare", "-m", "mount", "-t", "tmpfs", "none", limits.room]
    if not shutil.which("unshare") or subprocess.run(mounting, capture_output=True, check=False).returncode:
        print("limits: left out: a full disk, since no file system may be mounted here")
        return
    script = 'mount -t tmpfs -o size=8k none "$0" && { "$@" > "$0/out"; status=$?; cat "$0/out"; exit $status; }'
    for given in inputs:
        disk = ["unshare", "-m", "sh", "-c", script, limits.room, limits.programs[given.program]]
        limits.judge("a full disk", given, limits.run(given, words=disk), must_end=len(given.whole) <= 8 * KIB)


# ---- pipes

def piped(limits, given, take, is_blocking=True, **how):
    """Runs an input with a pipe of one page as its output. `take` reads the pipe."""
    reading, writing = os.pipe()
    fcntl.fcntl(reading, fcntl.F_SETPIPE_SZ, 4 * KIB)
    os.set_blocking(writing, is_blocking)
    ended = []

    def run():
        ended.append(limits.run(given, out=writing, **how))
        os.close(writing)
    running = threading.Thread(target=run)
    running.start()
    out = take(reading, running)
    running.join()
    return out, ended[0][1], ended[0][2]


def rest(reading):
    """Returns the rest of a pipe's data and closes the pipe."""
    out = b""
    while part := os.read(reading, 64 * KIB):
        out += part
    os.close(reading)
    return out


def slow(reading, _):
    """Reads a few bytes several times, then the rest."""
    out = b""
    for count in (1, 1, 2, 100, 4 * KIB, 1, 5000):
        time.sleep(0.05)
        out += os.read(reading, count)
    return out + rest(reading)


def later(reading, _):
    """Waits before it reads."""
    time.sleep(0.5)
    return rest(reading)


def gone(reading, _):
    """Reads only the first 100 bytes."""
    out = os.read(reading, 100)
    os.close(reading)
    return out


def ended_first(reading, running):
    """Reads nothing until the program has ended."""
    running.join(SECONDS)
    return rest(reading)


def pipes(limits, inputs):
    for given in inputs:
        limits.judge("a slow reader", given, piped(limits, given, slow), must_end=True)
        limits.judge("a reader that waits", given, piped(limits, given, later), must_end=True)
        limits.judge("a pipe that is full and can't wait", given, piped(limits, given, ended_first, is_blocking=False), must_end=False)
        for is_default in (True, False):
            name = f"a pipe whose reader goes, SIGPIPE {'as it is' if is_default else 'ignored'}"
            ended = piped(limits, given, gone, restore_signals=is_default)
            if isinstance(given, Told):
                # ttree ends silently, as other programs do when `head` stops reading.
                out, reported, status = ended
                is_silent = (reported, status) == (b"", 0) and given.whole.startswith(out)
                limits.count(f"{name}, {given.name}", is_silent, ended)
            else:
                limits.judge(name, given, ended, must_end=False)


# ---- arguments and statuses

# Any string that isn't empty. Used if the exact words aren't promised.
ANY = object()


def told(limits, name, words, source, wanted, closed=None, **how):
    """Counts a run by its output, its standard error and its status. `closed` is a standard stream
    that is closed first."""
    how = {"stdout": subprocess.PIPE, "stderr": subprocess.PIPE, "timeout": SECONDS, "check": False, **how}
    done = subprocess.run(words, input=source, preexec_fn=None if closed is None else lambda: os.close(closed), **how)
    seen = done.stdout or b"", done.stderr or b"", done.returncode
    limits.count(name, all(it == want or (want is ANY and it != b"") for it, want in zip(seen, wanted)), seen)


def arguments(limits):
    program, reader, ttree = limits.programs
    tree, wide, go_lines = limit_inputs.events(3), limit_inputs.wide_row(), limit_inputs.go_lines(1)
    told(limits, "drawing, an argument that isn't UTF-8", [program, b"\xff"], tree.source, (tree.whole, b"", 0))
    for words in (["--amount", "300"], ["--amount=300"]):
        told(limits, f"reading, {words}", [reader, *words], wide.source, (wide.whole, b"", 0))
    told(limits, "reading, the widest amount", [reader, "--amount", str(2**64 - 1)], b"x\n", (Drawing("x", b"x\n").whole, b"", 0))
    told(limits, "ttree, --amount 300", [ttree, "--amount", "300"], go_lines, (ANY, b"", 1))
    told(limits, "reading, --amount 0", [reader, "--amount", "0"], b"x\n", (b"", ANY, 2))
    for word in (str(2**64), "-1", "", "2.0", b"\xff"):
        told(limits, f"reading, --amount {word!r}", [reader, "--amount", word], b"x\n", (b"", ANY, 2))
        told(limits, f"ttree, --amount {word!r}", [ttree, "--amount", word], b"", (b"", ANY, 2))
    for word in (b"\xff", b"--\xff", b"--amount=\xff", b"-\xff"):
        told(limits, f"reading, {word!r}", [reader, word], b"x\n", (b"", ANY, 2))
        told(limits, f"ttree, {word!r}", [ttree, word], b"", (b"", ANY, 2))
    for words in (["--amount"], ["--color", "blue"], ["--color"], ["--from"], ["a", "b"]):
        told(limits, f"ttree, {words}", [ttree, *words], b"", (b"", ANY, 2))


def odd_lines(limits):
    """Runs odd lines, and reads two of the odd drawings back."""
    program, reader, _ = limits.programs
    for source, out, line, status in limit_inputs.ODD_LINES:
        told(limits, f"drawing {source!r}", [program], source.encode(), (out.encode(), line.encode(), status))
    told(limits, "drawing, a line that isn't UTF-8", [program], b'{}\n{"call":"new","name":"\xff"}\n', (b"", b"line 2: not a call\n", 1))
    for text, rows in (("┐┐ \n", ["┐ "]), ("┐a\n┐┐b \n", ["a", "┐b "])):
        out = "".join(f'{{"shape":"OpenRoot","level":0,"lines":["{it}"]}}\n' for it in rows)
        told(limits, f"reading {text!r}", [reader], text.encode(), (out.encode(), b"", 0))


def statuses(limits):
    """Runs drawings with a fault, and runs with a standard stream closed."""
    _, reader, ttree = limits.programs
    lines = "┐a\n├─ INFO x\n".encode()
    rows, first = Drawing("rows", lines), Drawing("row", lines[:5])
    for name, source, out, line in (
            ("a line that isn't UTF-8", lines[:5] + b"\xff\n" + lines[5:], first.whole, 2), ("no line end", lines[:-1], first.whole, 2),
            ("an empty line", b"\n" + lines, b"", 1), ("a line of spaces", lines + b"  \n", rows.whole, 3)):
        told(limits, f"reading, {name}", [reader], source, (out, b"line %d: not a row\n" % line, 1))
    counted = b"INFO passed=0, failed=0, skipped=0, unfinished=0, packages=0, packages_failed=0\n"
    go_lines, quiet = limit_inputs.go_lines(1), {"stderr": None}
    told(limits, "reading, with standard input closed", [reader], None, (b"", b"line 1: read\n", 1), closed=0)
    told(limits, "ttree, with standard input closed", [ttree], None, (b"", b"ttree: line 1: the input can't be read\n", 1), closed=0)
    told(limits, "reading, with standard output closed", [reader], lines, (b"", b"end: writer\n", 1), closed=1)
    told(limits, "ttree, with standard output closed", [ttree], go_lines, (b"", ANY, 1), closed=1)
    told(limits, "reading, with standard error closed", [reader], lines, (rows.whole, b"", 0), closed=2, **quiet)
    told(limits, "ttree, with standard error closed", [ttree, "--from", "go-test"], b"", (counted, b"", 0), closed=2, **quiet)
    for program in (reader, ttree):
        name = f"{os.path.basename(program)}, a wrong argument with standard error closed"
        told(limits, name, [program, "-x"], b"", (b"", b"", 2), closed=2, **quiet)


def main():
    words = [os.path.abspath(it) for it in sys.argv[1:] if it != "--checked"]
    if len(words) != 3:
        sys.exit(__doc__)
    is_checked = "--checked" in sys.argv[1:]
    signal.signal(signal.SIGPIPE, signal.SIG_IGN)
    with tempfile.TemporaryDirectory(prefix="limits-") as room:
        limits, ttree = Limits(words, room), words[2]
        short = 400 if is_checked else 5000
        inputs = [limit_inputs.events(2 * short), limit_inputs.crowd(short), limit_inputs.many_rows(short),
                  Told("Go's tests", limit_inputs.go_lines(short // 50), ttree)]
        arguments(limits)
        odd_lines(limits)
        statuses(limits)
        short_files(limits, inputs)
        full_devices(limits, inputs)
        pipes(limits, inputs)
        if not is_checked:
            deep = [limit_inputs.deep_value(127), limit_inputs.deep_value(128), limit_inputs.deep_drawing(500)]
            small_stack(limits, [*inputs, *deep, limit_inputs.chain(2000), limit_inputs.long_line(10**6)])
            little_memory(limits, [
                limit_inputs.crowd(20000), limit_inputs.chain(1000), limit_inputs.long_line(10**7), limit_inputs.recorded(30000),
                limit_inputs.deep_drawing(1500), Drawing("a long row", b"x" * 10**7 + b"\ny\n"),
                Told("a long output", limit_inputs.long_output(10**7), ttree)])
        return limits.runs.end()


if __name__ == "__main__":
    sys.exit(main())
