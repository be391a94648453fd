#!/usr/bin/env python3
"""Runs ttree on inputs whose trees were written by hand: cases.py TTREE [FILE..]

A file of scripts/ttree/ has the cases of one format. A case begins with a line `== NAME`. Then come
the command, the files that it reads, and what it must print:

    == a plan that isn't met
    $ ttree --from tap plan
    -- plan
    1..2
    ok 1
    -- output
    INFO pass 1
    ERROR planned 2, ran 1
    -- status 1

`-- output` is standard output, `-- error` standard error, and `-- status` is 0 unless given. Every
other name after `-- ` is a file. A part whose name ends in ` (escaped)` has Python's escapes for
control characters, and `\\` at its end for a missing line end. Messages name files without their
folder. The examples are in `examples/`. Lines before the first case are comments.

The last line is 'cases: N of M runs ended as they must'."""
import codecs, dataclasses, glob, os, re, shlex, subprocess, sys, tempfile

from runs import Runs

TOP = os.path.dirname(os.path.dirname(os.path.abspath(__file__)))
ESCAPED = " (escaped)"
SECONDS = 300


@dataclasses.dataclass
class Case:
    """A command, its input, and what it must print."""
    name: str
    command: str = ""
    files: dict = dataclasses.field(default_factory=dict)
    output: bytes = b""
    error: bytes = b""
    status: int = 0

    def put(self, part, text):
        """Takes a part of the case."""
        if part.endswith(ESCAPED):
            part, content = part[:-len(ESCAPED)], unescaped(text)
        else:
            content = text.encode()
        if part == "output":
            self.output = content
        elif part == "error":
            self.error = content
        elif part.startswith("status "):
            self.status = int(part.split()[1])
        else:
            self.files[part] = content


def unescaped(text):
    """Returns the bytes of a string with escapes."""
    if text.endswith("\\\n"):
        text = text[:-2]
    return codecs.escape_decode(text.encode())[0]


def read_cases(path):
    """Yields the cases of a file."""
    with open(path, encoding="utf-8", newline="\n") as file:
        for text in re.split(r"(?m)^== ", file.read())[1:]:
            first, *parts = re.split(r"(?m)^-- ", text)
            name, _, command = first.partition("\n$ ")
            case = Case(name, command.strip())
            for part in parts:
                case.put(*part.split("\n", 1))
            yield case


def run_case(case, ttree):
    """Runs a case in a folder of its files. Returns what was printed and the status."""
    with tempfile.TemporaryDirectory(prefix="cases-") as folder:
        os.symlink(f"{TOP}/examples", f"{folder}/examples")
        for name, content in case.files.items():
            with open(f"{folder}/{name}", "wb") as file:
                file.write(content)
        command, _, given = case.command.partition(" < ")
        with open(f"{folder}/{given}" if given else os.devnull, "rb") as stdin:
            done = subprocess.run([ttree, *shlex.split(command)[1:]], cwd=folder, stdin=stdin, capture_output=True,
                                  timeout=SECONDS, env={**os.environ, "NO_COLOR": ""})
        named = "|".join(map(re.escape, case.files)) or "examples"
        error = re.sub(rf"(?m)^ttree: ({named}|examples/[^:\n]+): ".encode(), b"ttree: ", done.stderr)
        return done.stdout, error, done.returncode


def main():
    ttree = os.path.abspath(sys.argv[1])
    runs = Runs("cases")
    for path in sys.argv[2:] or sorted(glob.glob(f"{TOP}/scripts/ttree/*.cases")):
        for case in read_cases(path):
            output, error, status = run_case(case, ttree)
            runs.add((output, error, status) == (case.output, case.error, case.status),
                     f"cases: {os.path.basename(path)}: {case.name}: FAILED: status {status}, and on standard error: {error[:200]}\n"
                     f"printed:\n{output[:2000].decode(errors='replace')}")
    return runs.end()


if __name__ == "__main__":
    sys.exit(main())
