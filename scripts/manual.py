#!/usr/bin/env python3
"""Runs the commands of the manual and compares what they print: manual.py TTREE TREE READ [--write]

A `console` block in docs/manual has commands, each after `$ `, and after each its output, standard
error too. The commands run in a temporary folder that has the examples. They name the programs
`ttree`, `tracing_tree` and `tracing_tree_read`, which are the arguments in this order. A command
that needs a proof isn't run: its output must be the file in RECORDED. The gate or the bindings'
tests compare what the program prints with that file. The files to which the manual and all other
pages link must exist.
--write puts the current output into the pages, for a person to review and commit. The last line is
'manual: N of M runs ended as they must'."""

import os
import pathlib
import re
import subprocess
import sys
import tempfile

from runs import Runs

TOP = pathlib.Path(__file__).resolve().parent.parent
NAMES = ("ttree", "tracing_tree", "tracing_tree_read")
BLOCK = re.compile(r"(?ms)^```console\n(.*?)^```$")
# What the programs print that `make test` doesn't run.
RECORDED = {
    "make service": "crates/example_service/stdout",
    "bin/example_workers check": "crates/example_workers/stdout",
    "cargo run --example server": "bindings/c/server.out",
    "cc bindings/c/server.c -Ibindings/c bin/libtracing_tree.a -o server && ./server": "bindings/c/server.out",
}
LINK = re.compile(r"\]\(([^)#:]+)[^):]*\)")
# The pages whose links are checked and whose commands aren't run.
OTHER_PAGES = sorted({*TOP.glob("*.md"), *TOP.glob("bindings/**/README.md"), *(TOP / "docs").rglob("*.md")}
                     - {*(TOP / "docs" / "manual").glob("*.md")})
SECONDS = 300


def steps_of(block):
    """Returns a block's commands, each with the output that it must have."""
    parts = re.split(r"(?m)^\$ (.*)\n", block)
    return list(zip(parts[1::2], parts[2::2]))


def printed(command, folder):
    """Returns the output of a command. It runs in a folder that has the examples, and may write
    files there."""
    if command in RECORDED:
        return (TOP / RECORDED[command]).read_text(encoding="utf-8")
    path = f"{folder}/bin:{os.environ['PATH']}"
    how = {"cwd": f"{folder}/top", "env": {**os.environ, "PATH": path}, "stdin": subprocess.DEVNULL}
    done = subprocess.run(["sh", "-c", f"{{ {command}\n}} 2>&1"], stdout=subprocess.PIPE, timeout=SECONDS, **how)
    return done.stdout.decode(errors="replace")


def lay_out(folder, programs):
    """Makes a folder with the programs under their names, and one with the examples."""
    os.makedirs(f"{folder}/bin")
    os.makedirs(f"{folder}/top")
    os.symlink(f"{TOP}/examples", f"{folder}/top/examples")
    for name, program in zip(NAMES, programs):
        os.symlink(os.path.abspath(program), f"{folder}/bin/{name}")


def run_page(path, folder, is_written, runs):
    """Runs a page's commands and checks its links."""
    text = path.read_text(encoding="utf-8")

    def run_block(block):
        made = ""
        for command, wanted in steps_of(block[1]):
            found = printed(command, folder)
            made += f"$ {command}\n{found}"
            fault = f"manual: {path.relative_to(TOP)}: {command}: FAILED:\nwanted:\n{wanted}printed:\n{found}"
            runs.add(found == wanted, "" if is_written else fault)
        return f"```console\n{made}```"

    filled = BLOCK.sub(run_block, text)
    if is_written:
        path.write_text(filled, encoding="utf-8")
    check_links(path, runs)


def check_links(path, runs):
    """Checks that each of a page's links leads to a file."""
    for it in LINK.findall(path.read_text(encoding="utf-8")):
        runs.add((path.parent / it).exists(), f"manual: {path.relative_to(TOP)}: {it}: FAILED: there is no such file")


def main():
    is_written = "--write" in sys.argv[1:]
    programs = [it for it in sys.argv[1:] if it != "--write"]
    runs = Runs("manual")
    with tempfile.TemporaryDirectory(prefix="manual-") as folder:
        lay_out(folder, programs)
        for path in sorted((TOP / "docs" / "manual").glob("*.md")):
            run_page(path, folder, is_written, runs)
    for path in OTHER_PAGES:
        check_links(path, runs)
    return runs.end()


if __name__ == "__main__":
    sys.exit(main())
