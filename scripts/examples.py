#!/usr/bin/env python3
"""Compares the examples in the docs and in doc comments with code that is compiled and tested.

usage: examples.py

Each block of Rust in README.md or in a `///` or `//!` comment must appear in the sources of a crate
of tests. Each block of code in docs/manual must appear in a crate or in an example of bindings/.
Indentation and empty lines may differ. The last line is 'examples: N passed, M failed'."""
import glob, os, re, sys

TOP = os.path.dirname(os.path.dirname(os.path.abspath(__file__)))


def read(path):
    with open(path, encoding="utf-8") as file:
        return file.read()


def lines_of(text):
    """Returns the lines of a string without indentation and without empty lines."""
    return [line.strip() for line in text.split("\n") if line.strip()]


def blocks(path, languages="rust"):
    """Returns the blocks of code in a Markdown file, or in the doc comments of a source file."""
    text = read(path)
    if path.endswith(".rt"):
        text = "\n".join(line.strip()[3:].removeprefix(" ") if re.match(r"\s*//[/!]", line) else "" for line in text.split("\n"))
    return re.findall(rf"(?ms)^```(?:{languages})\n(.*?)^```", text)


def stands_in(block, source):
    """Returns whether `source` contains the lines of a block, one after another."""
    wanted = lines_of(block)
    return any(source[at : at + len(wanted)] == wanted for at in range(len(source) - len(wanted) + 1))


def sources(*patterns):
    """Returns the lines of each file of these patterns."""
    return [lines_of(read(path)) for it in patterns for path in sorted(glob.glob(f"{TOP}/{it}", recursive=True))]


def compare(path, found, compiled):
    """Compares blocks of a file with compiled sources. Prints those that are missing, and returns
    their number."""
    missing = [it for it in found if not any(stands_in(it, source) for source in compiled)]
    for block in missing:
        print(f"example of {os.path.relpath(path, TOP)}: FAILED: it is in no compiled source: {lines_of(block)[:1]}")
    return len(missing)


def main():
    tested = sources("crates/test_*/src/**/*.rt")
    compiled = sources("crates/*/src/**/*.rt", "bindings/**/*.rs", "bindings/**/*.c", "bindings/**/*.cpp", "bindings/**/*.go")
    shown = [(f"{TOP}/README.md", "rust", tested)]
    shown += [(it, "rust", tested) for it in sorted(glob.glob(f"{TOP}/crates/*/src/**/*.rt", recursive=True))]
    shown += [(it, "rust|c|cpp|go", compiled) for it in sorted(glob.glob(f"{TOP}/docs/manual/*.md"))]
    count, failed = 0, 0
    for path, languages, where in shown:
        found = blocks(path, languages)
        count += len(found)
        failed += compare(path, found, where)
    print(f"examples: {count - failed} passed, {failed} failed")
    return 1 if failed or not count else 0


if __name__ == "__main__":
    sys.exit(main())
