#!/usr/bin/env python3
"""Runs targets and scripts without a tool or library that they need. Each must print the sentence
that says what to do: messages.py

Each run has its own PATH, in a copy of the repository without its crates. The kit, the compilers
and similar tools are stubs there, and no stub may be called: a missing tool is reported before
anything is proved or built. The last line is 'messages: N of M runs ended as they must'."""
import os, shutil, subprocess, sys, tempfile

from runs import Runs as Counted

TOP = os.path.dirname(os.path.dirname(os.path.abspath(__file__)))
COPIED = ("Makefile", "crates.txt", "scripts", "bindings", "misuse", "examples")
# Tools that are taken from this machine, and those that are replaced by a stub.
TOOLS = ("awk bash basename cat chmod cmp cp cut date dirname env find grep head id install ln ls "
         "make mkdir mktemp mv realpath rm sed seq sh sleep sort tail tee test timeout touch tr "
         "true uname wc").split()
STAND_INS = ("rt", "cc", "c++", "ar", "git", "valgrind", "cargo")

RT = "the kit's command rt is not on the PATH: add the folder bin/ of the Rattle kit to it"
PYTHON = "python3 is not on the PATH: install Python 3 (Debian: apt install python3)"
CC = ("the C compiler cc is not on the PATH: "
      "install one (Debian: apt install gcc), or name yours, as in CC=clang")
GIT = "git is not on the PATH: install it (Debian: apt install git)"
AR = "ar is not on the PATH: install it (Debian: apt install binutils)"
VALGRIND = "valgrind is not on the PATH: install it (Debian: apt install valgrind)"
LIBRARY = "bin/libtracing_tree.a isn't there: run 'make bindings' first (about 20 minutes)"

# The targets that need the kit, which needs Python, and those that need a C compiler too.
KIT = ("demo test prove gate edits build service workers stress bench faults fuzz soak memcheck "
       "limits counts bindings bindings-test bindings-bench").split()
COMPILED = "bench faults soak counts bindings bindings-test bindings-bench".split()
# The missing tool, the command, and the sentence that it must print.
RUNS = (
    *(("rt", f"make {it}", RT) for it in KIT),
    *(("python3", f"make {it}", PYTHON) for it in (*KIT, "claim NAME=read_rows")),
    *(("cc", f"make {it}", CC) for it in COMPILED),
    ("ar", "make bindings", AR),
    *(("valgrind", f"make {it}", VALGRIND) for it in ("memcheck", "bindings-bench")),
    ("cc", "make CC=other bindings", CC.replace("cc is", "other is")),
    # `-o build` acts as if the programs were built.
    ("rt", "make -o build prove", RT),
    ("rt", "scripts/demo.sh", RT),
    ("rt", "scripts/build.sh tracing_tree_cli bin/tracing_tree", RT),
    ("rt", "python3 scripts/tests.py", RT),
    ("rt", "python3 scripts/gate.py", RT),
    ("git", "python3 scripts/gate.py", GIT),
    ("rt", "bindings/build.sh", RT),
    ("library", "bindings/test.sh", LIBRARY),
    ("library", "bindings/bench.sh", LIBRARY),
    ("cc", "bindings/test.sh", CC),
    ("ar", "bindings/test.sh", AR),
    ("python3", "bindings/test.sh", PYTHON),
    ("cc", "bindings/bench.sh", CC),
    ("valgrind", "bindings/bench.sh", VALGRIND),
    ("git", "make dist", GIT),
    ("library", "env SOURCE_DATE_EPOCH=1 make dist",
     "install: bin/libtracing_tree.a is missing: "
     "run 'make bindings' (20 minutes on four cores)"),
    ("library", "scripts/dist_test.sh", "dist/tracing_tree-0.1.0-x86_64-linux.tar.gz isn't there: "
                                        "run 'make dist' first"),
    ("cc", "scripts/dist_test.sh", CC),
    ("python3", "scripts/dist_test.sh", PYTHON),
)


def write(path, text):
    with open(path, "w", encoding="utf-8") as file:
        file.write(text)
    os.chmod(path, 0o755)


def lay_out(room):
    """Copies what the runs need, and makes a folder of tools."""
    for name in COPIED:
        if os.path.isdir(f"{TOP}/{name}"):
            left_out = shutil.ignore_patterns("target", "__pycache__")
            shutil.copytree(f"{TOP}/{name}", f"{room}/{name}", ignore=left_out)
        else:
            shutil.copy2(f"{TOP}/{name}", f"{room}/{name}")
    for name in ("crates", "tools"):
        os.mkdir(f"{room}/{name}")
    for name in TOOLS:
        found = shutil.which(name)
        if found:
            os.symlink(found, f"{room}/tools/{name}")
    write(f"{room}/tools/python3", f'#!/bin/sh\nexec "{sys.executable}" "$@"\n')
    for name in STAND_INS:
        write(f"{room}/tools/{name}", f'#!/bin/sh\necho {name} >> "{room}/called"\nexit 1\n')


def run(room, missing, words):
    """Runs a command without a tool or the library. Returns its status and its output."""
    shutil.rmtree(f"{room}/bin", ignore_errors=True)
    os.mkdir(f"{room}/bin")
    write(f"{room}/bin/libtracing_tree.a", "")
    write(f"{room}/called", "")
    path = f"{room}/{'bin/libtracing_tree.a' if missing == 'library' else f'tools/{missing}'}"
    os.rename(path, f"{room}/aside")
    how = {"stdin": subprocess.DEVNULL, "stdout": subprocess.PIPE, "stderr": subprocess.STDOUT}
    env = {"PATH": f"{room}/tools", "HOME": room}
    done = subprocess.run(words.split(), cwd=room, env=env, timeout=60, text=True, **how)
    os.rename(f"{room}/aside", path)
    return done.returncode, done.stdout


def fault(room, missing, words, sentence):
    """Returns why a run failed, or None if it ended as it must."""
    status, said = run(room, missing, words)
    if status != 2:
        return f"status {status}, and it said {said[-300:]!r}"
    if said.split("\n").count(sentence) != 1:
        return f"it said {said[-300:]!r}"
    with open(f"{room}/called", encoding="utf-8") as file:
        called = file.read().split()
    if called:
        return f"it called {' '.join(called)}"
    left = os.listdir(f"{room}/bin")
    return f"bin/ holds {' '.join(left)}" if left != ["libtracing_tree.a"] else None


def main():
    runs = Counted("messages")
    with tempfile.TemporaryDirectory(prefix="messages-") as room:
        lay_out(room)
        for missing, words, sentence in RUNS:
            found = fault(room, missing, words, sentence)
            runs.add(not found, f"messages: {words} without {missing}: FAILED: {found}")
    return runs.end()


if __name__ == "__main__":
    sys.exit(main())
