#!/usr/bin/env python3
"""Runs every test, every worked case and the runs of the programs, without proofs: tests.py
[CRATE..]

`rt try --test` runs the tests of each crate. It compiles the current sources with runtime checks.
The programs are compiled in the same way (scripts/unproved.py), and these scripts run them:

- scripts/program.sh, scripts/cases.py and scripts/ttree.sh run the programs as users do.
- scripts/fuzz.py compares them on random lines with a model that was written only from the docs
  (scripts/model.py).
- scripts/limits.py runs them with files and pipes that end.
- scripts/page.py compares the pages of ttree with docs/reference/pages.md.
- scripts/manual.py runs the manual's commands.
- scripts/controls.py draws inputs that are full of control characters.
- scripts/tracing_paths.py compares the spans of drawn events with those in the logs.
- scripts/install_test.py compares man pages and completions with the programs' help, and tries
  `make install` on a copy.

scripts/messages.py compares what targets and scripts say if a tool is missing. The docs and the
viewer are compared with their sources, and each edit of must-fail/ must apply. None of this shows
that a function does only what its contract says: `make gate` does, and runs the proved tests, cases
and programs.

The library for C has no build without its proofs, which take longer than all the tests. Its tests
and those of the Rust crate run if a check on this machine has proved the current sources of the
library. The last line is 'N passed, M failed'."""
import concurrent.futures, glob, os, re, shutil, subprocess, sys, time

import kit as kits
from runs import ended_in, passed_in

TOP = os.path.dirname(os.path.dirname(os.path.abspath(__file__)))
START = time.time()
# The programs: the crate, and the path of its unproved executable.
PROGRAMS = {"tracing_tree_cli": "bin/unproved_tree", "tracing_tree_read": "bin/unproved_read", "ttree": "bin/unproved_ttree"}
# Logs of Rust's tracing.
LOGS = tuple(f"examples/{it}.jsonl" for it in ("tracing", "tracing-flat", "tracing-full", "tracing-plain"))
# The scripts that run them, with their arguments.
RUNS = (
    ("scripts/program.sh", "--checked", "tracing_tree_cli", "tracing_tree_read"),
    ("scripts/cases.py", "ttree"),
    ("scripts/ttree.sh", "--checked", "ttree", "tracing_tree_cli"),
    ("scripts/page.py", "ttree", "tracing_tree_cli"),
    ("scripts/manual.py", "ttree", "tracing_tree_cli", "tracing_tree_read"),
    ("scripts/controls.py", "ttree"),
    ("scripts/tracing_paths.py", "ttree", "tracing_tree_read", *LOGS),
    ("scripts/model.py", "crates/test_cases/data"),
    ("scripts/fuzz.py", "--checked", "--lines", "3000", "--calls", "2000", "--drawings", "2000", "--sizes", "-1",
     "tracing_tree_cli", "tracing_tree_read"),
    ("scripts/limits.py", "--checked", "tracing_tree_cli", "tracing_tree_read", "ttree"),
    ("scripts/install_test.py", "tracing_tree_cli", "tracing_tree_read", "ttree"),
    ("scripts/messages.py",),
)
# The scripts that compare the docs with the sources, each with a name.
DOCS = (
    ("sizes of the claims", "scripts/claim.py", "--check"),
    ("examples of the docs", "scripts/examples.py"),
    ("the viewer's text", "viewer/build.py", "--check"),
    ("the places of the edits", "scripts/edit_texts.py"),
)

# The number of steps that have ended, and of all steps.
STEPS = {"done": 0, "all": 0}


def say(text):
    print(f"test: {(time.time() - START) / 60:4.1f} min: {text}", flush=True)


def ended(text):
    """Reports that a step has ended."""
    STEPS["done"] += 1
    say(f"{STEPS['done']} of {STEPS['all']}: {text}")


def ran(*words, folder=TOP):
    """Runs a command. Returns its status and its output, standard error included."""
    how = {"cwd": folder, "stdin": subprocess.DEVNULL, "stdout": subprocess.PIPE, "stderr": subprocess.STDOUT, "text": True}
    done = subprocess.run(words, errors="replace", **how)
    return done.returncode, done.stdout


def crates_with_tests():
    """Returns the crates of crates.txt that have a test, the largest first."""
    with open(f"{TOP}/crates.txt", encoding="utf-8") as file:
        names = [line.partition(":")[0].split()[0] for line in file if line.strip() and not line.startswith("#")]
    sizes = {}
    for name in names:
        text = ""
        for path in glob.glob(f"{TOP}/crates/{name}/src/**/*.rt", recursive=True):
            with open(path, encoding="utf-8") as file:
                text += file.read()
        if re.search(r"(?m)^\s*#\[test\]", text):
            sizes[name] = len(text)
    return sorted(sizes, key=sizes.get, reverse=True)


def run_tests(crate):
    """Runs a crate's tests. Returns how many passed and how many failed."""
    status, said = ran("rt", "try", "--test", "--seconds", "600", folder=f"{TOP}/crates/{crate}")
    found = re.search(r"test result: \w+\. (\d+) passed; (\d+) failed", said)
    passed, failed = (int(found[1]), int(found[2])) if found else (0, 1)
    if status and not failed:
        failed = 1
    ended(f"{crate}: {passed} passed, {failed} failed")
    if failed:
        print(said, flush=True)
    return passed, failed


def build(crate):
    """Compiles a program. Returns whether that succeeded."""
    status, said = ran(sys.executable, "scripts/unproved.py", crate, PROGRAMS[crate])
    ended(f"{crate}: {'compiled, without its proofs' if not status else 'NOT COMPILED'}")
    if status:
        print(said, flush=True)
    return not status


def run_programs(*words):
    """Runs a script that runs programs. Returns how many of its runs passed and how many failed."""
    status, said = ran(*(PROGRAMS.get(it, it) for it in words))
    print(said, end="", flush=True)
    found = ended_in(said)
    if not found:
        return 0, 1
    passed, runs = found
    ended(f"runs by {words[0]}: {passed} passed, {runs - passed} failed")
    return passed, max(runs - passed, 1 if status else 0)


def lacks_for_bindings():
    """Returns why the tests of the library for C are left out, or None if they can run."""
    if not shutil.which(os.environ.get("CC", "cc")):
        return "there is no C compiler"
    kit = kits.load()
    crate = next(it for it in kit.rtlib.crates_below(TOP) if it.name == "tracing_tree_c")
    return None if kit.is_proved_here(crate) else "it is not proved on this machine as it stands, and has no build without proofs"


def run_bindings():
    """Builds the library for C from kept proofs, and runs its tests and those of the Rust crate.
    One test compares the library with the program that was compiled here."""
    status, said = ran("bindings/build.sh")
    if not status:
        status, said = ran("env", f"TRACING_TREE={PROGRAMS['tracing_tree_cli']}", "bindings/test.sh")
    print(said, end="", flush=True)
    passed, failed = passed_in(said, "bindings") or (0, 1)
    ended(f"the library for C: {passed} passed, {failed} failed")
    return passed, max(failed, 1 if status else 0)


def check_docs(what, *words):
    """Runs a script that compares the docs with the sources. Returns how many places agree and how
    many don't."""
    _, said = ran(sys.executable, *words)
    print(said, end="", flush=True)
    ended(what)
    return passed_in(said) or (0, 1)


def main():
    if subprocess.call([f"{TOP}/scripts/need.sh", "rt", "bash"]):
        return 2
    os.makedirs(f"{TOP}/bin", exist_ok=True)
    crates = crates_with_tests()
    unknown = set(sys.argv[1:]) - {*crates}
    if unknown:
        sys.exit(f"test: no crate with tests is named {', '.join(sorted(unknown))}")
    wanted = [it for it in crates if not sys.argv[1:] or it in sys.argv[1:]]
    programs = [] if sys.argv[1:] else [*PROGRAMS]
    lacking = lacks_for_bindings() if programs else None
    has_bindings = bool(programs) and not lacking
    STEPS["all"] = len(wanted) + len(programs) + has_bindings + (len(RUNS) + len(DOCS) if programs else 0)
    say(f"{len(wanted)} crates with tests and {len(programs)} programs, compiled without their proofs")
    with concurrent.futures.ThreadPoolExecutor(len(os.sched_getaffinity(0))) as pool:
        # The programs come first: most runs wait for them.
        built = [pool.submit(build, it) for it in programs]
        tested = [pool.submit(run_tests, it) for it in wanted]
        are_built = [it.result() for it in built]
        bound = [pool.submit(run_bindings)] if has_bindings else []
        ran_by = [pool.submit(run_programs, *it) if all(are_built) else None for it in RUNS if programs]
        counts = [it.result() for it in tested]
        counts += [it.result() if it else (0, 1) for it in ran_by]
        counts += [it.result() for it in bound]
    if programs:
        counts += [check_docs(what, *words) for what, *words in DOCS]
    if lacking:
        say(f"left out: the tests of the library for C and of the Rust crate, since {lacking}: make bindings-test proves it and runs them")
    passed, failed = (sum(it) for it in zip(*counts))
    print(f"{passed} passed, {failed} failed")
    return 1 if failed else 0


if __name__ == "__main__":
    sys.exit(main())
