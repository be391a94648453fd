#!/usr/bin/env python3
"""Checks what must not compile. Each misuse/*.txt is a library that uses the crates in its first
line. It must be refused with exactly the errors in its `expect` lines. The compiler reads those
crates as sources, so they needn't be proved first."""
import glob, os, re, shutil, subprocess, sys, tempfile

TOP = os.path.dirname(os.path.dirname(os.path.abspath(__file__)))
sys.path.insert(0, f"{TOP}/scripts")
import kit

ERROR = re.compile(r"(?m)^\S+: error\[[^]]*\]")
# No function has this name, so the check ends when the sources have been read.
READS_ALONE = ["--jobs", "1", "--start", "no function"]


def read(path):
    with open(path, encoding="utf-8") as file:
        return file.read()


def lay_out(room, cases):
    """Copies the crates, and adds each case as a crate."""
    shutil.copytree(f"{TOP}/crates", f"{room}/crates", ignore=shutil.ignore_patterns("out", "must-fail"))
    with open(f"{room}/crates.txt", "w", encoding="utf-8") as file:
        file.write(read(f"{TOP}/crates.txt"))
        for name, text in cases.items():
            deps = re.search(r"(?m)^// deps: (.*)$", text)[1]
            file.write(f"{name}: {deps}\n")
    for name, text in cases.items():
        os.makedirs(f"{room}/crates/{name}/src")
        with open(f"{room}/crates/{name}/src/lib.rt", "w", encoding="utf-8") as file:
            file.write(text)


def said_of(rtlib, crate):
    """Returns the compiler's output for a case."""
    words = [rtlib.RATTLE, "check", *crate.words(READS_ALONE, as_source=True)]
    how = {"cwd": crate.folder, "stdin": subprocess.DEVNULL, "stdout": subprocess.PIPE, "stderr": subprocess.STDOUT, "errors": "replace"}
    return subprocess.run(words, timeout=600, text=True, check=False, **how).stdout


def main():
    rtlib = kit.load().rtlib
    cases = {os.path.basename(path).removesuffix(".txt"): read(path) for path in sorted(glob.glob(f"{TOP}/misuse/*.txt"))}
    failed = 0
    with tempfile.TemporaryDirectory(prefix="misuse-") as room:
        lay_out(room, cases)
        crates = {it.name: it for it in rtlib.crates_below(room)}
        for name, text in cases.items():
            wanted = set(re.findall(r"(?m)^// expect: (.*)$", text))
            said = said_of(rtlib, crates[name])
            found = set(ERROR.findall(said))
            if wanted and found == wanted:
                print(f"misuse {name}: refused, as it must be", flush=True)
            else:
                print(f"misuse {name}: FAILED: wanted {sorted(wanted)} and found {sorted(found)}\n{said[-600:]}", flush=True)
                failed = 1
    return failed


if __name__ == "__main__":
    sys.exit(main())
