#!/usr/bin/env python3
"""Proves and tries everything: gate.py [--sample N] [--anew]

The gate checks what must not compile, every proof, and every edit that the prover must refuse. It
runs the proved tests and programs, some on random inputs.

`rt ci` works on a copy of the repository without its edits. Meanwhile scripts/edits.py tries the
edits, many in one check and each over the libraries that `rt ci` has just proved. Edits only get
the processor time that `rt ci` leaves. All output also goes to bin/gate.log. The last line is
'N passed, M failed'.

If an earlier run on this machine, with the same kit, proved or refused the same files, that isn't
tried again, unless --anew is given. The `rt ci` of some kits keeps no proofs: they prove everything
from nothing each time."""
import argparse, concurrent.futures, glob, os, re, shutil, subprocess, sys, tempfile, threading, time

import edits as edit_trials
import kit as kits
from runs import ended_in, passed_in

TOP = edit_trials.TOP
START = time.time()
PRINTING = threading.Lock()
# One in this many functions with edits is tried without an edit.
SHARE = 8
# Lists the files to copy: those in git, and new ones that git doesn't ignore.
LISTED = ["git", "ls-files", "-z", "--cached", "--others", "--exclude-standard"]


def say(text, start=None):
    took = f" ({(time.time() - start) / 60:.1f} min)" if start else ""
    line = f"gate: {(time.time() - START) / 60:5.1f} min: {text}{took}"
    with PRINTING, open(f"{TOP}/bin/gate.log", "a", encoding="utf-8") as log:
        print(line, flush=True)
        print(line, file=log)


def copy_to(room):
    """Copies the repository without its edits."""
    names = subprocess.run(LISTED, cwd=TOP, stdout=subprocess.PIPE, check=True).stdout.decode().split("\0")
    for name in names:
        if not name or "/must-fail/" in name or not os.path.isfile(f"{TOP}/{name}"):
            continue
        os.makedirs(os.path.dirname(f"{room}/{name}"), exist_ok=True)
        shutil.copy2(f"{TOP}/{name}", f"{room}/{name}")


class Gate:
    def __init__(self, kit, room, sample, is_anew):
        self.kit, self.room = kit, room
        self.proving = kit.proving(is_anew)
        self.passed, self.failed, self.proved, self.counting = 0, [], 0, threading.Lock()
        self.crates = {it.name: it for it in kit.rtlib.crates_below(room)}
        lanes = len(os.sched_getaffinity(0))
        self.edits = edit_trials.Edits(kit, self.crates.values(), lanes, say, sample, is_anew, SHARE)
        self.handed_in = set()

    def count(self, step, passed, failed, start):
        """Adds the counts of a step, and reports them."""
        with self.counting:
            self.passed += passed
            self.failed += failed
        say(f"{step}: {passed} passed, {len(failed)} failed", start)

    def start_proving(self):
        """Starts `rt ci` on the copy. Everything that this process starts later only gets the
        processor time that `rt ci` leaves."""
        how = {"cwd": self.room, "stdin": subprocess.DEVNULL, "stdout": subprocess.PIPE, "stderr": subprocess.STDOUT, "text": True}
        ran = subprocess.Popen([*self.kit.rtlib.guarded(), *self.proving], errors="replace", **how)
        os.nice(15)
        # Processors are idle while the first crates are proved, one after another. The edits of
        # crates without dependencies need no proved crate.
        for crate in self.crates.values():
            if not crate.deps:
                self.hand_in(crate)
        reading = threading.Thread(target=self.prove, args=(ran,))
        reading.start()
        return reading

    def hand_in(self, crate):
        """Starts to try a crate's edits, once."""
        folder = edit_trials.folder_of(crate)
        if crate.name not in self.handed_in and os.path.isdir(folder):
            self.handed_in.add(crate.name)
            self.edits.take(crate, folder)

    def prove(self, ran):
        """Reads the output of `rt ci` to its end. Starts to try a crate's edits when the crate has
        been proved."""
        start, last, names = time.time(), "", []
        for line in ran.stdout:
            last = self.heard(line.rstrip("\n")) or last
            names += re.findall(r"^rt: FAILED: (.*)", line)
        ran.wait()
        found = re.fullmatch(r"(\d+) passed, (\d+) failed", last)
        failed = names[0].split() if names else [] if found and found[2] == "0" else ["rt ci"]
        self.count("proofs from nothing, tests and programs", int(found[1]) if found else 0, failed, start)

    def heard(self, line):
        """Logs a line of `rt ci` and acts on it. Returns it if it has the final counts."""
        with PRINTING, open(f"{TOP}/bin/ci.log", "a", encoding="utf-8") as log:
            print(line, file=log)
        # A crate is kept if an earlier run of `rt ci` on this machine proved the same files.
        proved = re.fullmatch(r"rt: (\w+) (?:proved|is kept: .*)", line)
        if proved:
            self.proved += 1
            say(f"{proved[1]} proved, {self.proved} of {len(self.crates)} crates")
            self.hand_in(self.crates[proved[1]])
        elif re.match(r"rt: |test .*FAILED|\S+:\d+:\d+: error|error", line):
            say(line)
        return line if re.fullmatch(r"\d+ passed, \d+ failed", line) else None

    def misuse(self):
        start = time.time()
        ran = subprocess.run([f"{TOP}/misuse/run.py"], stdin=subprocess.DEVNULL, stdout=subprocess.PIPE, stderr=subprocess.STDOUT, text=True)
        lines = [it for it in ran.stdout.split("\n") if it.startswith("misuse ")]
        failed = [it for it in lines if "refused, as it must be" not in it] or ["misuse"] * bool(ran.returncode)
        for it in lines:
            say(it)
        self.count("what must not compile", len(lines) - len(failed), failed, start)

    def try_edits(self):
        start = time.time()
        passed, failed = self.edits.finish()
        every = sum(len(os.listdir(edit_trials.folder_of(it))) for it in self.crates.values() if os.path.isdir(edit_trials.folder_of(it)))
        if passed + len(failed) < every:
            failed.append(f"{every - passed - len(failed)} edits not tried")
        self.count("edits that must be refused", passed, failed, start)

    def programs(self, script, *crates, more=()):
        """Runs a script with the programs that `rt ci` built, and with the arguments `more`."""
        start = time.time()
        built = [f"{self.room}/crates/{it}/out/{it}" for it in crates]
        if not all(os.path.isfile(it) for it in built):
            return self.count(f"runs by {script}", 0, ["programs not built"], start)
        ran = subprocess.run([f"{TOP}/{script}", *built, *more], stdin=subprocess.DEVNULL, stdout=subprocess.PIPE, text=True)
        print(ran.stdout, end="", flush=True)
        passed, runs = ended_in(ran.stdout) or (0, 1)
        failed = re.findall(r"(?m)^(program .*?): FAILED", ran.stdout) or [script] * (passed < runs or ran.returncode != 0)
        return self.count(f"runs by {script}", passed, failed, start)

    def run_programs(self):
        """Compares the programs with the model, on random inputs and on quantities of many sizes.
        Then runs the programs as users do, makes calls for memory, reads and writes fail, and tests
        the library for C."""
        asked = ["--lines", "20000", "--calls", "20000", "--drawings", "20000", "--sizes", "16385"]
        self.programs("scripts/fuzz.py", "tracing_tree_cli", "tracing_tree_read", more=asked)
        self.programs("scripts/fuzz_formats.py", "ttree", more=["--inputs", "2000"])
        self.programs("scripts/program.sh", "tracing_tree_cli", "tracing_tree_read")
        self.programs("scripts/cases.py", "ttree")
        self.programs("scripts/ttree.sh", "ttree", "tracing_tree_cli")
        self.programs("scripts/page.py", "ttree", "tracing_tree_cli")
        self.programs("scripts/manual.py", "ttree", "tracing_tree_cli", "tracing_tree_read")
        self.programs("scripts/controls.py", "ttree")
        logs = sorted(glob.glob(f"{TOP}/examples/tracing*.jsonl"))
        self.programs("scripts/tracing_paths.py", "ttree", "tracing_tree_read", more=logs)
        self.programs("viewer/page_test.py", "ttree")
        self.faults()
        self.bindings()

    def faults(self):
        """Makes each allocation, each read and each write of programs on small inputs fail in turn.
        Counts the memory and the instructions of fixed works. Needs a C compiler: without one, says
        what is left out."""
        compiler = os.environ.get("CC", "cc")
        if not shutil.which(compiler):
            return say(f"left out: refused allocations, reads and writes, and counted memory and instructions: the C compiler {compiler} is not on the PATH")
        shim, counter, stepper = (f"{self.room}/{it}.so" for it in ("refuse", "count", "steps"))
        for source, made in (("refuse.c", shim), ("count.c", counter), ("steps.c", stepper)):
            compiled = subprocess.run([compiler, "-O1", "-shared", "-fPIC", "-o", made, f"{TOP}/scripts/{source}", "-ldl"], check=False)
            if compiled.returncode:
                return self.count("refused calls", 0, [f"scripts/{source} does not compile"], time.time())
        counted = ("bench", "tracing_tree_cli", "ttree", "example_service")
        self.programs("scripts/counts.py", *counted, more=[counter])
        self.programs("scripts/steps.py", "bench", more=[stepper])
        self.programs("scripts/refuse.py", "check_out_of_memory", more=[shim])
        data = f"{TOP}/crates/test_cases/data"
        lines = [f"{TOP}/examples/first.jsonl", f"{data}/drawing/two_lines_in_close.in", f"{data}/drawing/no_lines_two_lines.in"]
        self.programs("scripts/refuse.py", "tracing_tree_cli", more=[shim, *lines])
        samples = [f"{TOP}/examples/{it}" for it in ("go-test.jsonl", "uftrace.json", "otlp-shop.jsonl")]
        self.programs("scripts/refuse.py", "ttree", more=[shim, *samples])
        return self.programs("scripts/refuse.py", "tracing_tree_read", more=[shim, f"{data}/first/tree.out"])

    def bindings(self):
        """Builds the library for C over what `rt ci` proved. Runs the tests of its header and of
        the Rust crate."""
        start, crate = time.time(), self.crates["tracing_tree_c"]
        archive = f"out/lib{crate.name}.a"
        with open(f"{TOP}/bin/bindings.log", "w", encoding="utf-8") as crate.out:
            if crate.compile(["--jobs", "4"], archive):
                return self.count("library for C", 0, ["library for C not built: bin/bindings.log"], start)
        said = ""
        for words in (["bindings/build.sh", f"crates/{crate.name}/{archive}"], ["bindings/test.sh"]):
            how = {"cwd": self.room, "stdin": subprocess.DEVNULL, "stdout": subprocess.PIPE, "stderr": subprocess.STDOUT, "text": True}
            said += subprocess.run(words, errors="replace", **how).stdout
        print(said, end="", flush=True)
        passed, wrong = passed_in(said, "bindings") or (0, 1)
        failed = re.findall(r"(?m)^bindings: FAILED: (.*)", said) or ["library for C"] * (wrong > 0)
        return self.count("library for C", passed, failed, start)


def main():
    asked = argparse.ArgumentParser(description=__doc__, formatter_class=argparse.RawDescriptionHelpFormatter)
    asked.add_argument("--sample", type=int, default=0)
    asked.add_argument("--anew", action="store_true")
    asked = asked.parse_args()
    if subprocess.call([f"{TOP}/scripts/need.sh", "rt", "bash", "git"]):
        return 2
    os.makedirs(f"{TOP}/bin", exist_ok=True)
    for name in ("gate.log", "ci.log"):
        open(f"{TOP}/bin/{name}", "w", encoding="utf-8").close()
    kit = kits.load()
    kit.rtlib.guarded()
    with tempfile.TemporaryDirectory(prefix="gate-") as room:
        copy_to(room)
        gate = Gate(kit, room, asked.sample, asked.anew)
        # First, since it only takes seconds.
        gate.misuse()
        proving = gate.start_proving()
        proving.join()
        # At the same time as the edits, which leave a processor idle now and then.
        with concurrent.futures.ThreadPoolExecutor(1) as pool:
            running = pool.submit(gate.run_programs)
            gate.try_edits()
            running.result()
    for it in gate.failed:
        say(f"FAILED: {it}")
    print(f"{gate.passed} passed, {len(gate.failed)} failed")
    return 1 if gate.failed else 0


if __name__ == "__main__":
    sys.exit(main())
