#!/usr/bin/env python3
"""Converts lines of `go test -json` to lines of calls: go_lines.py [--failed] < INPUT > LINES

It was written only from 'Go's tests' and 'What failed' in docs/reference/formats.md. The tests draw these
lines and compare the tree with that of `ttree`. `go_lines.py --random SEED` writes lines of Go's
tests in random order."""
import json, random, re, sys

LEVELS = {"pass": "INFO", "fail": "ERROR", "skip": "WARN", "unfinished": "ERROR"}
VERDICTS = {"pass": "good", "bench": "good", "skip": "good", "fail": "bad", "build-fail": "bad"}
PROGRESS = ("go: downloading ", "go: finding ", "go: extracting ")
ENDINGS = {"pass": "pass", "bench": "pass", "fail": "fail", "skip": "skip"}
STEPS = ("=== RUN   ", "=== PAUSE ", "=== CONT  ", "=== NAME  ", "=== ATTR  ", "=== ARTIFACTS ")
STEPS += ("--- PASS: ", "--- FAIL: ", "--- SKIP: ", "--- BENCH: ")
TRACES = re.compile(r"panic: |fatal error: |SIGSEGV: |stack backtrace:|goroutine [0-9]* (?:\[|gp=0x)"
                    r"|thread '.* panicked at|Traceback \(most recent call last\):|Exception in thread \""
                    r"|(?=[\w.$]*\.)[\w.$]*(?:Exception|Error)(?::|$)", re.ASCII)
COVERAGE = re.compile(r"(?:[^\t]*\t[^\t]*\t[^\t]*\t)?coverage: ([^ ]*%)(?: |$)")


class Running:
    def __init__(self, package, test):
        self.package, self.test, self.span, self.part = package, test, None, ""
        self.has_begun, self.is_error, self.notes = bool(test), False, {}


class Run:
    def __init__(self, write=print):
        self.write, self.running, self.next, self.building, self.last = write, [], 1, "", None
        self.builds, self.counts = {}, dict.fromkeys(("pass", "fail", "skip", "unfinished", "packages", "packages_failed"), 0)
        self.failed_tests, self.failed_packages = [], []

    def call(self, current, last, **words):
        if current is not None:
            words["current"] = current
        self.last = last
        self.write(json.dumps(words, ensure_ascii=False))

    def event(self, level, text, fields, current):
        if text.strip(" \t\r"):
            fields = [["message", shown(text)], *([name, shown(value)] for name, value in fields.items())]
            self.call(current, current, call="event", level=level, fields=fields)

    def outer(self, one):
        """Returns the test or the package in whose span a test is nested, or None."""
        found = [it for it in self.running if it is not one and it.span and it.package == one.package and (not it.test or one.test.startswith(it.test + "/"))]
        return max(found, key=lambda it: len(it.test)) if found else None

    def above(self, one):
        outer = self.outer(one)
        return outer.span if outer else None

    def name(self, one):
        outer = self.outer(one)
        return own_name(outer.test, one.test) if outer else one.test or one.package

    def open(self, one):
        if one.span is None:
            self.call(self.above(one), self.next, call="new", name=shown(self.name(one)))
            one.span, self.next = self.next, self.next + 1

    def owner(self, package, test):
        found = [it for it in self.running if it.package == package and (not it.test or test == it.test or test.startswith(it.test + "/"))]
        if found:
            return max(found, key=lambda it: len(it.test))
        self.running.append(Running(package, ""))
        return self.running[-1]

    def tell(self, one):
        """Writes an event for the line that was printed, if there is one."""
        line, level = one.part.removesuffix("\n"), "ERROR" if one.is_error else "INFO"
        if not one.part:
            return
        one.part, one.is_error = "", False
        if is_frame(one, line):
            return note(one, line)
        self.open(one)
        self.event(level, line, {}, one.span)

    def output(self, one, line):
        text, kind = line["Output"], line.get("OutputType", "")
        one.has_begun = True
        if kind == "frame" or (text.endswith("\n") and is_frame(one, text[:-1])):
            self.tell(one)
            return note(one, text.removesuffix("\n"))
        one.part += text
        one.is_error |= kind.startswith("error")
        if text.endswith("\n"):
            self.tell(one)

    def finish(self, one, ending, elapsed):
        self.tell(one)
        fields = elapsed_of(elapsed) | {it: one.notes[it] for it in ("cached", "coverage") if it in one.notes}
        above, name = self.above(one), self.name(one)
        self.running.remove(one)
        if one.span is None:
            return self.event(LEVELS[ending], f"{ending} {name}", fields, above)
        self.event(LEVELS[ending], ending, fields, one.span)
        return self.call(above, above, call="close", id=one.span)

    def count(self, ending, package, test):
        self.counts[ending] += 1
        if ending == "fail":
            self.failed_tests.append(f"{package}.{test}")

    def count_package(self, ending, package):
        self.counts["packages"] += 1
        if ending in ("fail", "unfinished"):
            self.counts["packages_failed"] += 1
            self.failed_packages.append(package)

    def leave(self, one, ending="unfinished"):
        if one.test:
            self.count(ending, one.package, one.test)
        else:
            self.count_package(ending, one.package)
        self.finish(one, ending, None)

    def left(self, package):
        left = [it for it in self.running if it.package == package]
        return sorted(left, key=lambda it: it.test.encode(), reverse=True)

    def end_package(self, ending, package, elapsed):
        self.count_package(ending, package)
        for one in self.left(package):
            if one.test:
                self.leave(one, "pass" if ending == "pass" else "unfinished")
        self.finish(self.owner(package, ""), ending, elapsed)

    def end_test(self, ending, package, test, elapsed):
        self.count(ending, package, test)
        one = self.owner(package, test)
        if one.test == test:
            return self.finish(one, ending, elapsed)
        self.open(one)
        return self.event(LEVELS[ending], f"{ending} {own_name(one.test, test)}", elapsed_of(elapsed), one.span)

    def emit_build(self, level, package):
        """Writes what a build printed."""
        texts = self.builds.pop(package, None)
        if texts is None:
            return
        one = self.owner(package, "")
        for text in texts:
            line = (text.partition("\n")[2] if text.startswith("# ") else text).removesuffix("\n")
            if line.strip(" \t\r"):
                self.open(one)
                self.event("INFO" if line.startswith(PROGRESS) else level, line, {}, one.span)

    def act(self, line):
        package = package_of(line)
        action, test = line["Action"], line.get("Test", "")
        if action == "build-output":
            return self.builds.setdefault(package, []).append(line["Output"])
        self.emit_build("ERROR" if action == "build-fail" else "WARN", package)
        if action == "run":
            one = self.owner(package, test)
            if test and one.test == test:
                self.leave(one)
                one = self.owner(package, test)
            self.tell(one)
            self.open(one)
            one.has_begun = True
            if test:
                self.running.append(Running(package, test))
        elif action == "start":
            self.owner(package, "").has_begun = True
        elif action == "output":
            self.output(self.owner(package, test), line)
        elif action in ENDINGS:
            if not test and package == self.building:
                self.building = ""
            end = self.end_test if test else lambda ending, package, _, elapsed: self.end_package(ending, package, elapsed)
            end(ENDINGS[action], package, test, line.get("Elapsed"))
        return None

    def plain(self, text):
        if text.startswith("# ["):
            return
        if text.startswith("# "):
            self.building = text[2:].split(" ")[0]
        elif text.startswith("FAIL\t"):
            self.building = ""
            self.end_package("fail", text[5:].split(" ")[0], None)
        elif is_package_frame(text):
            return
        elif not self.building or text.startswith(PROGRESS):
            self.event("ERROR" if TRACES.match(text) else "INFO", text, {}, self.last)
        else:
            one = self.owner(self.building, "")
            self.open(one)
            self.event("ERROR", text, {}, one.span)

    def end(self):
        self.leave_all()
        self.tell_counts()

    def leave_all(self):
        for package in sorted({it.package for it in self.running}, key=str.encode):
            for one in self.left(package):
                if one.has_begun:
                    self.leave(one)
                else:
                    self.close(one)
        for package in sorted(self.builds, key=str.encode):
            self.emit_build("WARN", package)
            self.close(self.owner(package, ""))

    def close(self, one):
        """Closes the span of a package that only its build printed in."""
        self.running.remove(one)
        if one.span is not None:
            self.call(None, None, call="close", id=one.span)

    def tell_counts(self, write=None):
        self.write = write or self.write
        names = {"pass": "passed", "fail": "failed", "skip": "skipped", "unfinished": "unfinished", "packages": "packages", "packages_failed": "packages_failed"}
        fields = [[name, str(self.counts[it])] for it, name in names.items()]
        for key, failed in ("failed_packages", self.failed_packages), ("failed_tests", self.failed_tests):
            if failed:
                fields.append([key, shown(" ".join(failed[:10]) + (f" and {len(failed) - 10} more" if len(failed) > 10 else ""))])
        level = "ERROR" if self.counts["fail"] or self.counts["packages_failed"] else "INFO"
        self.call(None, None, call="event", level=level, fields=fields)


class Failed:
    """Writes only what failed. `shown` is the run that is written. `whole` gets all lines and only
    counts."""

    def __init__(self):
        self.whole, self.shown, self.kept = Run(lambda _: None), Run(), {}

    def act(self, line):
        self.whole.act(line)
        package, test, verdict = package_of(line), line.get("Test", ""), VERDICTS.get(line["Action"], "open")
        if verdict == "open" or "/" in test:
            self.kept.setdefault(package, []).append(line)
        elif verdict == "bad" or self.runs(package, test):
            self.release(package, self.take(package, test)) if test else self.release_package(package)
            self.shown.act(line)
        else:
            self.take(package, test) if test else self.kept.pop(package, None)

    def runs(self, package, test):
        return any((it.package, it.test) == (package, test) for it in self.shown.running)

    def take(self, package, outermost):
        lines = self.kept.get(package, [])
        self.kept[package] = [it for it in lines if outermost_of(it) != outermost]
        return [it for it in lines if outermost_of(it) == outermost]

    def release(self, package, lines):
        ended = {it: {line["Test"] for line in lines if VERDICTS.get(line["Action"]) == it} for it in ("good", "bad")}
        for line in lines:
            test = line.get("Test", "")
            if test not in ended["good"] - ended["bad"] or self.runs(package, test):
                self.shown.act(line)

    def release_package(self, package):
        names = {outermost_of(it) for it in self.kept.get(package, [])} - {""}
        for outermost in [*sorted(names, key=str.encode), ""]:
            self.release(package, self.take(package, outermost))
        self.kept.pop(package, None)

    def plain(self, text):
        self.whole.plain(text)
        self.shown.plain(text)

    def end(self):
        for package in sorted(self.kept, key=str.encode):
            self.release_package(package)
        self.shown.leave_all()
        self.whole.leave_all()
        self.whole.tell_counts(print)


def own_name(outer, test):
    """Returns the name of a test within the span of its outer test."""
    return test.removeprefix(outer + "/") if outer else test


def elapsed_of(elapsed):
    return {} if elapsed is None else {"elapsed": elapsed}


def note(one, line):
    """Notes what a line of a package says about its end."""
    if not one.test:
        if line.split("\t")[2:3] and line.split("\t")[2].startswith("(cached)"):
            one.notes["cached"] = "true"
        if COVERAGE.match(line):
            one.notes["coverage"] = COVERAGE.match(line)[1]


def outermost_of(line):
    return line.get("Test", "").split("/")[0]


def package_of(line):
    return line.get("Package") or line["ImportPath"].split(" ")[0]


def random_lines(seed):
    draw = random.Random(seed)
    names = ["TestA", "TestA/x", "TestA/x/y", "TestA/y", "TestA//z", "TestB", "TestB/x"]
    for _ in range(draw.randint(5, 40)):
        line = {"Action": draw.choice(["run", "run", "output", "output", "output", "pass", "fail", "skip"]), "Package": draw.choice("ppq")}
        if draw.random() < 0.9:
            line["Test"] = draw.choice(names)
        if line["Action"] == "output":
            line["Output"] = draw.choice(["one\n", "two\n", "part", "=== RUN   TestA\n", "--- PASS: TestA/x (0.00s)\n", "coverage: 7.5% of statements\n"])
            if draw.random() < 0.2:
                line["OutputType"] = draw.choice(["error", "error-continue", "frame", "other"])
        print(json.dumps(line))


def shown(text):
    return re.sub(r"[\x00-\x08\x0b-\x1f\x7f-\x9f]", lambda it: f"\\u{{{ord(it[0]):x}}}", text)


def is_package_frame(line):
    return line in ("PASS", "FAIL") or line.startswith(("ok  \t", "FAIL\t", "?   \t"))


def is_frame(one, line):
    if not one.test:
        return is_package_frame(line) or bool(COVERAGE.match(line))
    if one.test.startswith("Benchmark") and line.lstrip(" ") == one.test:
        return True
    rest = [line.lstrip(" ").removeprefix(it) for it in STEPS if line.lstrip(" ").startswith(it)]
    return any(it == one.test or it.startswith(one.test + " ") for it in rest)


def main():
    if sys.argv[1:2] == ["--random"]:
        return random_lines(int(sys.argv[2]))
    run = Failed() if sys.argv[1:] == ["--failed"] else Run()
    print(json.dumps({"indent_lines": True, "bracketed_fields": False, "span_retrace": True, "close_retrace": True}))
    for text in sys.stdin.buffer.read().decode().split("\n"):
        if text.strip(" \t\r"):
            try:
                line = json.loads(text, parse_float=str, parse_int=str)
            except ValueError:
                run.plain(text)
                continue
            run.act(line)
    run.end()


if __name__ == "__main__":
    main()
