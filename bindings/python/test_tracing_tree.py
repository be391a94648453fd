#!/usr/bin/env python3
"""Tests the Python module: TRACING_TREE_LIB=SHARED_OBJECT test_tracing_tree.py

The trees were written by hand. Prints each test that fails, and at the end how many passed and
failed."""
import asyncio
import io
import logging
import os
import subprocess
import sys
import threading
import unittest

sys.path.insert(0, os.path.dirname(os.path.abspath(__file__)))
import tracing_tree
from tracing_tree import DEBUG, ERROR, INFO, TRACE, WARN, Handler, Tree, TreeError


def drawn(**settings):
    file = io.StringIO()
    return Tree(file, **settings), file.getvalue


class Drawings(unittest.TestCase):
    def test_spans_and_events(self):
        tree, shown = drawn()
        with tree.span("request", path="/pay", size=3):
            tree.event(INFO, "begin")
            with tree.span("query"):
                tree.event(WARN, "slow", rows=7, name="né")
            tree.event(ERROR, "failed\nin two lines")
        tree.event(DEBUG, "outside")
        self.assertEqual(shown(), """\
┐request path=/pay, size=3
├─ INFO begin
└─┐query 
  ├─ WARN slow, rows=7, name=né
┌─┘
├─ ERROR failed
│  in two lines
┘
DEBUG outside
""")

    def test_records_are_shown_when_the_span_is_shown_again(self):
        tree, shown = drawn(span_retrace=True, close_retrace=True)
        with tree.span("a") as span:
            span.record(status=200)
            tree._current.set(0)
            with tree.span("b"):
                pass
            tree._current.set(1)
            tree.event(INFO, "x")
        self.assertEqual(shown(), "┐a \n┐b \n┘\n┐a status=200\n├─ INFO x\n┘\n")

    def test_settings(self):
        tree, shown = drawn(indent_lines=False, targets=True, thread_ids=True, bracketed_fields=True)
        with tree.span("a", "service", n=1):
            tree.event(TRACE, "x", "service::db")
        # A space comes before an event in a span: the time since the span opened would be there.
        self.assertEqual(shown(), "1 service::a{n=1}\n1  TRACE service::db x\n")

    def test_unknown_settings(self):
        for settings in ({"colour": True}, {"timer": "clock"}):
            with self.assertRaises(TypeError):
                Tree(io.StringIO(), **settings)
        with self.assertRaisesRegex(TreeError, "the settings are invalid"):
            Tree(io.StringIO(), wraparound=0)

    def test_timers(self):
        for timer, form in [("utc", r"^20\d\d-\d\d-\d\d \d+:\d\d:\d\d\.\d+ INFO x\n$"), ("uptime", r"^ +0\.\d{6}s INFO x\n$"),
                            ("local", r"^20\d\d-.* [+-]\d\d:\d\d:\d\d INFO x\n$")]:
            tree, shown = drawn(timer=timer)
            tree.event(INFO, "x")
            self.assertRegex(shown(), form)


class Refusals(unittest.TestCase):
    def test_a_closed_tree(self):
        tree, shown = drawn()
        with tree:
            tree.event(INFO, "x")
        for call in (lambda: tree.event(INFO, "y"), lambda: tree.span("a").__enter__()):
            with self.assertRaisesRegex(TreeError, "the tree was closed"):
                call()
        self.assertEqual(shown(), "INFO x\n")

    def test_a_span_that_is_not_open(self):
        tree, shown = drawn()
        span = tree.span("a")
        with self.assertRaisesRegex(TreeError, "the span isn't open"):
            span.record(x=1)
        with span:
            with self.assertRaisesRegex(TreeError, "the span was opened before"):
                span.__enter__()
        self.assertEqual(shown(), "┐a \n┘\n")

    def test_a_level_that_is_unknown(self):
        tree, shown = drawn()
        with self.assertRaisesRegex(TreeError, "a level is unknown"):
            tree.event(5, "x")
        self.assertEqual(shown(), "")

    def test_a_file_that_fails(self):
        class Full(io.StringIO):
            def write(self, string):
                raise OSError("full")

        tree = Tree(Full())
        with self.assertRaisesRegex(OSError, "full"):
            tree.event(INFO, "x")

    def test_strings_of_any_kind(self):
        tree, shown = drawn()
        tree.event(INFO, "nul\0, surrogate \udc80", empty="", none=None)
        self.assertEqual(shown(), "INFO nul\0, surrogate ?, empty=, none=None\n")

    def test_a_missing_library(self):
        env = {**os.environ, "TRACING_TREE_LIB": "/nonexistent"}
        done = subprocess.run([sys.executable, "-c", "import tracing_tree"], cwd=os.path.dirname(tracing_tree.__file__), env=env,
                              capture_output=True, text=True)
        self.assertEqual(done.returncode, 1)
        self.assertIn("libtracing_tree.so.1 can't be loaded: build it with `make bindings`", done.stderr)


class Logging(unittest.TestCase):
    def test_records(self):
        tree, shown = drawn(targets=True)
        logger = logging.Logger("shop.cart")
        logger.addHandler(Handler(tree))
        with tree.span("request", "shop"):
            logger.info("added %d", 3, extra={"item": "pear", "left": 4})
            logger.critical("gone")
            logger.log(3, "fine")
        logger.debug("outside")
        self.assertEqual(shown(), """\
┐shop::request 
├─ INFO shop.cart added 3, item=pear, left=4
├─ ERROR shop.cart gone
├─ TRACE shop.cart fine
┘
DEBUG shop.cart outside
""")

    def test_an_exception(self):
        tree, shown = drawn()
        logger = logging.Logger("x")
        logger.addHandler(Handler(tree, logging.WARNING))
        logger.info("left out")
        try:
            raise ValueError("bad")
        except ValueError:
            logger.exception("failed")
        lines = shown().splitlines()
        self.assertEqual(lines[:2], ["ERROR failed", "Traceback (most recent call last):"])
        self.assertEqual(lines[-1], "ValueError: bad")

    def test_a_closed_tree_reports_the_record(self):
        tree, _ = drawn()
        tree.close()
        logger, handler = logging.Logger("x"), Handler(tree)
        failed = []
        handler.handleError = failed.append
        logger.addHandler(handler)
        logger.info("lost")
        self.assertEqual([record.msg for record in failed], ["lost"])


class Threads(unittest.TestCase):
    def test_each_thread_has_its_own_spans(self):
        tree, shown = drawn(span_retrace=True, close_retrace=True, thread_names=True)

        def work(name):
            for number in range(50):
                with tree.span(f"{name}{number}"):
                    tree.event(INFO, f"in {name}{number}")

        threads = [threading.Thread(target=work, args=(name,), name=name) for name in "abcd"]
        for thread in threads:
            thread.start()
        for thread in threads:
            thread.join()
        # The last row before an event that opens a root is that of the event's span.
        opened, events = None, 0
        for row in shown().splitlines():
            if "┐" in row:
                opened = row.split("┐")[1].strip()
            elif "INFO in " in row:
                self.assertEqual(row.split("INFO in ")[1], opened)
                self.assertEqual(row[0], opened[0])
                events += 1
        self.assertEqual(events, 200)

    def test_each_task_has_its_own_spans(self):
        tree, shown = drawn()

        async def work(name):
            with tree.span(name):
                await asyncio.sleep(0)
                tree.event(INFO, f"in {name}")

        async def both():
            await asyncio.gather(work("a"), work("b"))

        asyncio.run(both())
        self.assertEqual(shown(), "┐a \n┐b \n├─ INFO in a\n┘\n├─ INFO in b\n┘\n")


class Silent(unittest.TestResult):
    def fail(self, test, error):
        print(f"bindings: FAILED: {test}\n{self._exc_info_to_string(error, test)}")

    def addFailure(self, test, error):
        super().addFailure(test, error)
        self.fail(test, error)

    def addError(self, test, error):
        super().addError(test, error)
        self.fail(test, error)


if __name__ == "__main__":
    result = Silent()
    unittest.defaultTestLoader.loadTestsFromModule(sys.modules["__main__"]).run(result)
    wrong = len(result.failures) + len(result.errors)
    print(result.testsRun - wrong, wrong)
    sys.exit(wrong > 0)
