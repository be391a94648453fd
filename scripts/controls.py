#!/usr/bin/env python3
"""Draws inputs that are full of control characters: controls.py TTREE

For each format, control characters are in the names, fields, messages, threads and targets of an
input. `ttree` draws it without colours, with the options that show more of it. A run ends as it
must if it shows these characters as escapes, and if neither output has a byte below 32 except tabs
and line ends, a byte 127, or a C1 control. Names each run that failed. The last line is
'controls: N of M runs ended as they must'."""
import json
import pathlib
import re
import subprocess
import sys
import tempfile

from runs import Runs

# ESC, BEL, DEL, NUL, the C1 control CSI, a carriage return and a backspace.
BAD = "\x1b[31m\x07\x7f\x00\x9b\r\x08"
# A control character in UTF-8.
CONTROL = re.compile(rb"[\x00-\x08\x0b-\x1f\x7f]|\xc2[\x80-\x9f]")
# What Go's tests and the lines of a terminal can't have as a name, but XML and TAP as a byte.
RAW = BAD.replace("\r", "").encode()


def lines(*values):
    """Returns a line of JSON for each value. The first has escapes for all control characters."""
    return "".join(json.dumps(it, ensure_ascii=it == values[0]) + "\n" for it in values).encode()


def attribute(key, value):
    return {"key": key, "value": {"stringValue": value}}


GO = lines({"Action": "run", "Package": f"p{BAD}", "Test": f"T{BAD}"},
           {"Action": "output", "Package": f"p{BAD}", "Test": f"T{BAD}", "Output": f"m{BAD}\n"},
           {"Action": "fail", "Package": f"p{BAD}", "Test": f"T{BAD}", "Elapsed": 1}) + b"plain " + RAW + b"\n"
TRACING = lines({"timestamp": "2026-11-24T00:00:00Z", "level": "ERROR", "target": f"t{BAD}", "filename": f"f{BAD}", "threadName": f"w{BAD}",
                 "threadId": f"i{BAD}", "fields": {"message": f"m{BAD}", f"k{BAD}": f"v{BAD}", "list": [BAD]},
                 "spans": [{"name": f"s{BAD}", f"k{BAD}": f"v{BAD}"}]},
                {"timestamp": "2026-11-24T00:00:01Z", "level": "INFO", "target": "t", "fields": {"message": "close"}, "threadName": BAD,
                 "span": {"name": f"s{BAD}", f"k{BAD}": f"v{BAD}"}, "spans": []}) + b"plain " + RAW + b"\n"
LOGS = lines({"level": "error", "msg": f"m{BAD}", "trace_id": f"t{BAD}", "service": f"s{BAD}", f"k{BAD}": {f"k{BAD}": [BAD]}, "logger": BAD},
             {"level": "info", "msg": BAD, "request_id": BAD}) + b"plain " + RAW + b"\n"
CHROME = json.dumps({"traceEvents": [
    {"ph": "M", "name": "process_name", "pid": 1, "args": {"name": f"p{BAD}"}},
    {"ph": "M", "name": "thread_name", "pid": 1, "tid": f"t{BAD}", "args": {"name": f"n{BAD}"}},
    {"ph": "B", "ts": 1, "pid": 1, "tid": f"t{BAD}", "name": f"s{BAD}", "cat": f"c{BAD}", "args": {f"k{BAD}": f"v{BAD}"}},
    {"ph": "i", "ts": 2, "pid": 1, "tid": f"t{BAD}", "name": f"e{BAD}", "args": {f"k{BAD}": [BAD]}},
    {"ph": "E", "ts": 3, "pid": 1, "tid": f"t{BAD}"}]}).encode()
SPAN = {"traceId": f"a{BAD}", "spanId": f"1{BAD}", "name": f"s{BAD}", "kind": BAD, "startTimeUnixNano": "1", "endTimeUnixNano": "9",
        "attributes": [attribute(f"k{BAD}", f"v{BAD}")], "status": {"code": 2, "message": f"m{BAD}"},
        "events": [{"timeUnixNano": "2", "name": f"e{BAD}", "attributes": [attribute(BAD, BAD)]}]}
SCOPE = {"name": f"n{BAD}", "version": BAD}
RESOURCE = {"attributes": [attribute("service.name", f"s{BAD}"), attribute(f"k{BAD}", BAD)]}
OTLP = lines({"resourceSpans": [{"resource": RESOURCE, "scopeSpans": [{"scope": SCOPE, "spans": [SPAN]}]}]},
             {"resourceLogs": [{"resource": RESOURCE, "scopeLogs": [{"scope": SCOPE, "logRecords": [
                 {"timeUnixNano": "3", "severityNumber": 17, "severityText": BAD, "body": {"stringValue": f"b{BAD}"},
                  "attributes": [attribute(f"k{BAD}", f"v{BAD}")]}]}]}]})
JUNIT = (b'<testsuites name="a' + RAW + b'"><testsuite name="s' + RAW + b'" hostname="' + RAW + b'"><testcase name="c' + RAW + b'" classname="d' + RAW
         + b'" time="1"><failure message="m' + RAW + b'" type="t' + RAW + b'">x' + RAW + b"\n</failure><system-out>o" + RAW
         + b"&#27;&#155;</system-out></testcase></testsuite></testsuites>\n")
TAP = (b"TAP version 13\n# Subtest: s" + RAW + b"\n    not ok 1 - a" + RAW + b"\n      ---\n      k" + RAW + b": v" + RAW + b"\n      ...\n    1..1\nnot ok 1 - s"
       + RAW + b" # TODO t" + RAW + b"\n# c" + RAW + b"\nplain " + RAW + b"\n1..1\n")
CALLS = lines({"indent_lines": True, "targets": True, "thread_names": True, "span_retrace": True},
              {"call": "new", "name": f"s{BAD}", "target": f"t{BAD}", "thread_name": f"w{BAD}", "fields": [[f"k{BAD}", f"v{BAD}"]]},
              {"call": "record", "id": 1, "fields": [[BAD, BAD]]},
              {"call": "event", "level": "INFO", "current": 1, "target": f"t{BAD}", "thread_name": f"w{BAD}",
               "fields": [["message", f"m{BAD}"], [f"k{BAD}", f"v{BAD}"]]},
              {"call": "close", "id": 1, "thread_name": BAD})
FAULT = lines({"indent_lines": True}, {"call": "event", "level": "INFO", "fields": [["message", BAD]]}) + b'{"call":"' + RAW + b'"}\n'

# The format of each input, the input, and the options that it is drawn with.
WIDTHS = ((), ("--width", "0"), ("--width", "1"), ("--width", "12"), ("--width", "40"))
INPUTS = (
    ("go-test", GO, ((), ("--summary",), ("--times",), ("--failed",))),
    ("tracing", TRACING, ((), ("--summary",), ("--times", "--threads"), ("--fields", "target,file,threadId"), ("--full", "--no-lines"))),
    ("logs", LOGS, ((), ("--summary",), ("--group", "service"), ("--full",), ("--times",))),
    ("chrome", CHROME, ((), ("--summary",), ("--times",), ("--full",))),
    ("otlp", OTLP, ((), ("--summary",), ("--times",), ("--full",), ("--failed",))),
    ("junit", JUNIT, ((), ("--summary",), ("--failed",))),
    ("tap", TAP, ((), ("--summary",), ("--failed",))),
    ("lines", CALLS, ((),)),
    ("lines", FAULT, ((),)),
)


def fault_of(program, words, path):
    """Draws a file. Returns what is wrong, or None."""
    ran = subprocess.run([program, *words, path], stdin=subprocess.DEVNULL, capture_output=True, timeout=120, check=False)
    for name, shown in (("standard output", ran.stdout), ("standard error", ran.stderr)):
        found = CONTROL.search(shown)
        if found:
            return f"a control character on {name}: {shown[max(0, found.start() - 60):found.end() + 20]!r}"
    if ran.returncode not in (0, 1):
        return f"status {ran.returncode}: {ran.stderr[-200:]!r}"
    return None if b"\\u{1b}" in ran.stdout or "--width" in words else f"no escape in {ran.stdout[:200]!r}"


def main():
    if len(sys.argv) != 2:
        sys.exit("usage: controls.py TTREE")
    program = str(pathlib.Path(sys.argv[1]).resolve())
    runs = Runs("controls")
    with tempfile.TemporaryDirectory() as room:
        # The name of a file is in messages.
        path = str(pathlib.Path(room) / "a\x1b\x7f\x9b")
        for name, text, options in INPUTS:
            pathlib.Path(path).write_bytes(text)
            colours = () if name == "lines" else ("--color", "never")
            for words in ((*colours, "--from", name, *some, *width) for some in options for width in WIDTHS):
                fault = fault_of(program, words, path)
                runs.add(not fault, f"program ttree {' '.join(words)}: FAILED: {fault}")
    return runs.end()


if __name__ == "__main__":
    sys.exit(main())
