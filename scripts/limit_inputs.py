"""Inputs of the three programs. Each has the right output, standard error and status, and the
output that is right after a fault."""
import os, subprocess

import model, model_rows

TOP = os.path.dirname(os.path.dirname(os.path.abspath(__file__)))


class Lines:
    """An input of the program that draws, line by line."""
    program = 0

    def __init__(self, name, lines):
        self.name, self.source = name, b"\n".join(lines) + b"\n"
        self.run = model.run_of(self.source)
        self.whole, self.told, self.status = self.run.ended()

    def out(self, line, word):
        """Returns the shortest and the longest output that is right if this fault is reported for
        this line."""
        if word == "writer":
            return b"", b"".join(self.run.drawn[:line])
        text = b"".join(self.run.drawn[:line - 1])
        return text, text


class Drawing:
    """An input of the program that reads. The program writes a row when it has read the next line.
    If it runs out of memory, the last row is missing."""
    program = 1

    def __init__(self, name, source, amount=2):
        self.name, self.source = name, source
        self.rows, _ = model_rows.read_rows(source, amount)
        self.texts = model_rows.rows_json(self.rows).encode().splitlines(keepends=True)
        self.whole, self.told, self.status = model_rows.ended(source, amount)

    def out(self, line, word):
        begun, first = 0, 1
        while begun < len(self.rows) and first < line:
            first += len(self.rows[begun].lines)
            begun += 1
        text = b"".join(self.texts[:max(0, begun - (word == "memory"))])
        return (b"" if word == "writer" else text), text


class Told:
    """An input of ttree, and what ttree writes for it without a limit."""
    program = 2

    def __init__(self, name, source, ttree):
        self.name, self.source = name, source
        done = subprocess.run([ttree], input=source, capture_output=True, timeout=120, check=False)
        self.whole, self.told, self.status = done.stdout, done.stderr, done.returncode

    def out(self, _, __):
        return b"", self.whole


def crowd(count):
    """Returns `count` roots that are all live at the end."""
    new = b'{"call":"new","name":"n","fields":[["k","a value past sixteen bytes"]]}'
    return Lines("many live spans", [b'{"indent_lines":true}'] + [new] * count)


def chain(count):
    """Returns a chain of spans whose handles are dropped from the root down, so that all spans
    close at once."""
    news = [b'{"call":"new","name":"n"%s}' % (b',"current":%d' % at if at else b"") for at in range(count)]
    closes = [b'{"call":"close","id":%d}' % (at + 1) for at in range(count)]
    return Lines("a chain that closes at once", [b'{"indent_lines":true,"indent_amount":1}'] + news + closes)


def long_line(count):
    """Returns a line that is much longer than the lines before and after it."""
    return Lines("a long line", [b"{}"] + [b'{"call":"new","name":"%s"}' % name for name in (b"a", b"n" * count, b"b")])


def recorded(count):
    """Returns a span whose fields grow and are drawn at the end."""
    record = b'{"call":"record","id":1,"fields":[["key","a value past sixteen bytes"]]}'
    event = b'{"call":"event","level":"INFO","current":1,"fields":[["message","x"]]}'
    return Lines("fields that grow", [b'{"deferred_spans":true}', b'{"call":"new","name":"a"}'] + [record] * count + [event] * 3)


def events(count):
    event = b'{"call":"event","level":"WARN","fields":[["message","number %d"]]}'
    return Lines("many events", [b"{}"] + [event % at for at in range(count)])


def deep_value(depth):
    """Returns a call with a value under an unknown key. With the call's object it is nested `depth`
    levels deep."""
    value = b"[" * (depth - 1) + b"]" * (depth - 1)
    return Lines(f"a value nested {depth} deep", [b"{}", b'{"call":"new","name":"a","x":%s}' % value, b'{"call":"close","id":1}'])


def deep_drawing(count):
    rows = "".join("  " * at + f"└─┐n{at}\n" + "  " * at + f"  ├─ INFO {at}\n" for at in range(count))
    return Drawing("a deep drawing", f"┐a\n{rows}".encode())


def many_rows(count):
    return Drawing("many rows", "".join(f"├─ INFO number {at}\n│  more\n" for at in range(count)).encode())


def wide_row():
    """Returns rows drawn with an amount of 300."""
    return Drawing("amount 300", ("└" + "─" * 299 + "┐b\n" + " " * 300 + "├" + "─" * 299 + " INFO x\n").encode(), 300)


def go_lines(count):
    """Returns the output of failing tests in Go, `count` times."""
    with open(f"{TOP}/examples/go-fail.jsonl", "rb") as file:
        return file.read() * count


def long_output(count):
    """Returns the output of a test in Go that prints a long line."""
    return b'{"Action":"output","Package":"p","Test":"T","Output":"%s\\n"}\n' % (b"x" * count) + go_lines(1)


# Odd inputs, each with its output, its standard error and its status.
TWO_ROOTS = '{"indent_lines":true}\n{"call":"new","name":"a"}\n{"call":"new","name":"b"}\n{"call":"close","id":1}\n'
WIDE = ('{"indent_lines":LINES,"indent_amount":9223372036854775808,"deferred_spans":true}\n{"call":"new","name":"a"}\n'
        '{"call":"new","name":"b","current":1}\n{"call":"new","name":"c","current":2}\n{"call":"event","level":"INFO","parent":3}\n')
ROOT = '{"indent_lines":true}\n{"call":"new","name":"a"}\n'
EVENT = '{"call":"event","level":"INFO","fields":[["message","%s"]]}\n'
ODD_LINES = (
    ("", "", "line 1: settings\n", 2), ("[]\n", "", "line 1: settings\n", 2), ('{"wraparound":0}\n', "", "line 1: settings\n", 2),
    ('{"colour":true}\n', "", "line 1: settings\n", 2), ('{"indent_lines":null}', "", "", 0), ("\n{}\n", "", "line 1: settings\n", 2),
    ('{}\n\n{"call":"event"}\n', "", "line 3: not a call\n", 1), ('{}\n{"call":"close","id":1.0}\n', "", "line 2: not a call\n", 1),
    ('{}\n{"call":"new","name":"a","x":1.5}\n', "", "line 2: not a call\n", 1),
    ('{}\n{"call":"new","name":"a","x":1.5,"x":1}\n', " a \n", "", 0),
    ('{}\n{"call":"new","name":"a","x":1e999,"x":1}\n', "", "line 2: not a call\n", 1),
    ('{}\n{"call":"new","name":"a","name":"b"}\n', " b \n", "", 0),
    ('{"ansi":true,"ansi":false}\n{"call":"new","name":"a"}\n', " a \n", "", 0),
    ('{}\n{"call":"new","name":"a","current":-1}\n', "", "line 2: not a call\n", 1),
    ('{}\n{"call":"close","id":7}\n', "", "line 2: not held 7\n", 1), ('{}\n{"call":"new","name":"a","id":"z"}\n', " a \n", "", 0),
    (f'{TWO_ROOTS}{{"call":"close","id":1}}\n', "┐a \n┐b \n┘\n", "line 5: not held 1\n", 1),
    (f'{TWO_ROOTS}{{"call":"clone","id":1}}\n', "┐a \n┐b \n┘\n", "line 5: not held 1\n", 1),
    (f'{TWO_ROOTS}{{"call":"new","name":"c","current":1}}\n', "┐a \n┐b \n┘\n", "line 5: not held 1\n", 1),
    (f'{TWO_ROOTS}{{"call":"record","id":1,"fields":[["k","v"]]}}\n{{"call":"event","level":"INFO","current":1}}\n',
     "┐a \n┐b \n┘\nINFO\n", "", 0),
    (WIDE.replace("LINES", "true"), "", "line 5: too wide\n", 1), (WIDE.replace("LINES", "false"), "", "line 5: too wide\n", 1),
    ('{"indent_lines":true}\n' + EVENT % "x\\r", "INFO x\n", "", 0), ("{}\n" + EVENT % "x\\r", " INFO x\r\n", "", 0),
    (ROOT + EVENT.replace("}\n", ',"current":1}\n') % "x\\r\\ny", "┐a \n├─ INFO x\n│  y\n", "", 0),
    ('{"indent_lines":true}\n{"call":"new","name":"┐"}\n', "┐┐ \n", "", 0),
    ('{"indent_lines":true}\n{"call":"new","name":"a\\n┐b"}\n', "┐a\n┐┐b \n", "", 0),
)
