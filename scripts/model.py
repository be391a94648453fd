#!/usr/bin/env python3
"""Computes what the program must write for an input. It was written only from
docs/reference/formats.md and docs/proofs/definitions.md.

usage: model.py < INPUT      writes the drawing and the fault line, and exits with the status, as
                             the program does
       model.py FOLDER..     compares with the worked cases (`.in`, `.out`, `.err`, `.status`)
                             below these folders

The last line of a comparison is 'model: N of M cases agree'. The model is slow: each span keeps its
path, and each output is built whole.
"""
import collections, datetime, json, os, sys

MOST = 2**64 - 1
# Rows with more columns than this aren't built: the machine decides whether they fit in memory.
# Rows with more columns than the second number never fit.
COLUMNS = 2**17
TOO_MANY_COLUMNS = 2**44
CODES = {"dimmed": "2", "green": "1;32", "purple": "1;35", "blue": "1;34", "warn": "1;38;2;252;234;160", "red": "1;31"}
LEVELS = {
    "TRACE": ("purple", "TRACE"), "DEBUG": ("blue", "DEBUG"), "INFO": ("green", " INFO"), "WARN": ("warn", " WARN"),
    "ERROR": ("red", "ERROR"),
}
# The kinds of rows, each as its label. An event has no label.
PRE_OPEN, POST_CLOSE, EVENT = "pre_open: ", "post_close: ", ""
OPEN, OPEN_VERBOSE, RETRACE, RETRACE_VERBOSE = "open: ", "open(v): ", "retrace: ", "retrace(v): "
CLOSE, CLOSE_VERBOSE = "close: ", "close(v): "
OPENING, CLOSING = {OPEN, OPEN_VERBOSE, RETRACE, RETRACE_VERBOSE}, {CLOSE, CLOSE_VERBOSE}
FLAGS = ("ansi", "indent_lines", "targets", "thread_ids", "thread_names", "verbose_entry", "verbose_exit", "span_retrace", "deferred_spans",
         "close_retrace", "span_modes", "bracketed_fields")

Row = collections.namedtuple("Row", "kind level block")
Context = collections.namedtuple("Context", "current thread thread_name mono wall")


class Unspelled(Exception):
    """A line that isn't a JSON object, or a value with an invalid type or range."""


class Refused(Exception):
    """A refused call, with the words of the cause."""


class Unsure(Exception):
    """A row so wide that the result depends on the machine's memory."""


# ---- values

class Float:
    """A number that isn't an integer of 64 bits. A number beyond the range of a float is
    invalid."""

    def __init__(self, digits):
        if abs(float(digits)) == float("inf"):
            raise Unspelled(digits)


class Members(list):
    """The members of an object, in order."""


def whole(digits):
    """Returns the integer with these digits. Returns a float for minus zero and for an integer that
    doesn't fit in 64 bits."""
    number = int(digits) if len(digits) < 25 else MOST + 1
    return number if -2**63 <= number <= MOST and digits != "-0" else Float(digits)


def no_constant(word):
    raise Unspelled(word)


def depth(value):
    """Returns how deep a value is nested. Doesn't recurse."""
    deepest, left = 0, [(value, 1)]
    while left:
        value, level = left.pop()
        if isinstance(value, list):
            deepest = max(deepest, level)
            left += [(it[1] if isinstance(value, Members) else it, level + 1) for it in value]
    return deepest


def settled(value):
    """Returns the value with each object as a dict. If a key is repeated, its last member
    counts."""
    if isinstance(value, Members):
        return {key: settled(it) for key, it in dict(value).items()}
    if isinstance(value, list):
        return [settled(it) for it in value]
    return value


def read_object(line):
    """Returns the object in a line."""
    try:
        text = line.decode()
        value = json.loads(text, object_pairs_hook=Members, parse_float=Float, parse_int=whole, parse_constant=no_constant)
        if "\\u" in text:
            strings(value).encode()
    except (ValueError, RecursionError) as error:
        raise Unspelled(error) from error
    if not isinstance(value, Members) or depth(value) > 127:
        raise Unspelled("no object, or nested too deep")
    return settled(value)


def strings(value):
    """Returns all strings in a value, joined."""
    found, left = [], [value]
    while left:
        value = left.pop()
        if isinstance(value, Members):
            left += [it for member in value for it in member]
        elif isinstance(value, list):
            left += value
        elif isinstance(value, str):
            found.append(value)
    return "".join(found)


def has_float(value):
    if isinstance(value, dict):
        return any(has_float(it) for it in value.values())
    return any(has_float(it) for it in value) if isinstance(value, list) else isinstance(value, Float)


def value_at(value, key, kind, otherwise, least=0, most=MOST):
    """Returns the value of a key. It must have this type and be within these bounds. Returns
    `otherwise` if the key is absent or its value is null."""
    found = value.get(key)
    if found is None:
        return otherwise
    if not isinstance(found, kind) or (kind is int and (isinstance(found, bool) or not least <= found <= most)):
        raise Unspelled(key)
    return found


def needed(value, key, kind, least=0, most=MOST):
    found = value_at(value, key, kind, None, least, most)
    if found is None:
        raise Unspelled(key)
    return found


def only(value, keys):
    """Raises `Unspelled` if the object has another key than these, unless its value is null."""
    if any(found is not None and key not in keys for key, found in value.items()):
        raise Unspelled("unknown key")


# ---- settings and clocks

class NoTimer:
    def moment(self, context):
        return ""

    def elapsed(self, ansi, nanos):
        return ""


class Uptime:
    def __init__(self, value):
        only(value, ("kind", "higher_precision", "epoch"))
        self.higher, self.epoch = value_at(value, "higher_precision", bool, False), value_at(value, "epoch", int, 0)

    def moment(self, context):
        seconds, nanos = divmod(max(0, context.mono - self.epoch), 10**9)
        return f"{seconds:4}.{nanos // 1000:06}s"

    def elapsed(self, ansi, nanos):
        number, unit = higher_parts(nanos) if self.higher else lower_parts(nanos)
        return styled(ansi, "dimmed", number) + styled(ansi, "dimmed", unit)


class Local(Uptime):
    def __init__(self, value):
        only(value, ("kind", "higher_precision", "offset"))
        self.higher = value_at(value, "higher_precision", bool, False)
        self.offset = needed(value, "offset", int, -93599, 93599)

    def moment(self, context):
        size = abs(self.offset)
        sign = "-" if self.offset < 0 else "+"
        return f"{civil(context.wall, self.offset)} {sign}{size // 3600:02}:{size // 60 % 60:02}:{size % 60:02}"


class Utc(Uptime):
    def __init__(self, value):
        only(value, ("kind", "higher_precision"))
        self.higher = value_at(value, "higher_precision", bool, False)

    def moment(self, context):
        return civil(context.wall, 0)


def civil(wall, offset):
    """Returns the date and the time of a moment at an offset."""
    seconds, nanos = divmod(wall, 10**9)
    days, second = divmod(seconds + offset, 86400)
    date = datetime.date(1970, 1, 1) + datetime.timedelta(days=days)
    fraction = f"{nanos:09}".rstrip("0") or "0"
    return f"{date.year:04}-{date.month:02}-{date.day:02} {second // 3600}:{second // 60 % 60:02}:{second % 60:02}.{fraction}"


def lower_parts(nanos):
    if nanos < 1000 * 10**6:
        return f"{nanos // 10**6:3}", "ms"
    return (f"{nanos // 10**9:3}", "s ") if nanos < 60 * 10**9 else (f"{nanos // (60 * 10**9):3}", "m ")


def higher_parts(nanos):
    hundredth, unit = (10, "μs") if nanos < 10**6 else (10**4, "ms") if nanos < 10**9 else (10**7, "s ")
    count, rest = divmod(nanos, hundredth)
    count += 2 * rest > hundredth or (2 * rest == hundredth and count % 2 == 1)
    return f" {count // 100}.{count % 100:02}", unit


def timer_of(value):
    kind = needed(value, "kind", str)
    if kind == "none":
        only(value, ("kind",))
        return NoTimer()
    if kind not in ("utc", "local", "uptime"):
        raise Unspelled(kind)
    return {"utc": Utc, "local": Local, "uptime": Uptime}[kind](value)


class Settings:
    """The settings in line 1."""

    def __init__(self, value):
        only(value, ("indent_amount", "wraparound", "timer", *FLAGS))
        self.amount = value_at(value, "indent_amount", int, 2)
        self.wraparound = value_at(value, "wraparound", int, MOST, least=1)
        timer = value_at(value, "timer", dict, {"kind": "none"})
        self.timer = timer_of(timer)
        for name in FLAGS:
            setattr(self, name, value_at(value, name, bool, False))
        self.retraces = self.span_retrace or self.deferred_spans


# ---- calls

class Call:
    """The call in a line after the first."""

    def __init__(self, value):
        if has_float(value):
            raise Unspelled("a float")
        self.kind = needed(value, "call", str)
        self.context = Context(
            value_at(value, "current", int, None), value_at(value, "thread", int, 1), value_at(value, "thread_name", str, None),
            value_at(value, "mono", int, 0), value_at(value, "wall", int, 0, -2**63, 2**63 - 1))
        if self.kind not in ("new", "clone", "record", "event", "close"):
            raise Unspelled(self.kind)
        if self.kind in ("new", "event"):
            self.target = value_at(value, "target", str, "")
            self.parent = self.parent_of(value.get("parent"))
        else:
            self.id = needed(value, "id", int)
        if self.kind == "new":
            self.name = needed(value, "name", str)
        if self.kind == "event" and needed(value, "level", str) not in LEVELS:
            raise Unspelled("level")
        self.level = value.get("level")
        self.fields = fields_of(value) if self.kind in ("new", "event", "record") else []

    def parent_of(self, parent):
        """Returns the parent's id, or None for a root."""
        if parent in (None, "current"):
            return self.context.current
        if parent == "root":
            return None
        return needed({"parent": parent}, "parent", int)


def fields_of(value):
    fields = value_at(value, "fields", list, [])
    if not all(isinstance(it, list) and len(it) == 2 and all(isinstance(text, str) for text in it) for it in fields):
        raise Unspelled("fields")
    return fields


# ---- texts

def styled(ansi, style, text):
    return f"\x1b[{CODES[style]}m{text}\x1b[0m" if ansi else text


def field_text(name, value, stands_alone):
    return value if name == "message" and stands_alone else f"{name}={value}"


def span_fields(fields):
    return ", ".join(field_text(name, value, place == 0) for place, (name, value) in enumerate(fields))


def event_fields(fields):
    shown = [field_text(name, value, True) for name, value in fields if not name.startswith("log.")]
    return ",".join(f" {it}" for it in shown)


def row_lines(block, is_lined):
    """Returns the lines of a block. If `is_lined`, first appends a line end to the block."""
    *ended, last = (block + "\n" if is_lined else block).split("\n")
    return [it[:-1] if it.endswith("\r") else it for it in ended] + ([last] if last else [])


def branch(kind, amount):
    """Returns what is drawn before the text in the first line of a row that isn't at the left
    edge."""
    half = amount // 2
    left, right = ("┌", "┘") if kind in CLOSING or kind == POST_CLOSE else ("└", "┐")
    if kind == EVENT:
        return "├" + "─" * (amount - 1)
    if kind in (PRE_OPEN, POST_CLOSE):
        return left + "─" * max(half - 1, 0) + right
    if not kind.endswith("(v): "):
        return left + "─" * (amount - 1) + right
    return " " * half + left + "─" * (amount - 1 - half) + right if amount >= 2 else "  "


def shift(kind):
    """Returns by how many columns a row's later lines are shifted right."""
    return 2 if kind in OPENING else 1 if kind in CLOSING else 0


def lined(kind, used, amount, lines):
    """Returns the lines of a row, drawn as with `indent_lines`, without prefix."""
    width = used * amount
    if width == 0:
        corner = "" if used else "┐" if kind in OPENING else "┘" if kind in CLOSING else ""
        return [corner + it for it in lines]
    before = " " * (width - amount)
    later = before + " " * shift(kind) + "│" + " " * amount
    return [before + branch(kind, amount) + lines[0]] + [later + it for it in lines[1:]]


def is_above(kind):
    """Returns whether a row shows a parent again. With `indent_lines` it is drawn one level
    deeper."""
    return kind in (PRE_OPEN, POST_CLOSE)


# ---- the tree

class Span:
    def __init__(self, call, parent, path):
        self.parent, self.path, self.children, self.handles = parent, path, 0, 1
        self.name, self.target, self.fields = call.name, call.target, list(call.fields)
        self.start, self.printed = call.context.mono, False


class Tree:
    """The live spans and the layer that draws them."""

    def __init__(self, settings):
        self.settings, self.spans, self.next, self.last = settings, {}, 1, None

    def path(self, span):
        return self.spans[span].path if span in self.spans else ()

    def take(self, call):
        """Makes a call. Returns what it draws."""
        if call.kind != "event" and call.kind != "record":
            self.check_held(call)
        rows = getattr(self, f"take_{call.kind}")(call)
        return self.draw(rows, call.context) if rows else ""

    def check_held(self, call):
        span = call.parent if call.kind == "new" else call.id
        is_held = span in self.spans and (call.kind != "close" or self.spans[span].handles > 0)
        if not is_held and span is not None:
            raise Refused(f"not held {span}")

    def take_new(self, call):
        span, self.next = self.next, self.next + 1
        made = self.spans[span] = Span(call, call.parent, self.path(call.parent) + (span,))
        if call.parent is not None:
            self.spans[call.parent].children += 1
        if self.settings.deferred_spans:
            return []
        made.printed = True
        if self.settings.span_retrace:
            return self.retrace_to(span)
        self.last = span
        is_verbose = self.settings.verbose_entry
        rows = [self.span_row(PRE_OPEN, call.parent)] if is_verbose and call.parent is not None else []
        return rows + [self.span_row(OPEN_VERBOSE if is_verbose else OPEN, span)]

    def take_clone(self, call):
        self.spans[call.id].handles += 1

    def take_record(self, call):
        if call.id in self.spans:
            self.spans[call.id].fields += call.fields

    def take_event(self, call):
        settings, current, rows = self.settings, call.context.current, []
        if settings.retraces and current in self.spans:
            rows = self.retrace_to(current)
        scope = len(self.path(call.parent))
        level = scope if settings.indent_lines else max(scope - 1, 0)
        return rows + [Row(EVENT, level, self.event_block(call))]

    def take_close(self, call):
        span = self.spans[call.id]
        span.handles -= 1
        closing, at = [], call.id
        while at is not None and self.spans[at].handles == 0 and self.spans[at].children - (1 if closing else 0) == 0:
            closing.append(at)
            at = self.spans[at].parent
        rows = [row for it in closing for row in self.close_one(it)]
        for it in closing:
            gone = self.spans.pop(it)
            if gone.parent in self.spans:
                self.spans[gone.parent].children -= 1
        return rows

    def close_one(self, span):
        settings, closed, rows = self.settings, self.spans[span], []
        if settings.deferred_spans and not closed.printed:
            return []
        if settings.close_retrace and settings.retraces and closed.parent is not None and closed.parent not in self.path(self.last):
            rows = self.retrace_to(span)
        rows.append(self.span_row(CLOSE_VERBOSE if settings.verbose_exit else CLOSE, span))
        if closed.parent is not None:
            self.last = closed.parent
            if settings.verbose_exit:
                rows.append(self.span_row(POST_CLOSE, closed.parent))
        return rows

    def retrace_to(self, span):
        """Returns the rows of a retrace. Makes `span` the last span, and marks all spans in the
        rows as printed."""
        before, path = self.path(self.last), self.path(span)
        shared = 0
        while shared < min(len(before), len(path)) and before[shared] == path[shared]:
            shared += 1
        rows = []
        for place, fresh in enumerate(path[shared:], shared):
            is_verbose = self.settings.verbose_entry and place == shared > 0
            if is_verbose:
                rows.append(self.span_row(PRE_OPEN, path[place - 1]))
            kinds = (RETRACE, RETRACE_VERBOSE) if self.spans[fresh].printed else (OPEN, OPEN_VERBOSE)
            rows.append(self.span_row(kinds[is_verbose], fresh))
            self.spans[fresh].printed = True
        self.last = span
        return rows

    def span_row(self, kind, span):
        settings, shown = self.settings, self.spans[span]
        block = kind if settings.span_modes else ""
        if kind != CLOSE:
            opened, ended = ("{", "}") if settings.bracketed_fields else (" ", "")
            if settings.targets:
                block += styled(settings.ansi, "dimmed", shown.target) + "::"
            block += styled(settings.ansi, "green", shown.name)
            block += styled(settings.ansi, "green", opened) if ended else opened
            block += span_fields(shown.fields) + (styled(settings.ansi, "green", ended) if ended else "")
        return Row(kind, len(shown.path) - 1, block)

    def event_block(self, call):
        settings, context = self.settings, call.context
        moment = settings.timer.moment(context)
        block = moment + " " if moment else ""
        if context.current in self.spans:
            block += settings.timer.elapsed(settings.ansi, max(0, context.mono - self.spans[context.current].start)) + " "
        style, name = LEVELS[call.level]
        block += styled(True, style, name) if settings.ansi else call.level
        block += " " + styled(settings.ansi, "dimmed", call.target) if settings.targets else ""
        return block + event_fields(call.fields)

    def prefix(self, context):
        settings = self.settings
        number = str(context.thread) if settings.thread_ids else ""
        if not settings.thread_names or context.thread_name is None:
            return number
        return f"{number}:{context.thread_name}" if settings.thread_ids else context.thread_name

    def used(self, row):
        """Returns the drawn level of a row."""
        wrapped = row.level % self.settings.wraparound
        return wrapped + (1 if self.settings.indent_lines and is_above(row.kind) else 0)

    def draw(self, rows, context):
        # The row of an event is checked before all others, and again in its turn.
        own = [row for row in rows if row.kind == EVENT and self.used(row) * self.settings.amount > MOST]
        for row in own + rows:
            width = self.used(row) * self.settings.amount
            if width > MOST:
                raise Refused("too wide")
            if width > COLUMNS:
                raise Refused("memory") if width > TOO_MANY_COLUMNS else Unsure
        prefix = self.prefix(context)
        return "".join(f"{prefix}{line}\n" for row in rows for line in self.picture(row))

    def picture(self, row):
        """Returns the lines of a row, with its wrap mark and without prefix."""
        settings = self.settings
        lines = row_lines(row.block, settings.indent_lines)
        if not settings.indent_lines:
            width = self.used(row) * settings.amount
            return [" " + " " * width + ("  " if place else "") + it for place, it in enumerate(lines)]
        drawn = lined(row.kind, self.used(row), settings.amount, lines)
        if row.level == 0 or (row.level + 1) % settings.wraparound:
            return drawn
        mark = "─" * (row.level % settings.wraparound * settings.amount)
        if row.kind in (PRE_OPEN, OPEN, OPEN_VERBOSE):
            return drawn + [mark + "┘"]
        return [mark + "┐"] + drawn if row.kind in CLOSING or row.kind == POST_CLOSE else drawn


# ---- runs

class Run:
    """A run of the program, line by line: what each line draws, and the fault that ended the
    run."""

    def __init__(self):
        self.tree, self.line, self.fault, self.drawn = None, 0, None, []

    def take(self, line):
        """Runs a line, which is without its line end. Returns whether the run continues."""
        self.line += 1
        try:
            self.drawn.append(self.judge(line).encode())
        except Unspelled:
            self.fault = "settings" if self.line == 1 else "not a call"
        except Refused as refused:
            self.fault = str(refused)
        return self.fault is None

    def judge(self, line):
        if self.line == 1:
            self.tree = Tree(Settings(read_object(line)))
            return ""
        return self.tree.take(Call(read_object(line))) if line.strip(b" \t\r") else ""

    def ended(self):
        """Returns the output, the standard error and the status if the input ends here."""
        if self.line == 0:
            self.line, self.fault = 1, "settings"
        told = f"line {self.line}: {self.fault}\n" if self.fault else ""
        return b"".join(self.drawn), told.encode(), 2 if self.fault == "settings" else 1 if self.fault else 0


def lines_of(source):
    """Returns the lines of an input, without their line ends."""
    lines = source.split(b"\n")
    return lines[:-1] if lines[-1] == b"" else lines


def run_of(source):
    """Runs an input up to its end or its first fault."""
    run = Run()
    for line in lines_of(source):
        if not run.take(line):
            break
    return run


# ---- worked cases

def bytes_of(path, otherwise=b""):
    if not os.path.exists(path):
        return otherwise
    with open(path, "rb") as file:
        return file.read()


def agrees(path):
    """Returns whether the model agrees with the files next to this input."""
    name = path.removesuffix(".in")
    out, err, status = run_of(bytes_of(path)).ended()
    wanted = bytes_of(f"{name}.out"), bytes_of(f"{name}.err"), int(bytes_of(f"{name}.status", b"0"))
    if (out, err, status) != wanted:
        print(f"model: {name}: {out!r}, {err!r}, {status} and not {wanted}")
    return (out, err, status) == wanted


def main():
    if len(sys.argv) == 1:
        out, err, status = run_of(sys.stdin.buffer.read()).ended()
        sys.stdout.buffer.write(out)
        sys.stderr.buffer.write(err)
        return status
    paths = [f"{at}/{it}" for folder in sys.argv[1:] for at, _, names in os.walk(folder) for it in sorted(names) if it.endswith(".in")]
    agreed = sum(agrees(it) for it in paths)
    print(f"model: {agreed} of {len(paths)} cases agree")
    return 0 if agreed == len(paths) > 0 else 1


if __name__ == "__main__":
    sys.exit(main())
