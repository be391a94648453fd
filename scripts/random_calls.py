"""Random settings, calls and changes of lines. The caller passes the random generator, so the same
seed gives the same results."""
import json, re

WORDS = ("a", "span", "conn", "order 7", "message", "log.file", "log.", "logs", "key", "value", "x=1", "INFO", "retrace: ")
PIECES = (
    "a", "b1", " ", "  ", "\n", "\r", "\r\n", "\t", "\0", "\x1b[31m", "\x7f", "\x85", "\u2028", "┐", "┘", "└", "┌", "├", "│", "─", "é", "μ",
    "日本", "🙂", "e\u0301", "\u200f", "\ufeff", "\uffff", "\U0010ffff", '"', "\\", "/", "{", "}", "=", ", ", ":", "::")
LEVELS = ("TRACE", "DEBUG", "INFO", "WARN", "ERROR")
FLAGS = (
    "ansi", "targets", "thread_ids", "thread_names", "verbose_entry", "verbose_exit", "span_retrace", "deferred_spans", "close_retrace",
    "span_modes", "bracketed_fields")
AMOUNTS = (0, 1, 2, 2, 2, 3, 4, 4, 5, 8, 9, 63, 64, 300)
WIDE = (2**62, 2**63 - 1, 2**63, 2**64 - 1)
NANOS = (0, 1, 4, 5, 6, 15, 25, 994, 995, 10**6 - 1, 10**6, 1005000, 10**9 - 1, 10**9, 10**10, 6 * 10**10 - 1, 6 * 10**10, 10**13, 10**18)
WALLS = (0, -1, 1, 2**63 - 1, -2**63, 951827696050000000, 951782399999999999, 951782400000000000, -10**9, 10**9 - 1)
# What replaces a token.
NUMBERS = (
    b"0", b"1", b"2", b"-1", b"-0", b"01", b"1.0", b"1.", b".5", b"+1", b"1e3", b"1E-2", b"1e999", b"18446744073709551615",
    b"18446744073709551616", b"9223372036854775807", b"9223372036854775808", b"-9223372036854775808", b"-9223372036854775809",
    b"93599", b"93600", b"-93599", b"-93600", b"0x1", b"NaN", b"-Infinity")
TEXTS = (
    b'""', b'"root"', b'"current"', b'"INFO"', b'" INFO"', b'"info"', b'"new"', b'"event"', b'"close"', b'"none"', b'"utc"', b'"local"',
    b'"uptime"', b'"\\ud800"', b'"\\ud83d\\ude42"', b'"\\udc00\\ud800"', b'"\\u0000"', b'"\\/"', b'"\\x"', b'"\\u12"', b'"\xff"',
    b'"\xed\xa0\x80"', b'"\t"', b'"', b"'a'", b'"\xc3"', b'"\xf4\x90\x80\x80"', b'"\\b\\f\\n\\r\\t\\"\\\\"', b'"\xe2\x94\x90"')
OTHERS = (
    b"null", b"true", b"false", b"True", b"nul", b"[]", b"{}", b"[[]]", b'[["a","b"]]', b'[["a","b","c"]]', b'[["a",null]]',
    b'[["message",""],["a",""]]', b"[[[" * 20 + b"]]]" * 20, b"[" * 125 + b"]" * 125, b"[" * 126 + b"]" * 126, b"[" * 127 + b"]" * 127,
    b"[" * 3000, b'{"x":' * 126 + b"1" + b"}" * 126, b'{"x":1.5}', b'{"x":[0,1e1]}', b'{"kind":"none"}', b'{"kind":"utc"}',
    b'{"kind":"local","offset":-1}', b'{"kind":"uptime","epoch":5,"kind":null}')
MARKS = (
    b"{", b"}", b"[", b"]", b",", b":", b" ", b"\t", b"\r", b"\x0b", b"\xc2\xa0", b"\xef\xbb\xbf", b"//", b"/**/", b"#", b"\\", b"\0")
TOKENS = NUMBERS + TEXTS + OTHERS + MARKS
KEYS = (
    b"call", b"id", b"name", b"target", b"parent", b"fields", b"level", b"current", b"thread", b"thread_name", b"mono", b"wall", b"x", b"",
    b"ID",
    b"indent_amount", b"wraparound", b"timer", b"kind", b"offset", b"epoch", b"higher_precision", b"indent_lines",
    *(it.encode() for it in FLAGS))
TOKEN = re.compile(rb'"(?:[^"\\]|\\.)*"|[-+0-9.eE]+|\w+|\s+|.', re.DOTALL)
BYTES = b'\0\t\n\r "\\/{}[],:-+.0159aeEfnrtux\x7f\x80\xbf\xc0\xc3\xe2\xed\xf4\xff'


def size(rng, most):
    """Returns a length that is often small and otherwise next to a power of two."""
    if rng.random() < 0.7:
        return rng.randrange(min(most, 70) + 1)
    return min(most, 2**rng.randrange(most.bit_length() + 1) + rng.choice((-1, 0, 1)))


def text(rng, most=200):
    """Returns a string: mostly a word, sometimes pieces of many kinds, and rarely a long one."""
    kind = rng.random()
    if kind < 0.7:
        return rng.choice(WORDS)
    if kind < 0.98:
        return "".join(rng.choice(PIECES) for _ in range(rng.randrange(6)))
    return rng.choice(PIECES) * size(rng, most)


def fields(rng):
    count = rng.choice((0, 0, 1, 1, 2, 3)) if rng.random() < 0.98 else size(rng, 70)
    return [[text(rng), text(rng, 5000)] for _ in range(count)]


def timer(rng):
    kind = rng.choice(("none", "utc", "local", "uptime"))
    value = {"kind": kind}
    if kind != "none" and rng.random() < 0.6:
        value["higher_precision"] = rng.random() < 0.7
    if kind == "local":
        value["offset"] = rng.choice((0, 19800, -1, 1, 3599, -3600, 93599, -93599))
    if kind == "uptime" and rng.random() < 0.5:
        value["epoch"] = rng.choice(NANOS)
    return value


def settings(rng, is_wide=True):
    """Returns a settings object. With a wide amount, a row takes more memory than there is."""
    share = rng.choice((0.0, 0.2, 0.5, 0.8))
    value = {name: True for name in FLAGS if rng.random() < share}
    if rng.random() < 0.75:
        value["indent_lines"] = True
    if rng.random() < 0.6:
        value["indent_amount"] = rng.choice(AMOUNTS)
    if is_wide and rng.random() < 0.03:
        value |= {"indent_amount": rng.choice(WIDE), "deferred_spans": rng.random() < 0.8}
    if rng.random() < 0.4:
        value["wraparound"] = rng.choice((1, 2, 3, 4, 5, 7, 64, 2**64 - 1))
    if rng.random() < 0.4:
        value["timer"] = timer(rng)
    return value


class Calls:
    """Makes the calls of a run, each for the spans that are live in its tree."""

    def __init__(self, rng, tree):
        self.rng, self.tree = rng, tree
        self.crowd = rng.choice((2, 5, 20, 60))
        self.depth = rng.choice((0.2, 0.6, 0.95))
        self.mono = rng.choice(NANOS)
        self.is_odd = rng.random() < 0.3

    def any_id(self):
        """Returns an id, mostly that of a live span."""
        live = list(self.tree.spans)
        if self.is_odd and self.rng.random() < 0.1 or not live:
            return self.rng.choice((0, 1, self.tree.next, self.tree.next + 1, 2**64 - 1))
        return live[-1] if self.rng.random() < self.depth else self.rng.choice(live)

    def held(self):
        """Returns a live span with a handle, or None."""
        held = [it for it, span in self.tree.spans.items() if span.handles]
        return self.rng.choice(held) if held else None

    def context(self, value):
        rng = self.rng
        if rng.random() < 0.8 and "current" not in value:
            value["current"] = self.any_id() if rng.random() < 0.95 else None
        if rng.random() < 0.3:
            value["thread"] = rng.choice((0, 1, 7, 12345, 2**64 - 1))
        if rng.random() < 0.3:
            value["thread_name"] = text(rng)
        if rng.random() < 0.5:
            self.mono = min(2**64 - 1, self.mono + rng.choice(NANOS))
            value["mono"] = self.mono if rng.random() < 0.95 else rng.choice(NANOS)
        if rng.random() < 0.3:
            value["wall"] = rng.choice(WALLS) if rng.random() < 0.5 else rng.randrange(-2**63, 2**63)
        return value

    def new(self):
        value = {"call": "new", "name": text(self.rng), "parent": self.rng.choice(("root", "current", None))}
        live = list(self.tree.spans)
        if live:
            value["current"] = live[-1] if self.rng.random() < self.depth else self.rng.choice(live)
            if self.rng.random() < 0.3:
                value["parent"] = self.rng.choice(live)
        elif value["parent"] != "root":
            value["current"] = None
        return self.with_texts(value)

    def with_texts(self, value):
        if self.rng.random() < 0.5:
            value["target"] = text(self.rng)
        if self.rng.random() < 0.7:
            value["fields"] = fields(self.rng)
        return value

    def event(self):
        value = {"call": "event", "level": self.rng.choice(LEVELS)}
        if self.rng.random() < 0.3:
            value["parent"] = self.rng.choice(("root", "current", self.any_id()))
        return self.with_texts(value)

    def next(self):
        """Returns the next call, which is accepted, as an object."""
        rng, live = self.rng, len(self.tree.spans)
        is_crowd = live >= self.crowd
        kind = rng.choice(("event", "close", "close") if is_crowd else ("new", "event", "event", "event", "record", "clone", "close"))
        held = self.held() if kind == "close" else None
        if kind == "close" and held is not None:
            value = {"call": "close", "id": held}
        elif kind == "clone" and live:
            value = {"call": "clone", "id": rng.choice(list(self.tree.spans))}
        elif kind == "record":
            value = {"call": "record", "id": self.any_id(), "fields": fields(rng)}
        else:
            value = self.new() if kind in ("new", "clone") else self.event()
        return self.context(value)

    def refused(self):
        """Returns a call for a span that is most likely not live or has no handle, so that the call
        is refused."""
        call = self.rng.choice(("clone", "close", "new"))
        span = self.rng.choice((0, self.tree.next, 2**64 - 1, max(1, self.tree.next - 1)))
        return self.context({"call": call, "id": span} if call != "new" else {"call": call, "name": "n", "parent": span})


def line(rng, value):
    """Returns an object as a line, with random spaces, escapes and order of keys."""
    if rng.random() < 0.1:
        members = list(value.items())
        rng.shuffle(members)
        value = dict(members)
    separators = rng.choice(((",", ":"), (",", ":"), (", ", ": "), (" ,\t", "\r :")))
    return json.dumps(value, ensure_ascii=rng.random() < 0.3, separators=separators).encode()


# ---- changes

def change_bytes(rng, source):
    """Changes a few bytes."""
    source = bytearray(source)
    for _ in range(rng.choice((1, 1, 1, 2, 5))):
        at = rng.randrange(len(source) + 1)
        kind = rng.randrange(5)
        if kind == 0:
            source[at:at + 1] = bytes((rng.choice(BYTES),))
        elif kind == 1:
            source[at:at] = bytes((rng.choice(BYTES),))
        elif kind == 2:
            del source[at:at + rng.choice((1, 1, 2, 9))]
        elif kind == 3 and at < len(source):
            source[at] ^= 1 << rng.randrange(8)
        else:
            source[at:at] = source[max(0, at - rng.randrange(20)):at]
    return bytes(source)


def change_tokens(rng, source):
    """Replaces, removes or repeats a token, appends another one to it, or swaps two tokens."""
    tokens = TOKEN.findall(source) or [b""]
    at, other = rng.randrange(len(tokens)), rng.randrange(len(tokens))
    kind = rng.randrange(6)
    if kind < 3:
        tokens[at] = rng.choice(TOKENS)
    elif kind == 3:
        tokens[at] += rng.choice(TOKENS) if rng.random() < 0.5 else tokens[at]
    elif kind == 4:
        tokens[at] = b""
    else:
        tokens[at], tokens[other] = tokens[other], tokens[at]
    return b"".join(tokens)


def change_members(rng, source):
    """Adds a member to an object. The object may have its key already."""
    member = b'"' + rng.choice(KEYS) + b'":' + rng.choice(TOKENS)
    at = source.rfind(b"}") if rng.random() < 0.7 else -1
    return source[:at] + b"," + member + source[at:] if at > 0 else b"{" + member + b"," + source.lstrip(b" {")


def change_lines(rng, source):
    """Returns a blank line, or the line repeated, split, cut, or with something around it."""
    half = len(source) // 2
    return rng.choice((
        b"", b" \t\r", b"\r", source + b"\n" + source, source[:half] + b"\n" + source[half:], source + b"\r", b" \t" + source,
        b"\xef\xbb\xbf" + source, source + b" x", source + source, b"[" + source + b"]", source[:-1], b"\n\n" + source, b"\x0c", b"\0"))


def changed(rng, source):
    """Returns a line with changed bytes, tokens or members, or changed as a whole. The result may
    be several lines, or no valid line."""
    return rng.choice((change_bytes, change_tokens, change_members, change_members, change_lines))(rng, source)
