"""Draws the spans and log records of a Python program as a tree.

    import logging
    import tracing_tree

    tree = tracing_tree.Tree()
    logging.getLogger().addHandler(tracing_tree.Handler(tree))
    with tree.span("request", path="/pay") as request:
        logging.warning("slow")
        request.record(status=200)

prints to standard error:

    ┐request path=/pay
    ├─ WARN slow
    ┘

The module needs no build step. It loads the library's shared object (`libtracing_tree.so.1`) with
ctypes. If TRACING_TREE_LIB is set, that is the file or its folder. Otherwise the module looks next
to itself, in `lib/` next to itself, in the `lib/` of its installation, in the `bin/` of a checkout,
and in the system's folders of libraries.
"""
import contextlib
import contextvars
import ctypes
import logging
import os
import sys
import threading
import time
from ctypes import POINTER, Structure, byref, c_bool, c_char_p, c_int32, c_int64, c_size_t, c_uint32, c_uint64, c_void_p

__all__ = ["DEBUG", "ERROR", "Handler", "INFO", "Span", "TRACE", "Tree", "TreeError", "WARN"]

TRACE, DEBUG, INFO, WARN, ERROR = range(5)

LIBRARY = "libtracing_tree.so.1"
VERSION = 1
TIMERS = {"none": 0, "uptime": 1, "utc": 2, "local": 3}
CURRENT = 1

# The messages for what the library's functions return, from TT_OK on.
REFUSALS = [
    "", "the span isn't live", "a row is too wide", "no span or handle is left", "out of memory", "the timer has no text for this time",
    "the tree has failed earlier", "the tree was closed", "a string isn't UTF-8", "a level is unknown", "there is a tree already",
    "the settings have another size: the module and the library differ in version", "the settings are invalid", "a pointer is NULL",
]


class TreeError(Exception):
    """A call that was refused. Nothing was drawn or changed."""


class _Tree(Structure):
    _fields_ = [("inside", c_void_p), ("there", c_bool)]


class _Text(Structure):
    _fields_ = [("at", c_char_p), ("len", c_size_t)]

    def __init__(self, string=""):
        encoded = string.encode("utf-8", "replace")
        super().__init__(encoded, len(encoded))


class _Field(Structure):
    _fields_ = [("name", _Text), ("value", _Text)]


SWITCHES = ["ansi", "indent_lines", "targets", "thread_ids", "thread_names", "verbose_entry", "verbose_exit", "span_retrace",
            "deferred_spans", "close_retrace", "span_modes", "bracketed_fields"]


class _Settings(Structure):
    _fields_ = [("size", c_uint64), ("indent_amount", c_uint64), ("wraparound", c_uint64), ("epoch", c_uint64), ("timer", c_uint32),
                ("offset", c_int32), ("higher_precision", c_bool)] + [(name, c_bool) for name in SWITCHES]


class _Context(Structure):
    _fields_ = [("current", c_uint64), ("thread_id", c_uint64), ("thread_name", _Text), ("mono", c_uint64), ("wall", c_int64),
                ("has_thread_name", c_bool)]


class _Attributes(Structure):
    _fields_ = [("name", _Text), ("target", _Text), ("parent", c_uint64), ("parent_kind", c_uint32)]


class _Event(Structure):
    _fields_ = [("target", _Text), ("parent", c_uint64), ("parent_kind", c_uint32), ("level", c_uint32)]


def _places():
    """Returns the paths to try for the shared object, in order."""
    here = os.path.dirname(os.path.abspath(__file__))
    named = os.environ.get("TRACING_TREE_LIB")
    if named:
        return [os.path.join(named, LIBRARY) if os.path.isdir(named) else named]
    # The third is that of an installed library: `lib/` for a module in
    # `lib/python3/dist-packages/`.
    folders = [here, os.path.join(here, "lib"), os.path.join(here, "..", ".."), os.path.join(here, "..", "..", "bin")]
    return [path for path in (os.path.join(folder, LIBRARY) for folder in folders) if os.path.exists(path)] + [LIBRARY]


def _load():
    """Loads the library and checks its version."""
    for place in _places():
        with contextlib.suppress(OSError):
            library = ctypes.CDLL(place)
            break
    else:
        raise ImportError(f"{LIBRARY} can't be loaded: build it with `make bindings`, install it, or set TRACING_TREE_LIB to its folder")
    library.tt_version.restype = c_uint32
    found = library.tt_version()
    if found != VERSION:
        raise ImportError(f"the library has version {found}, and this module needs version {VERSION}")
    tree, context, fields = POINTER(_Tree), POINTER(_Context), POINTER(_Field)
    for name, restype, *argtypes in [
        ("free", None, tree),
        ("new", c_uint32, tree, POINTER(_Settings)),
        ("new_span", c_uint32, tree, POINTER(_Attributes), fields, c_size_t, context, POINTER(c_uint64)),
        ("record", c_uint32, tree, c_uint64, fields, c_size_t),
        ("event", c_uint32, tree, POINTER(_Event), fields, c_size_t, context),
        ("close", c_uint32, tree, c_uint64, context, POINTER(c_bool)),
        ("text", c_size_t, tree, c_char_p, c_size_t),
    ]:
        function = getattr(library, f"tt_raw_{name}")
        function.restype, function.argtypes = restype, argtypes
    return library


_library = _load()


def _shown(value):
    """Returns a field's value in the form that is drawn: a string unchanged, anything else as
    `repr` returns it."""
    return value if isinstance(value, str) else repr(value)


def _list(fields):
    """Returns an array of fields, and their count. If there are no fields, the array has an empty
    one, since no pointer may be NULL."""
    pairs = [_Field(_Text(name), _Text(_shown(value))) for name, value in fields.items()]
    return (_Field * max(len(pairs), 1))(*(pairs or [_Field(_Text(), _Text())])), len(pairs)


class Tree:
    """A tree that is drawn to a text stream. Threads and asyncio's tasks may share it: each has its
    own current span.

    `timer` is one of "none", "uptime" (since the tree was made), "utc" and "local". The other
    settings are those of the library, such as `ansi`, `targets`, `thread_names`, `span_retrace` and
    `deferred_spans`. Raises TreeError if they are invalid, and TypeError if one is unknown.
    """

    def __init__(self, file=None, *, indent_amount=2, wraparound=2**64 - 1, timer="none", higher_precision=False, **switches):
        unknown = [name for name in switches if name not in SWITCHES]
        if unknown or timer not in TIMERS:
            raise TypeError(f"unknown setting: {unknown[0] if unknown else f'timer={timer!r}'}")
        self._file = sys.stderr if file is None else file
        self._lock = threading.RLock()
        self._threads = {}
        self._current = contextvars.ContextVar("current span", default=0)
        self._tree = _Tree(None, False)
        offset = time.localtime().tm_gmtoff if timer == "local" else 0
        settings = _Settings(size=ctypes.sizeof(_Settings), indent_amount=indent_amount, wraparound=wraparound, epoch=time.monotonic_ns(),
                             timer=TIMERS[timer], offset=offset, higher_precision=higher_precision)
        for name in SWITCHES:
            setattr(settings, name, bool(switches.get(name, name == "indent_lines")))
        _check(_library.tt_raw_new(byref(self._tree), byref(settings)))

    def span(self, name, target="", **fields):
        """Returns a context manager. The span opens when it is entered. It closes when it is left,
        also by an exception."""
        return Span(self, name, target, fields)

    def event(self, level, message, target="", **fields):
        """Records an event in the current span. `level` is one of TRACE, DEBUG, INFO, WARN and
        ERROR. Raises TreeError."""
        event = _Event(_Text(target), 0, CURRENT, level)
        pairs, count = _list({"message": message, **fields})
        with self._lock:
            context = self._context()
            self._draw(_library.tt_raw_event(byref(self._tree), byref(event), pairs, count, byref(context)))

    def close(self):
        """Frees the tree. Each later call raises TreeError."""
        with self._lock:
            _library.tt_raw_free(byref(self._tree))

    def __enter__(self):
        return self

    def __exit__(self, *_):
        self.close()

    def __del__(self):
        if hasattr(self, "_tree"):
            _library.tt_raw_free(byref(self._tree))

    def _context(self):
        thread = threading.current_thread()
        number = self._threads.setdefault(thread.ident, len(self._threads) + 1)
        return _Context(self._current.get(), number, _Text(thread.name), time.monotonic_ns(), time.time_ns(), True)

    def _open(self, name, target, fields):
        attributes = _Attributes(_Text(name), _Text(target), 0, CURRENT)
        pairs, count = _list(fields)
        number = c_uint64()
        with self._lock:
            context = self._context()
            self._draw(_library.tt_raw_new_span(byref(self._tree), byref(attributes), pairs, count, byref(context), byref(number)))
        return number.value

    def _close(self, number):
        was_removed = c_bool()
        with self._lock:
            context = self._context()
            self._draw(_library.tt_raw_close(byref(self._tree), number, byref(context), byref(was_removed)))

    def _record(self, number, fields):
        pairs, count = _list(fields)
        with self._lock:
            self._draw(_library.tt_raw_record(byref(self._tree), number, pairs, count))

    def _draw(self, status):
        """Writes what the last call drew."""
        _check(status)
        length = _library.tt_raw_text(byref(self._tree), b"", 0)
        if length:
            text = ctypes.create_string_buffer(length)
            _library.tt_raw_text(byref(self._tree), text, length)
            self._file.write(text.raw.decode())


def _check(status):
    if status:
        raise TreeError(REFUSALS[status] if status < len(REFUSALS) else f"status {status}")


class Span:
    """A span of a tree. It is the current span between `__enter__` and `__exit__`."""

    def __init__(self, tree, name, target, fields):
        self._tree, self._made = tree, (name, target, fields)
        self._number = self._token = None

    def record(self, **fields):
        """Adds fields to the span. They are drawn when the span is shown again. Raises
        TreeError."""
        if self._number is None:
            raise TreeError("the span isn't open")
        self._tree._record(self._number, fields)

    def __enter__(self):
        if self._number is not None:
            raise TreeError("the span was opened before")
        self._number = self._tree._open(*self._made)
        self._token = self._tree._current.set(self._number)
        return self

    def __exit__(self, *_):
        self._tree._current.reset(self._token)
        self._tree._close(self._number)


# The attributes that each log record has.
STANDARD = frozenset(vars(logging.makeLogRecord({}))) | {"message", "asctime", "taskName"}


def level_of(number):
    """Returns the level for a level of `logging`: TRACE below DEBUG, and ERROR also for
    CRITICAL."""
    bounds = [(logging.ERROR, ERROR), (logging.WARNING, WARN), (logging.INFO, INFO), (logging.DEBUG, DEBUG)]
    return next((level for bound, level in bounds if number >= bound), TRACE)


class Handler(logging.Handler):
    """Records each log record as an event of a tree, in the current span. The logger's name is the
    target, and the attributes in `extra` are fields. An exception's traceback comes after the
    message, on separate lines."""

    def __init__(self, tree, level=logging.NOTSET):
        super().__init__(level)
        self.tree = tree

    def emit(self, record):
        try:
            extra = {name: value for name, value in vars(record).items() if name not in STANDARD}
            message = record.getMessage()
            if record.exc_info:
                trace = (self.formatter or logging.Formatter()).formatException(record.exc_info)
                message = f"{message}\n{trace}"
            self.tree.event(level_of(record.levelno), message, record.name, **extra)
        except Exception:
            self.handleError(record)
