#!/usr/bin/env python3
"""Draws the program's worked cases through the shared object with ctypes, and compares the
drawings.

usage: cases.py SHARED_OBJECT FOLDER

A case is NAME.in, NAME.out and, if a call is refused, NAME.err. Cases with invalid lines are left
out, since C callers don't pass lines. Prints each case that differs, and at the end how many passed
and failed."""
import ctypes
import json
import sys
from ctypes import POINTER, Structure, byref, c_bool, c_char_p, c_int32, c_int64, c_size_t, c_uint32, c_uint64, c_void_p
from pathlib import Path


class Tree(Structure):
    _fields_ = [("inside", c_void_p), ("there", c_bool)]


class Text(Structure):
    _fields_ = [("at", c_char_p), ("len", c_size_t)]

    def __init__(self, text=""):
        encoded = text.encode()
        super().__init__(encoded, len(encoded))


class Field(Structure):
    _fields_ = [("name", Text), ("value", Text)]


SWITCHES = """ansi indent_lines targets thread_ids thread_names verbose_entry verbose_exit span_retrace deferred_spans close_retrace
    span_modes bracketed_fields""".split()


class Settings(Structure):
    _fields_ = [("size", c_uint64), ("indent_amount", c_uint64), ("wraparound", c_uint64), ("epoch", c_uint64), ("timer", c_uint32),
                ("offset", c_int32), ("higher_precision", c_bool)] + [(name, c_bool) for name in SWITCHES]


class Context(Structure):
    _fields_ = [("current", c_uint64), ("thread_id", c_uint64), ("thread_name", Text), ("mono", c_uint64), ("wall", c_int64),
                ("has_thread_name", c_bool)]


class Attributes(Structure):
    _fields_ = [("name", Text), ("target", Text), ("parent", c_uint64), ("parent_kind", c_uint32)]


class Event(Structure):
    _fields_ = [("target", Text), ("parent", c_uint64), ("parent_kind", c_uint32), ("level", c_uint32)]


TIMERS = {"none": 0, "uptime": 1, "utc": 2, "local": 3}
LEVELS = {"TRACE": 0, "DEBUG": 1, "INFO": 2, "WARN": 3, "ERROR": 4}
TEXTS = {0: None, 2: "too wide", 3: "too many", 5: "timer", 6: "failed"}


def present(value):
    """Returns an object without the keys whose value is null."""
    return {key: item for key, item in value.items() if item is not None}


def settings_of(line):
    given = present(line)
    timer = present(given.get("timer", {"kind": "none"}))
    settings = Settings(size=ctypes.sizeof(Settings), indent_amount=given.get("indent_amount", 2),
                        wraparound=given.get("wraparound", 2**64 - 1), epoch=timer.get("epoch", 0), timer=TIMERS[timer["kind"]],
                        offset=timer.get("offset", 0), higher_precision=timer.get("higher_precision", False))
    for name in SWITCHES:
        setattr(settings, name, given.get(name, False))
    return settings


def parent_of(call):
    parent = call.get("parent", "current")
    return {"root": (0, 0), "current": (0, 1)}[parent] if isinstance(parent, str) else (parent, 2)


def make(library, tree, line):
    """Makes the call of a line. Returns why it was refused, or None."""
    call = present(line)
    kind = call["call"]
    pairs = call.get("fields", []) if kind in ("new", "event", "record") else []
    fields = (Field * max(len(pairs), 1))(*[Field(Text(name), Text(value)) for name, value in pairs])
    named = call.get("thread_name")
    context = Context(call.get("current", 0), call.get("thread", 1), Text(named or ""), call.get("mono", 0), call.get("wall", 0),
                      named is not None)
    meant = call.get("id", 0)
    if kind == "new":
        meant, how = parent_of(call)
        attributes = Attributes(Text(call["name"]), Text(call.get("target", "")), meant, how)
        status = library.tt_raw_new_span(tree, byref(attributes), fields, c_size_t(len(pairs)), byref(context), byref(c_uint64()))
    elif kind == "event":
        meant, how = parent_of(call)
        event = Event(Text(call.get("target", "")), meant, how, LEVELS[call["level"]])
        status = library.tt_raw_event(tree, byref(event), fields, c_size_t(len(pairs)), byref(context))
    elif kind == "record":
        status = library.tt_raw_record(tree, c_uint64(meant), fields, c_size_t(len(pairs)))
    elif kind == "clone":
        status = library.tt_raw_clone_span(tree, c_uint64(meant))
    else:
        status = library.tt_raw_close(tree, c_uint64(meant), byref(context), byref(c_bool()))
    return "not held" if status == 1 else TEXTS.get(status, f"status {status}")


def text_of(library, tree):
    length = library.tt_raw_text(tree, (ctypes.c_uint8 * 1)(), c_size_t(0))
    room = (ctypes.c_uint8 * max(length, 1))()
    library.tt_raw_text(tree, room, c_size_t(length))
    return bytes(room[:length])


def draw(library, lines):
    """Returns the output of a run, and the line and the reason if it ended early."""
    tree = Tree()
    settings = settings_of(json.loads(lines[0]))
    status = library.tt_raw_new(byref(tree), byref(settings))
    if status:
        return b"", f"status {status} of the settings"
    drawn, end = b"", ""
    for number, line in enumerate(lines[1:], 2):
        if not line.strip(b" \t\r"):
            continue
        why = make(library, byref(tree), json.loads(line))
        drawn += text_of(library, byref(tree))
        if why:
            end = f"line {number}: {why}"
            break
    library.tt_raw_free(byref(tree))
    return drawn, end


def main():
    library = ctypes.CDLL(sys.argv[1])
    library.tt_raw_text.restype = c_size_t
    passed = failed = 0
    for case in sorted(Path(sys.argv[2]).rglob("*.in")):
        told = case.with_suffix(".err")
        told = told.read_text(errors="replace").strip() if told.exists() else ""
        if told.endswith(("settings", "not a call", "read")):
            continue
        drawn, end = draw(library, case.read_bytes().split(b"\n"))
        # C doesn't get the span's id with the status, since the caller has it.
        if drawn == case.with_suffix(".out").read_bytes() and (told == end or end and told.startswith(f"{end} ")):
            passed += 1
        else:
            failed += 1
            print(f"cases: FAILED: {case.name}: {end or 'drawn otherwise'}")
    print(passed, failed)


main()
