#!/usr/bin/env python3
"""Computes the layouts of the library's structs from their declarations in the proved crate.

usage: layouts.py SOURCES LANGUAGE

Prints assertions for the header (LANGUAGE c, for C11) or for the declarations of the Rust crate
(rust). A `#[repr(C)]` struct has C's layout: each field is at the next multiple of its alignment.
The crate itself proves the sizes (`src/layout.rt`)."""
import re
import sys
from pathlib import Path

# The size and the alignment of each type that a struct may have as a field.
PLAIN = {"bool": (1, 1), "u32": (4, 4), "i32": (4, 4), "u64": (8, 8), "i64": (8, 8), "*mut u8": (8, 8), "&'a [u8]": (16, 8)}

# The names of the structs in C and in Rust.
NAMES = {"Tree": ("tt_tree", "RawTree"), "FieldRef": ("tt_field", "Field"), "SettingsRef": ("tt_settings", "Settings"),
         "ContextRef": ("tt_context", "Context"), "AttributesRef": ("tt_attributes", "Attributes"),
         "EventRef": ("tt_event_ref", "Event"), "TimeRef": ("tt_time", "Time")}

HEADS = ["""// Made by bindings/layouts.py from the declarations of the proved crate. It only has to compile.

use super::{Attributes, Context, Event, Field, RawTree, Settings, Text, Time};
use std::mem::{offset_of, size_of};""", '#include "tracing_tree.h"']

STRUCT = re.compile(r"#\[repr\(C\)\]\n(?:#\[[^\n]*\]\n)*pub struct (\w+)(?:<'a>)? \{\n(.*?)\n\}", re.S)
FIELD = re.compile(r"^    (?:pub )?(\w+): (.+?),?$", re.M)


def declared(folder):
    """Returns the fields and types of each `repr(C)` struct in the sources. Ghost fields take no
    space."""
    found = {}
    for path in sorted(Path(folder).glob("*.rt")):
        for name, body in STRUCT.findall(path.read_text()):
            found[name] = FIELD.findall(re.sub(r"^    (//|ghost ).*$", "", body, flags=re.M))
    return found


def laid_out(structs, name):
    """Returns the size and the alignment of a type, and the offsets of its fields."""
    if name in PLAIN:
        return *PLAIN[name], []
    end, widest, offsets = 0, 1, []
    for field, kind in structs[name]:
        size, align, _ = laid_out(structs, kind)
        begin = -(-end // align) * align
        offsets.append((field, begin))
        end, widest = begin + size, max(widest, align)
    return -(-end // widest) * widest, widest, offsets


def main():
    structs = declared(sys.argv[1])
    in_c = sys.argv[2] == "c"
    print(HEADS[in_c])

    def say(kind, size, offsets):
        print()
        claims = [(f"sizeof({kind})" if in_c else f"size_of::<{kind}>()", size)]
        claims += [(f"offsetof({kind}, {field})" if in_c else f"offset_of!({kind}, {field})", at) for field, at in offsets]
        for what, number in claims:
            print(f'_Static_assert({what} == {number}, "{what}");' if in_c else f"const _: () = assert!({what} == {number});")

    say("tt_text_ref" if in_c else "Text", 16, [("at", 0), ("len", 8)])
    for name, called in NAMES.items():
        size, _, offsets = laid_out(structs, name)
        say(called[0 if in_c else 1], size, offsets)


main()
