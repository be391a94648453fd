// Made by bindings/layouts.py from the declarations of the proved crate. It only has to compile.

use super::{Attributes, Context, Event, Field, RawTree, Settings, Text, Time};
use std::mem::{offset_of, size_of};

const _: () = assert!(size_of::<Text>() == 16);
const _: () = assert!(offset_of!(Text, at) == 0);
const _: () = assert!(offset_of!(Text, len) == 8);

const _: () = assert!(size_of::<RawTree>() == 16);
const _: () = assert!(offset_of!(RawTree, inside) == 0);
const _: () = assert!(offset_of!(RawTree, there) == 8);

const _: () = assert!(size_of::<Field>() == 32);
const _: () = assert!(offset_of!(Field, name) == 0);
const _: () = assert!(offset_of!(Field, value) == 16);

const _: () = assert!(size_of::<Settings>() == 56);
const _: () = assert!(offset_of!(Settings, size) == 0);
const _: () = assert!(offset_of!(Settings, indent_amount) == 8);
const _: () = assert!(offset_of!(Settings, wraparound) == 16);
const _: () = assert!(offset_of!(Settings, epoch) == 24);
const _: () = assert!(offset_of!(Settings, timer) == 32);
const _: () = assert!(offset_of!(Settings, offset) == 36);
const _: () = assert!(offset_of!(Settings, higher_precision) == 40);
const _: () = assert!(offset_of!(Settings, ansi) == 41);
const _: () = assert!(offset_of!(Settings, indent_lines) == 42);
const _: () = assert!(offset_of!(Settings, targets) == 43);
const _: () = assert!(offset_of!(Settings, thread_ids) == 44);
const _: () = assert!(offset_of!(Settings, thread_names) == 45);
const _: () = assert!(offset_of!(Settings, verbose_entry) == 46);
const _: () = assert!(offset_of!(Settings, verbose_exit) == 47);
const _: () = assert!(offset_of!(Settings, span_retrace) == 48);
const _: () = assert!(offset_of!(Settings, deferred_spans) == 49);
const _: () = assert!(offset_of!(Settings, close_retrace) == 50);
const _: () = assert!(offset_of!(Settings, span_modes) == 51);
const _: () = assert!(offset_of!(Settings, bracketed_fields) == 52);

const _: () = assert!(size_of::<Context>() == 56);
const _: () = assert!(offset_of!(Context, current) == 0);
const _: () = assert!(offset_of!(Context, thread_id) == 8);
const _: () = assert!(offset_of!(Context, thread_name) == 16);
const _: () = assert!(offset_of!(Context, mono) == 32);
const _: () = assert!(offset_of!(Context, wall) == 40);
const _: () = assert!(offset_of!(Context, has_thread_name) == 48);

const _: () = assert!(size_of::<Attributes>() == 48);
const _: () = assert!(offset_of!(Attributes, name) == 0);
const _: () = assert!(offset_of!(Attributes, target) == 16);
const _: () = assert!(offset_of!(Attributes, parent) == 32);
const _: () = assert!(offset_of!(Attributes, parent_kind) == 40);

const _: () = assert!(size_of::<Event>() == 32);
const _: () = assert!(offset_of!(Event, target) == 0);
const _: () = assert!(offset_of!(Event, parent) == 16);
const _: () = assert!(offset_of!(Event, parent_kind) == 24);
const _: () = assert!(offset_of!(Event, level) == 28);

const _: () = assert!(size_of::<Time>() == 32);
const _: () = assert!(offset_of!(Time, moment) == 0);
const _: () = assert!(offset_of!(Time, elapsed) == 16);
