//! The library's functions, as in `tracing_tree.h`. All unsafe code is in this file.

#[path = "layout.rs"]
mod layout;

use std::fmt;
use std::marker::PhantomData;

/// A borrowed UTF-8 string.
#[repr(C)]
#[derive(Clone, Copy)]
pub struct Text<'a> {
    at: *const u8,
    len: usize,
    of: PhantomData<&'a str>,
}

impl Text<'_> {
    /// The empty string.
    pub const NONE: Text<'static> = Text { at: "".as_ptr(), len: 0, of: PhantomData };
}

impl<'a> From<&'a str> for Text<'a> {
    #[inline]
    fn from(text: &'a str) -> Text<'a> {
        Text { at: text.as_ptr(), len: text.len(), of: PhantomData }
    }
}

/// A field.
#[repr(C)]
#[derive(Clone, Copy)]
pub struct Field<'a> {
    pub name: Text<'a>,
    pub value: Text<'a>,
}

// The two digits of each number below 100.
const PAIRS: [[u8; 2]; 100] = {
    let mut pairs = [[0; 2]; 100];
    let mut number = 0;
    while number < 100 {
        pairs[number] = [b'0' + (number / 10) as u8, b'0' + (number % 10) as u8];
        number += 1;
    }
    pairs
};

/// Fields whose values are stored one after another in one string.
pub struct Fields {
    text: String,
    list: Vec<Field<'static>>,
    // The end in `text` of the values that are in the list.
    end: usize,
    // The capacity of `text` when the addresses in the list were set. `text` only moves when its
    // capacity changes.
    capacity: usize,
}

impl Fields {
    /// Returns no fields.
    pub const fn new() -> Fields {
        Fields { text: String::new(), list: Vec::new(), end: 0, capacity: 0 }
    }

    /// Removes all fields. Keeps the capacity.
    #[inline]
    pub fn clear(&mut self) {
        self.text.clear();
        self.list.clear();
        self.end = 0;
    }

    /// Returns a writer to the end of `text`. It can't shrink the capacity of `text`.
    #[inline]
    pub fn text(&mut self) -> &mut impl fmt::Write {
        &mut self.text
    }

    /// Appends a string in quotes to `text`.
    #[inline]
    pub fn push_quoted(&mut self, quoted: &str) {
        let (len, size) = (self.text.len(), quoted.len() + 2);
        self.text.reserve(size);
        // SAFETY: capacity for the string and two quotes was reserved. Together they are UTF-8, and
        // `quoted` doesn't overlap `text`.
        unsafe {
            let text = self.text.as_mut_vec();
            let to = text.as_mut_ptr().add(len);
            to.write(b'"');
            to.add(1).copy_from_nonoverlapping(quoted.as_ptr(), size - 2);
            to.add(size - 1).write(b'"');
            text.set_len(len + size);
        }
    }

    /// Appends a number to `text`.
    #[inline]
    pub fn push_number(&mut self, number: u64, is_negative: bool) {
        let mut digits = [0; 21];
        let (mut at, mut rest) = (digits.len(), number);
        while rest >= 10 {
            at -= 2;
            digits[at..at + 2].copy_from_slice(&PAIRS[(rest % 100) as usize]);
            rest /= 100;
        }
        if rest > 0 || number == 0 {
            at -= 1;
            digits[at] = b'0' + rest as u8;
        }
        if is_negative {
            at -= 1;
            digits[at] = b'-';
        }
        // SAFETY: these are a sign and digits.
        self.text.push_str(unsafe { std::str::from_utf8_unchecked(&digits[at..]) });
    }

    /// Ends a field: its value is what was appended since the last field.
    #[inline]
    pub fn end(&mut self, name: &'static str) {
        if self.list.len() == self.list.capacity() {
            return self.end_beyond(name);
        }
        let value = Text { at: self.text.as_ptr().wrapping_add(self.end), len: self.text.len() - self.end, of: PhantomData };
        self.end = self.text.len();
        self.list.push(Field { name: name.into(), value });
    }

    // Separate, so that the usual case saves no registers.
    #[cold]
    #[inline(never)]
    fn end_beyond(&mut self, name: &'static str) {
        self.list.reserve(8);
        self.end(name);
    }

    /// Returns the fields.
    #[inline]
    pub fn as_slice(&mut self) -> &[Field<'_>] {
        if self.text.capacity() != self.capacity {
            self.move_values();
        }
        &self.list
    }

    // Sets the address of each value again.
    #[cold]
    #[inline(never)]
    fn move_values(&mut self) {
        let mut at = self.text.as_ptr();
        for field in &mut self.list {
            field.value.at = at;
            at = at.wrapping_add(field.value.len);
        }
        self.capacity = self.text.capacity();
    }
}

/// Settings, with the names of the header.
#[repr(C)]
#[derive(Clone, Copy, Debug)]
pub struct Settings {
    pub size: u64,
    pub indent_amount: u64,
    pub wraparound: u64,
    pub epoch: u64,
    pub timer: u32,
    pub offset: i32,
    pub higher_precision: bool,
    pub ansi: bool,
    pub indent_lines: bool,
    pub targets: bool,
    pub thread_ids: bool,
    pub thread_names: bool,
    pub verbose_entry: bool,
    pub verbose_exit: bool,
    pub span_retrace: bool,
    pub deferred_spans: bool,
    pub close_retrace: bool,
    pub span_modes: bool,
    pub bracketed_fields: bool,
}

impl Default for Settings {
    /// Returns two columns for each level, no wraparound, no timer, everything else off.
    fn default() -> Self {
        Settings {
            size: std::mem::size_of::<Settings>() as u64,
            indent_amount: 2,
            wraparound: u64::MAX,
            epoch: 0,
            timer: 0,
            offset: 0,
            higher_precision: false,
            ansi: false,
            indent_lines: false,
            targets: false,
            thread_ids: false,
            thread_names: false,
            verbose_entry: false,
            verbose_exit: false,
            span_retrace: false,
            deferred_spans: false,
            close_retrace: false,
            span_modes: false,
            bracketed_fields: false,
        }
    }
}

/// Kinds of parents: no parent, the current span, or the span `parent`.
pub const ROOT: u32 = 0;
pub const CURRENT: u32 = 1;
pub const OF: u32 = 2;

impl Settings {
    /// Returns whether the thread's name, its number or a time is shown.
    #[inline]
    pub fn shows_context(&self) -> bool {
        (self.timer != 0) | self.thread_names | self.thread_ids
    }
}

/// The context of a call.
#[repr(C)]
#[derive(Clone, Copy)]
pub struct Context<'a> {
    pub current: u64,
    pub thread_id: u64,
    pub thread_name: Text<'a>,
    pub mono: u64,
    pub wall: i64,
    pub has_thread_name: bool,
}

impl Context<'_> {
    /// No current span, thread or time.
    pub const NONE: Context<'static> =
        Context { current: 0, thread_id: 0, thread_name: Text::NONE, mono: 0, wall: 0, has_thread_name: false };
}

/// A new span, except its fields.
#[repr(C)]
#[derive(Clone, Copy)]
pub struct Attributes<'a> {
    pub name: Text<'a>,
    pub target: Text<'a>,
    pub parent: u64,
    pub parent_kind: u32,
}

/// An event, except its fields.
#[repr(C)]
#[derive(Clone, Copy)]
pub struct Event<'a> {
    pub target: Text<'a>,
    pub parent: u64,
    pub parent_kind: u32,
    pub level: u32,
}

/// The strings that are shown as the time.
#[repr(C)]
#[derive(Clone, Copy)]
pub struct Time<'a> {
    pub moment: Text<'a>,
    pub elapsed: Text<'a>,
}

#[repr(C)]
struct RawTree {
    inside: *mut u8,
    there: bool,
}

extern "C" {
    fn tt_version() -> u32;
    fn tt_raw_new(tree: *mut RawTree, settings: *const Settings) -> u32;
    fn tt_raw_free(tree: *mut RawTree);
    fn tt_utf8_new_span(
        tree: *mut RawTree,
        attributes: *const Attributes<'_>,
        fields: *const Field<'_>,
        count: usize,
        context: *const Context<'_>,
        id: *mut u64,
    ) -> u32;
    fn tt_raw_record(tree: *mut RawTree, id: u64, fields: *const Field<'_>, count: usize) -> u32;
    fn tt_utf8_event(
        tree: *mut RawTree,
        event: *const Event<'_>,
        fields: *const Field<'_>,
        count: usize,
        context: *const Context<'_>,
    ) -> u32;
    fn tt_raw_close(tree: *mut RawTree, id: u64, context: *const Context<'_>, went: *mut bool) -> u32;
    fn tt_raw_set_time(tree: *mut RawTree, time: *const Time<'_>) -> u32;
    fn tt_raw_text(tree: *mut RawTree, room: *mut u8, size: usize) -> usize;
}

/// Why a call was refused: a status of the header.
#[derive(Clone, Copy, Debug, PartialEq, Eq)]
pub struct Refused(pub u32);

/// The version of the header that this file follows.
const VERSION: u32 = 1;

/// The settings have another size than the library's.
const OTHER_SIZE: Refused = Refused(11);

#[inline]
fn answered(status: u32) -> Result<(), Refused> {
    if status == 0 {
        Ok(())
    } else {
        Err(Refused(status))
    }
}

/// A tree.
pub struct Tree {
    raw: RawTree,
}

// SAFETY: it is proved that a tree may move to another thread (`Tree` of crates/tracing_tree_c).
// `&mut` allows only one call at a time.
unsafe impl Send for Tree {}

impl Tree {
    /// Returns a tree with these settings. Refuses a library of another version: its settings may
    /// have other fields in the same size.
    pub fn new(settings: &Settings) -> Result<Tree, Refused> {
        if version() != VERSION {
            return Err(OTHER_SIZE);
        }
        let mut raw = RawTree { inside: std::ptr::null_mut(), there: false };
        // SAFETY: the tree is missing, and `settings` is a whole value.
        answered(unsafe { tt_raw_new(&mut raw, settings) })?;
        Ok(Tree { raw })
    }

    /// Opens a span, and returns its id.
    #[inline]
    pub fn new_span(
        &mut self,
        attributes: &Attributes<'_>,
        fields: &[Field<'_>],
        context: &Context<'_>,
    ) -> Result<u64, Refused> {
        let mut id = 0;
        // SAFETY: each reference is to a whole value during the call, a slice's address is never
        // null, and each string was a `str`.
        answered(unsafe {
            tt_utf8_new_span(&mut self.raw, attributes, fields.as_ptr(), fields.len(), context, &mut id)
        })?;
        Ok(id)
    }

    /// Appends fields to a span's fields.
    #[inline]
    pub fn record(&mut self, id: u64, fields: &[Field<'_>]) -> Result<(), Refused> {
        // SAFETY: as for a new span.
        answered(unsafe { tt_raw_record(&mut self.raw, id, fields.as_ptr(), fields.len()) })
    }

    /// Draws an event.
    #[inline]
    pub fn event(&mut self, event: &Event<'_>, fields: &[Field<'_>], context: &Context<'_>) -> Result<(), Refused> {
        // SAFETY: as for a new span.
        answered(unsafe { tt_utf8_event(&mut self.raw, event, fields.as_ptr(), fields.len(), context) })
    }

    /// Shows these strings as the time of each event from now on.
    pub fn set_time(&mut self, time: &Time<'_>) -> Result<(), Refused> {
        // SAFETY: as for a new span.
        answered(unsafe { tt_raw_set_time(&mut self.raw, time) })
    }

    /// Drops a handle of a span, and returns whether the span closed.
    #[inline]
    pub fn close(&mut self, id: u64, context: &Context<'_>) -> Result<bool, Refused> {
        let mut went = false;
        // SAFETY: as for a new span.
        answered(unsafe { tt_raw_close(&mut self.raw, id, context, &mut went) })?;
        Ok(went)
    }

    /// Returns what the last call drew, in `room`, which grows if it is too small.
    #[inline]
    pub fn text<'a>(&mut self, room: &'a mut Vec<u8>) -> &'a [u8] {
        // SAFETY: `room` has `room.len()` bytes.
        let length = unsafe { tt_raw_text(&mut self.raw, room.as_mut_ptr(), room.len()) };
        if length > room.len() {
            room.resize(length, 0);
            // SAFETY: as before.
            let length = unsafe { tt_raw_text(&mut self.raw, room.as_mut_ptr(), room.len()) };
            return &room[..length];
        }
        &room[..length]
    }
}

impl Drop for Tree {
    fn drop(&mut self) {
        // SAFETY: nothing else uses the tree.
        unsafe { tt_raw_free(&mut self.raw) }
    }
}

/// Panics if the library has another version than `VERSION`.
pub fn require_version() {
    let found = version();
    assert!(
        found == VERSION,
        "tracing_tree_proved needs version {VERSION} of libtracing_tree.a, but version {found} is linked: \
         take the crate and the library from one checkout"
    );
}

/// Returns the version of the library.
pub fn version() -> u32 {
    // SAFETY: the function requires nothing.
    unsafe { tt_version() }
}
