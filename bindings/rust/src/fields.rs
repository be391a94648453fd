//! Fields as strings.

use crate::sys;
use std::fmt::{self, Write as _};
use tracing_core::field::{Field, Visit};

/// Fields, with their values as strings.
pub(crate) struct Fields(sys::Fields);

impl Fields {
    pub(crate) const fn new() -> Fields {
        Fields(sys::Fields::new())
    }

    /// Replaces all fields by those that `record` visits. Keeps the capacity.
    #[inline(always)]
    pub(crate) fn take(&mut self, record: impl FnOnce(&mut dyn Visit)) {
        self.0.clear();
        record(self);
    }

    /// Returns the fields.
    #[inline]
    pub(crate) fn as_slice(&mut self) -> &[sys::Field<'_>] {
        self.0.as_slice()
    }

    fn record_number(&mut self, field: &Field, value: u64, is_negative: bool) {
        self.0.push_number(value, is_negative);
        self.0.end(field.name());
    }

    #[cold]
    #[inline(never)]
    fn record_escaped(&mut self, field: &Field, value: &str) {
        self.record_debug(field, &value);
    }
}

// Returns whether `Debug` shows a byte unchanged.
#[inline]
fn is_shown(byte: u8) -> bool {
    matches!(byte, b' '..=b'~') & (byte != b'"') & (byte != b'\\')
}

// Returns whether `Debug` only puts a string in quotes. Checks eight bytes at a time.
#[inline]
fn is_shown_as_it_is(text: &str) -> bool {
    let mut eights = text.as_bytes().chunks_exact(8);
    let all_eights = eights.all(|eight| eight.iter().fold(true, |all, byte| all & is_shown(*byte)));
    all_eights && eights.remainder().iter().all(|byte| is_shown(*byte))
}

// Writes each value as `Debug` does. The usual types are written without `fmt`.
impl Visit for Fields {
    fn record_debug(&mut self, field: &Field, value: &dyn fmt::Debug) {
        // If `Debug` fails, what it wrote before stays.
        let _ = write!(self.0.text(), "{value:?}");
        self.0.end(field.name());
    }

    fn record_str(&mut self, field: &Field, value: &str) {
        if !is_shown_as_it_is(value) {
            return self.record_escaped(field, value);
        }
        self.0.push_quoted(value);
        self.0.end(field.name());
    }

    fn record_u64(&mut self, field: &Field, value: u64) {
        self.record_number(field, value, false);
    }

    fn record_i64(&mut self, field: &Field, value: i64) {
        self.record_number(field, value.unsigned_abs(), value < 0);
    }

    fn record_bool(&mut self, field: &Field, value: bool) {
        let _ = self.0.text().write_str(if value { "true" } else { "false" });
        self.0.end(field.name());
    }
}
