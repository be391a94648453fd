//! The layer of the crate `tracing-tree`, over a proved library.
//!
//! [`HierarchicalLayer`] has the builders of `tracing_tree::HierarchicalLayer` 0.4.1. It draws the
//! same bytes, except for the differences that README.md lists. A service changes the dependency
//! and the `use` line:
//!
//! ```no_run
//! use tracing_subscriber::prelude::*;
//! use tracing_tree_proved::HierarchicalLayer;
//!
//! fn main() {
//!     tracing_subscriber::registry().with(HierarchicalLayer::new(2).with_indent_lines(true)).init();
//! }
//! ```
//!
//! What a call draws is proved, up to the functions of the C header. This crate is ordinary Rust.
//! It passes spans, events and clocks to the library, one call at a time under a lock, and writes
//! what each call draws.
#![deny(missing_docs)]
#![deny(unsafe_code)]

mod entered;
mod fields;
mod here;
mod layer;
#[cfg(feature = "log")]
mod log;
mod spans;
#[allow(unsafe_code)]
mod sys;
pub mod time;

use std::fmt;
use std::io::{self, IsTerminal};
use std::sync::Mutex;
use time::FormatTime;
use tracing_subscriber::fmt::MakeWriter;

pub use sys::version;

/// Draws spans and events as a tree.
///
/// The type of the timer follows that of the writer, as in `tracing-tree`.
pub struct HierarchicalLayer<W = fn() -> io::Stderr, FT = ()>
where
    W: for<'writer> MakeWriter<'writer> + 'static,
    FT: FormatTime,
{
    make_writer: W,
    settings: sys::Settings,
    state: Mutex<Option<layer::State>>,
    late: layer::Late,
    timer: FT,
    // Whether the timer is a custom one.
    own_timer: bool,
    // Differs from the number of every other layer.
    number: u64,
}

impl<W, FT> fmt::Debug for HierarchicalLayer<W, FT>
where
    W: for<'writer> MakeWriter<'writer> + 'static,
    FT: FormatTime,
{
    /// Shows the settings.
    fn fmt(&self, f: &mut fmt::Formatter<'_>) -> fmt::Result {
        f.debug_struct("HierarchicalLayer").field("settings", &self.settings).finish_non_exhaustive()
    }
}

impl Default for HierarchicalLayer {
    /// Returns a layer with two columns for each level. See [`HierarchicalLayer::new`].
    fn default() -> Self {
        Self::new(2)
    }
}

impl HierarchicalLayer {
    /// Returns a layer that writes to standard error, with `indent_amount` columns for each level.
    /// Colours are on if standard error is a terminal.
    ///
    /// # Panics
    ///
    /// Panics if the linked library has another version than this crate needs.
    pub fn new(indent_amount: usize) -> Self {
        sys::require_version();
        HierarchicalLayer {
            make_writer: io::stderr,
            settings: sys::Settings {
                indent_amount: indent_amount as u64,
                ansi: io::stderr().is_terminal(),
                ..sys::Settings::default()
            },
            state: Mutex::new(None),
            late: layer::Late::default(),
            timer: (),
            own_timer: false,
            number: entered::new_layer(),
        }
    }
}

macro_rules! switches {
    ($($(#[$doc:meta])* $name:ident: $field:ident;)*) => {
        $($(#[$doc])*
        pub fn $name(mut self, enabled: bool) -> Self {
            self.settings.$field = enabled;
            self
        })*
    };
}

impl<W, FT> HierarchicalLayer<W, FT>
where
    W: for<'writer> MakeWriter<'writer> + 'static,
    FT: FormatTime,
{
    switches! {
        /// Sets whether colours are used.
        with_ansi: ansi;
        /// Sets whether the tree is drawn with lines, not only with spaces.
        with_indent_lines: indent_lines;
        /// Sets whether the targets of spans and events are shown.
        with_targets: targets;
        /// Sets whether each line starts with the thread's number.
        with_thread_ids: thread_ids;
        /// Sets whether each line starts with the thread's name, if it has one.
        with_thread_names: thread_names;
        /// Sets whether a span's parent is shown again before the span opens.
        with_verbose_entry: verbose_entry;
        /// Sets whether a closing span is shown whole, and its parent again after it.
        with_verbose_exit: verbose_exit;
        /// Sets whether the path to an event or a new span is shown again if another branch was
        /// shown last.
        with_span_retrace: span_retrace;
        /// Sets whether a span is drawn only when the first event occurs in it or in one of its
        /// descendants. The path to an event is shown again as with `with_span_retrace`.
        with_deferred_spans: deferred_spans;
        /// Sets whether a closing span is shown again if its parent isn't on the path of the last
        /// span shown. It needs one of the last two settings. `tracing-tree` has no such setting.
        with_close_retrace: close_retrace;
        /// Sets whether the rows of spans are labelled, for example `open: `.
        with_span_modes: span_modes;
        /// Sets whether a span's fields are in braces.
        with_bracketed_fields: bracketed_fields;
    }

    /// Writes to the writers that `make_writer` makes, one for each call that draws.
    pub fn with_writer<W2>(self, make_writer: W2) -> HierarchicalLayer<W2, FT>
    where
        W2: for<'writer> MakeWriter<'writer> + 'static,
    {
        HierarchicalLayer {
            make_writer,
            settings: self.settings,
            state: self.state,
            late: self.late,
            timer: self.timer,
            own_timer: self.own_timer,
            number: self.number,
        }
    }

    /// Sets the number of columns for each level.
    pub fn with_indent_amount(mut self, indent_amount: usize) -> Self {
        self.settings.indent_amount = indent_amount as u64;
        self
    }

    /// Starts the indent again at the left after `wraparound` levels. 0 counts as 1.
    pub fn with_wraparound(mut self, wraparound: usize) -> Self {
        self.settings.wraparound = wraparound.max(1) as u64;
        self
    }

    /// Shows the time with this timer. `()` shows no time, and [`time`] has other timers. A custom
    /// timer implements [`FormatTime`].
    pub fn with_timer<FT2: FormatTime>(self, timer: FT2) -> HierarchicalLayer<W, FT2> {
        let set = timer.set(self.settings);
        HierarchicalLayer {
            make_writer: self.make_writer,
            settings: set.unwrap_or(sys::Settings { timer: 0, ..self.settings }),
            state: self.state,
            late: self.late,
            own_timer: set.is_none(),
            number: self.number,
            timer,
        }
    }
}
