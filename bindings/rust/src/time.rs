//! Timers, which show the time of an event and how long its span has been open.

use crate::sys::{self, Settings};
use std::fmt;
use std::sync::OnceLock;
use std::time::{Duration, Instant, SystemTime, UNIX_EPOCH};

/// Shows the time of an event. (`FormatTime` of `tracing-tree`.)
///
/// The library itself shows the timers of this module. A custom timer has the two functions. For
/// each event the layer calls `format_time` once, and `style_timestamp` once if there is a current
/// span. It shows what they wrote, even if they return an error. An event that they emit isn't
/// drawn.
pub trait FormatTime: 'static {
    /// Writes the current moment.
    fn format_time(&self, w: &mut impl fmt::Write) -> fmt::Result;

    /// Writes how long the current span has been open.
    fn style_timestamp(&self, ansi: bool, elapsed: Duration, w: &mut impl fmt::Write) -> fmt::Result;

    // Returns the settings with this timer, or `None` for a custom timer.
    #[doc(hidden)]
    #[allow(private_interfaces)]
    fn set(&self, settings: Settings) -> Option<Settings> {
        let _ = settings;
        None
    }
}

// Returns what the library shows now with these settings: the moment, and the time since `begin`.
fn texts(settings: Settings, begin: u64, mono: u64) -> Option<(String, String)> {
    let event = sys::Event { target: "".into(), parent: 0, parent_kind: sys::ROOT, level: 2 };
    let attributes = sys::Attributes { name: "".into(), target: "".into(), parent: 0, parent_kind: sys::ROOT };
    let at = |current, mono| sys::Context {
        current,
        thread_id: 0,
        thread_name: "".into(),
        mono,
        wall: wall(),
        has_thread_name: false,
    };
    let drawn = |tree: &mut sys::Tree, context: &sys::Context<'_>| {
        tree.event(&event, &[], context).ok()?;
        String::from_utf8(tree.text(&mut Vec::new()).to_vec()).ok()
    };
    let settings = Settings { indent_lines: true, ..settings };
    let level = drawn(&mut sys::Tree::new(&Settings { timer: 0, ..settings }).ok()?, &at(0, mono))?;
    let mut tree = sys::Tree::new(&settings).ok()?;
    let span = tree.new_span(&attributes, &[], &at(0, begin)).ok()?;
    let context = at(span, mono);
    let outside = drawn(&mut tree, &sys::Context { current: 0, ..context })?;
    let inside = drawn(&mut tree, &context)?;
    let moment = outside.strip_suffix(&level)?.strip_suffix(' ')?;
    let elapsed = inside.strip_prefix(moment)?.strip_prefix(' ')?.strip_suffix(&level)?.strip_suffix(' ')?;
    Some((moment.to_owned(), elapsed.to_owned()))
}

// The two functions, for a timer that the library shows.
macro_rules! shown_by_the_library {
    () => {
        fn format_time(&self, w: &mut impl fmt::Write) -> fmt::Result {
            let now = monotonic();
            let settings = self.set(Settings::default()).ok_or(fmt::Error)?;
            w.write_str(&texts(settings, now, now).ok_or(fmt::Error)?.0)
        }

        fn style_timestamp(&self, ansi: bool, elapsed: Duration, w: &mut impl fmt::Write) -> fmt::Result {
            let nanos = u64::try_from(elapsed.as_nanos()).unwrap_or(u64::MAX);
            let settings = self.set(Settings { ansi, ..Settings::default() }).ok_or(fmt::Error)?;
            w.write_str(&texts(settings, 0, nanos).ok_or(fmt::Error)?.1)
        }
    };
}

/// Shows the time of the timer behind the reference.
impl<FT: FormatTime> FormatTime for &'static FT {
    fn format_time(&self, w: &mut impl fmt::Write) -> fmt::Result {
        (**self).format_time(w)
    }

    fn style_timestamp(&self, ansi: bool, elapsed: Duration, w: &mut impl fmt::Write) -> fmt::Result {
        (**self).style_timestamp(ansi, elapsed, w)
    }

    #[allow(private_interfaces)]
    fn set(&self, settings: Settings) -> Option<Settings> {
        (**self).set(settings)
    }
}

/// Shows no time.
impl FormatTime for () {
    fn format_time(&self, _: &mut impl fmt::Write) -> fmt::Result {
        Ok(())
    }

    fn style_timestamp(&self, _: bool, _: Duration, _: &mut impl fmt::Write) -> fmt::Result {
        Ok(())
    }

    #[allow(private_interfaces)]
    fn set(&self, settings: Settings) -> Option<Settings> {
        Some(Settings { timer: 0, ..settings })
    }
}

/// The time since the timer was made.
#[derive(Clone, Copy, Debug, PartialEq, Eq)]
pub struct Uptime {
    epoch: u64,
    /// Whether elapsed times are shown with two decimals.
    pub higher_precision: bool,
}

impl Default for Uptime {
    /// Returns a timer whose uptime starts now.
    fn default() -> Self {
        Uptime { epoch: monotonic(), higher_precision: false }
    }
}

impl From<Instant> for Uptime {
    /// Returns a timer whose uptime started then.
    fn from(epoch: Instant) -> Self {
        Uptime { epoch: monotonic_at(epoch), higher_precision: false }
    }
}

impl FormatTime for Uptime {
    shown_by_the_library!();

    #[allow(private_interfaces)]
    fn set(&self, settings: Settings) -> Option<Settings> {
        Some(Settings { timer: 1, epoch: self.epoch, higher_precision: self.higher_precision, ..settings })
    }
}

/// The date and time in UTC.
#[derive(Clone, Copy, Debug, Default, PartialEq, Eq)]
pub struct UtcDateTime {
    /// Whether elapsed times are shown with two decimals.
    pub higher_precision: bool,
}

impl FormatTime for UtcDateTime {
    shown_by_the_library!();

    #[allow(private_interfaces)]
    fn set(&self, settings: Settings) -> Option<Settings> {
        Some(Settings { timer: 2, higher_precision: self.higher_precision, ..settings })
    }
}

/// The date and time at a fixed offset. Only `of_machine` reads the machine's offset, with the
/// feature `local-offset`.
#[derive(Clone, Copy, Debug, Default, PartialEq, Eq)]
pub struct LocalDateTime {
    offset: i32,
    /// Whether elapsed times are shown with two decimals.
    pub higher_precision: bool,
}

impl LocalDateTime {
    /// Returns a timer at this offset in seconds east of UTC. Returns `None` if the offset is 26
    /// hours or more, east or west.
    pub fn with_offset(seconds: i32) -> Option<Self> {
        let fits = (-93_599..=93_599).contains(&seconds);
        fits.then_some(LocalDateTime { offset: seconds, higher_precision: false })
    }

    /// Returns a timer at the machine's current offset from UTC. Returns `None` if the offset
    /// can't be read, which includes a process of several threads: another thread could change the
    /// environment that has the time zone. So call it first in `main`.
    #[cfg(feature = "local-offset")]
    pub fn of_machine() -> Option<Self> {
        let offset = time::UtcOffset::current_local_offset().ok()?;
        LocalDateTime::with_offset(offset.whole_seconds())
    }
}

impl FormatTime for LocalDateTime {
    shown_by_the_library!();

    #[allow(private_interfaces)]
    fn set(&self, settings: Settings) -> Option<Settings> {
        Some(Settings { timer: 3, offset: self.offset, higher_precision: self.higher_precision, ..settings })
    }
}

// What the monotonic clock shows at its beginning. So an instant before that is a number too.
const CLOCK_START: u64 = 1 << 62;

// Returns the beginning of the monotonic clock: when it was first read.
fn clock_begin() -> Instant {
    static BEGIN: OnceLock<Instant> = OnceLock::new();
    *BEGIN.get_or_init(Instant::now)
}

// Returns the nanoseconds of the monotonic clock.
pub(crate) fn monotonic() -> u64 {
    CLOCK_START + clock_begin().elapsed().as_nanos() as u64
}

// Returns the nanoseconds of the monotonic clock at an instant, limited to what fits.
fn monotonic_at(instant: Instant) -> u64 {
    let nanos = |time: Duration| u64::try_from(time.as_nanos()).unwrap_or(u64::MAX);
    let begin = clock_begin();
    match instant.checked_duration_since(begin) {
        Some(after) => CLOCK_START.saturating_add(nanos(after)),
        None => CLOCK_START.saturating_sub(nanos(begin.duration_since(instant))),
    }
}

// Returns the nanoseconds since 1970, negative before it, limited to what fits.
pub(crate) fn wall() -> i64 {
    match SystemTime::now().duration_since(UNIX_EPOCH) {
        Ok(since) => i64::try_from(since.as_nanos()).unwrap_or(i64::MAX),
        Err(before) => i64::try_from(before.duration().as_nanos()).map_or(i64::MIN, |nanos| -nanos),
    }
}
