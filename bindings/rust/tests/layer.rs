//! Tests what a service sees of the layer: the drawing, threads, and faults in the middle of a
//! call.

use std::cell::RefCell;
use std::fmt::{self, Write as TextWrite};
use std::io::{self, Write};
use std::panic::{catch_unwind, AssertUnwindSafe};
use std::sync::{Arc, Mutex};
use std::thread;
use std::time::{Duration, Instant};
use tracing::{info, info_span, warn};
use tracing_subscriber::filter::filter_fn;
use tracing_subscriber::prelude::*;
use tracing_subscriber::Registry;
use tracing_tree_proved::time::FormatTime;
use tracing_tree_proved::{time, HierarchicalLayer};

/// A writer to memory that all its copies share.
#[derive(Clone, Default)]
struct Sink(Arc<Mutex<Vec<u8>>>);

impl Sink {
    fn text(&self) -> String {
        String::from_utf8(self.0.lock().unwrap().clone()).unwrap()
    }
}

impl Write for Sink {
    fn write(&mut self, bytes: &[u8]) -> io::Result<usize> {
        self.0.lock().unwrap().write(bytes)
    }

    fn flush(&mut self) -> io::Result<()> {
        Ok(())
    }
}

fn plain() -> HierarchicalLayer {
    HierarchicalLayer::new(2).with_ansi(false).with_indent_lines(true)
}

/// Returns what is drawn while `then` runs.
fn drawn(layer: HierarchicalLayer, then: impl FnOnce()) -> String {
    let sink = Sink::default();
    let writer = sink.clone();
    let subscriber = Registry::default().with(layer.with_writer(move || writer.clone()));
    tracing::subscriber::with_default(subscriber, then);
    sink.text()
}

/// The example of the C header's server.
#[test]
fn the_server() {
    let text = drawn(plain(), || {
        let server = info_span!("server", host = "localhost", port = 8080).entered();
        info!("starting");
        info_span!("conn", peer = "82.9.9.9").in_scope(|| warn!(ms = 271, "slow answer:\nwaiting for the disk"));
        drop(server);
    });
    assert_eq!(text, include_str!("../../c/server.out"));
}

#[test]
fn builders() {
    let layer = plain()
        .with_targets(false)
        .with_thread_ids(false)
        .with_thread_names(false)
        .with_verbose_entry(false)
        .with_verbose_exit(false)
        .with_span_retrace(true)
        .with_close_retrace(true)
        .with_deferred_spans(false)
        .with_span_modes(true)
        .with_bracketed_fields(true)
        .with_indent_amount(3)
        .with_wraparound(0)
        .with_wraparound(5);
    let text = drawn(layer, || {
        let a = info_span!("a", x = 1);
        let b = a.in_scope(|| info_span!("b"));
        let c = info_span!("c");
        a.in_scope(|| info!("in a"));
        drop((b, c, a));
    });
    let opened = "┐retrace: a{x=1}\n└──┐retrace: b{}\n┐retrace: c{}\n┐retrace: a{x=1}\n├── INFO in a\n";
    assert_eq!(text, format!("{opened}┌──┘close: \n┘close: \n┘close: \n"));
}

#[test]
fn timers() {
    let local = time::LocalDateTime::with_offset(3600).unwrap();
    assert!(time::LocalDateTime::with_offset(93_600).is_none());
    let sink = Sink::default();
    let (first, second, third) = (sink.clone(), sink.clone(), sink.clone());
    let uptime = plain().with_timer(time::Uptime::default()).with_writer(move || first.clone());
    let utc = plain().with_writer(move || second.clone()).with_timer(time::UtcDateTime { higher_precision: true });
    let local = plain().with_timer(local).with_writer(move || third.clone());
    tracing::subscriber::with_default(Registry::default().with(uptime).with(utc).with(local), || info!("x"));
    let text = sink.text();
    let lines: Vec<_> = text.lines().collect();
    assert!(lines[0].starts_with("   0.0") && lines[0].ends_with("s INFO x"), "{text}");
    assert!(lines[1].starts_with("20") && lines[1].ends_with(" INFO x") && !lines[1].contains('+'), "{text}");
    assert!(lines[2].ends_with(" +01:00:00 INFO x"), "{text}");
}

/// A custom timer, which also logs.
struct Ticks;

impl time::FormatTime for Ticks {
    fn format_time(&self, w: &mut impl TextWrite) -> fmt::Result {
        info!("inside a timer");
        w.write_str("tick")
    }

    fn style_timestamp(&self, ansi: bool, elapsed: Duration, w: &mut impl TextWrite) -> fmt::Result {
        assert!(!ansi && elapsed < Duration::from_secs(60));
        w.write_str("tock")?;
        Err(fmt::Error)
    }
}

#[test]
fn a_timer_of_ones_own() {
    let sink = Sink::default();
    let writer = sink.clone();
    let layer = plain().with_timer(Ticks).with_writer(move || writer.clone());
    tracing::subscriber::with_default(Registry::default().with(layer), || {
        info!("x");
        info_span!("a").in_scope(|| info!("y"));
    });
    assert_eq!(sink.text(), "tick INFO x\n┐a \n├─tick tock INFO y\n┘\n");
}

#[test]
fn a_timer_by_reference() {
    static TIMER: time::UtcDateTime = time::UtcDateTime { higher_precision: true };
    let sink = Sink::default();
    let writer = sink.clone();
    let layer = plain().with_timer(&TIMER).with_writer(move || writer.clone());
    tracing::subscriber::with_default(Registry::default().with(layer), || info!("x"));
    assert!(sink.text().starts_with("20") && sink.text().ends_with(" INFO x\n"), "{}", sink.text());

    let sink = Sink::default();
    let writer = sink.clone();
    let layer = plain().with_timer(&Ticks).with_writer(move || writer.clone());
    tracing::subscriber::with_default(Registry::default().with(layer), || info!("x"));
    assert_eq!(sink.text(), "tick INFO x\n");
}

/// An instant before the clock of the layer was first read, and one after it.
#[test]
fn an_uptime_since_an_instant() {
    let shown = |epoch: Instant| {
        let mut text = String::new();
        time::Uptime::from(epoch).format_time(&mut text).unwrap();
        text
    };
    let hour = Duration::from_secs(3600);
    assert!(shown(Instant::now() - hour).trim_start().starts_with("3600."), "{}", shown(Instant::now() - hour));
    assert!(shown(Instant::now()).trim_start().starts_with("0.0"), "{}", shown(Instant::now()));
    assert!(shown(Instant::now() + hour).trim_start().starts_with("0.0"), "{}", shown(Instant::now() + hour));
}

#[test]
fn timers_by_themselves() {
    let shown = |ansi, timer: time::UtcDateTime| {
        let (mut moment, mut elapsed) = (String::new(), String::new());
        timer.format_time(&mut moment).unwrap();
        timer.style_timestamp(ansi, Duration::from_millis(12), &mut elapsed).unwrap();
        (moment, elapsed)
    };
    let (moment, elapsed) = shown(false, time::UtcDateTime::default());
    assert!(moment.starts_with("20") && moment.contains(':'), "{moment}");
    assert_eq!(elapsed, " 12ms");
    assert_eq!(shown(false, time::UtcDateTime { higher_precision: true }).1, " 12.00ms");
    assert_eq!(shown(true, time::UtcDateTime::default()).1, "\u{1b}[2m 12\u{1b}[0m\u{1b}[2mms\u{1b}[0m");
    let mut local = String::new();
    time::LocalDateTime::with_offset(-1800).unwrap().format_time(&mut local).unwrap();
    assert!(local.ends_with(" -00:30:00"), "{local}");
    let mut uptime = String::new();
    time::Uptime::default().format_time(&mut uptime).unwrap();
    assert!(uptime.starts_with("   0.0") && uptime.ends_with('s'), "{uptime}");
}

struct Panics;

impl fmt::Debug for Panics {
    fn fmt(&self, _: &mut fmt::Formatter<'_>) -> fmt::Result {
        panic!("in a field")
    }
}

#[test]
fn a_panic_in_a_field() {
    let text = drawn(plain(), || {
        let span = info_span!("a").entered();
        assert!(catch_unwind(|| info!(x = ?Panics, "lost")).is_err());
        assert!(catch_unwind(|| info_span!(parent: None, "lost", x = ?Panics)).is_err());
        info!("next");
        drop(span);
    });
    assert_eq!(text, "┐a \n├─ INFO next\n┘\n");
}

/// Logs and drops a span while it is formatted.
struct Logs(Mutex<Option<tracing::Span>>);

impl fmt::Debug for Logs {
    fn fmt(&self, f: &mut fmt::Formatter<'_>) -> fmt::Result {
        info!("inside");
        drop(self.0.lock().unwrap().take());
        f.write_str("x")
    }
}

#[test]
fn a_field_that_logs() {
    let text = drawn(plain(), || {
        let a = info_span!("a");
        let b = info_span!("b");
        info!(by = ?Logs(Mutex::new(Some(b))), "outside");
        info!("next");
        drop(a);
    });
    assert_eq!(text, "┐a \n┐b \nINFO outside, by=x\n┘\nINFO next\n┘\n");
}

/// Logs through its own layer.
#[derive(Clone)]
struct Echo(Sink);

impl Write for Echo {
    fn write(&mut self, bytes: &[u8]) -> io::Result<usize> {
        info!("written");
        self.0.write(bytes)
    }

    fn flush(&mut self) -> io::Result<()> {
        Ok(())
    }
}

#[test]
fn a_writer_that_logs() {
    let sink = Sink::default();
    let echo = Echo(sink.clone());
    let subscriber = Registry::default().with(plain().with_writer(move || echo.clone()));
    tracing::subscriber::with_default(subscriber, || info!("x"));
    assert_eq!(sink.text(), "INFO x\n");
}

/// Opens a span and logs in it, through its own layer.
#[derive(Clone)]
struct Traces(Sink);

impl Write for Traces {
    fn write(&mut self, bytes: &[u8]) -> io::Result<usize> {
        info_span!("send").in_scope(|| info!("written"));
        self.0.write(bytes)
    }

    fn flush(&mut self) -> io::Result<()> {
        Ok(())
    }
}

#[test]
fn a_writer_that_opens_spans() {
    let sink = Sink::default();
    let traces = Traces(sink.clone());
    let subscriber = Registry::default().with(plain().with_writer(move || traces.clone()));
    tracing::subscriber::with_default(subscriber, || drop(info_span!("a")));
    assert_eq!(sink.text(), "┐a \n┘\n");
}

/// Drops spans, one after another, while it is formatted.
struct LetsGo(Mutex<Vec<tracing::Span>>);

impl fmt::Debug for LetsGo {
    fn fmt(&self, f: &mut fmt::Formatter<'_>) -> fmt::Result {
        for span in self.0.lock().unwrap().drain(..) {
            drop(span);
        }
        f.write_str("x")
    }
}

#[test]
fn a_field_that_closes_spans() {
    let text = drawn(plain().with_verbose_exit(true), || {
        let (a, b) = (info_span!("a"), info_span!("b"));
        info!(by = ?LetsGo(Mutex::new(vec![a, b])), "outside");
    });
    assert_eq!(text, "┐a \n┐b \nINFO outside, by=x\n┘a \n┘b \n");
}

#[test]
fn a_writer_that_fails_and_panics() {
    struct Fails(Arc<Mutex<u32>>, Sink);
    impl Write for Fails {
        fn write(&mut self, bytes: &[u8]) -> io::Result<usize> {
            let mut count = self.0.lock().unwrap();
            *count += 1;
            match *count {
                2 => Err(io::Error::other("full")),
                3 => {
                    drop(count);
                    panic!("in a writer")
                }
                _ => self.1.write(bytes),
            }
        }

        fn flush(&mut self) -> io::Result<()> {
            Ok(())
        }
    }
    let sink = Sink::default();
    let (count, writer) = (Arc::new(Mutex::new(0)), sink.clone());
    let layer = plain().with_writer(move || Fails(count.clone(), writer.clone()));
    tracing::subscriber::with_default(Registry::default().with(layer), || {
        let a = info_span!("a").entered();
        info!("lost");
        assert!(catch_unwind(AssertUnwindSafe(|| info!("lost too"))).is_err());
        info!("kept");
        drop(a);
    });
    assert_eq!(sink.text(), "┐a \n├─ INFO kept\n┘\n");
}

#[test]
fn a_span_that_closes_on_another_thread() {
    let sink = Sink::default();
    let writer = sink.clone();
    let dispatch = tracing::Dispatch::new(Registry::default().with(plain().with_writer(move || writer.clone())));
    tracing::dispatcher::with_default(&dispatch, || {
        let a = info_span!("a");
        let b = a.in_scope(|| info_span!("b"));
        let there = dispatch.clone();
        thread::spawn(move || tracing::dispatcher::with_default(&there, || drop(b))).join().unwrap();
        drop(a);
    });
    assert_eq!(sink.text(), "┐a \n└─┐b \n┌─┘\n┘\n");
}

#[test]
fn a_layer_that_goes_before_its_spans() {
    let sink = Sink::default();
    let writer = sink.clone();
    let subscriber = Registry::default().with(plain().with_writer(move || writer.clone()));
    let span = tracing::subscriber::with_default(subscriber, || info_span!("a"));
    drop(span);
    assert_eq!(sink.text(), "┐a \n┘\n");
}

/// Logs and drops a span at the end of its thread.
struct AtEnd(tracing::Dispatch, Option<tracing::Span>);

impl Drop for AtEnd {
    fn drop(&mut self) {
        let span = self.1.take();
        tracing::dispatcher::with_default(&self.0, || {
            info!(by = ?Logs(Mutex::new(span)), "outside");
            info!("next");
        });
    }
}

/// A thread's locals are destroyed in reverse order of their creation. So the layer's is destroyed
/// first here, and that of `tracing` last.
#[test]
fn a_thread_that_ends() {
    thread_local! {
        static AT_END: RefCell<Option<AtEnd>> = const { RefCell::new(None) };
    }
    let sink = Sink::default();
    let echo = Echo(sink.clone());
    let dispatch = tracing::Dispatch::new(Registry::default().with(plain().with_writer(move || echo.clone())));
    let work = move || {
        tracing::dispatcher::with_default(&dispatch, || {
            AT_END.set(Some(AtEnd(dispatch.clone(), None)));
            let span = info_span!("a");
            AT_END.with_borrow_mut(|at_end| at_end.as_mut().unwrap().1 = Some(span));
        })
    };
    thread::spawn(work).join().unwrap();
    assert_eq!(sink.text(), "┐a \nINFO outside, by=x\n┘\nINFO next\n");
}

#[test]
fn two_layers() {
    let (first, second) = (Sink::default(), Sink::default());
    let (one, other) = (first.clone(), second.clone());
    let lined = plain().with_writer(move || one.clone());
    let labelled = plain().with_span_modes(true).with_writer(move || other.clone());
    tracing::subscriber::with_default(Registry::default().with(lined).with(labelled), || {
        let a = info_span!("a").entered();
        info_span!("b").in_scope(|| info!("in b"));
        drop(a);
    });
    assert_eq!(first.text(), "┐a \n└─┐b \n  ├─ INFO in b\n┌─┘\n┘\n");
    assert_eq!(second.text(), "┐open: a \n└─┐open: b \n  ├─ INFO in b\n┌─┘close: \n┘close: \n");
}

/// Four threads use one layer. The lines of each are those of a single thread.
#[test]
fn threads() {
    fn work() {
        for round in 0..200 {
            let _a = info_span!("a", round).entered();
            info!(round, "in a");
            info_span!("b").in_scope(|| warn!("first line\nsecond line"));
        }
    }
    let layer = || plain().with_thread_names(true);
    let alone = thread::Builder::new().name("t0".into()).spawn(move || drawn(layer(), work)).unwrap().join().unwrap();
    assert_eq!(alone.lines().count(), 200 * 7);
    let sink = Sink::default();
    let writer = sink.clone();
    let dispatch = tracing::Dispatch::new(Registry::default().with(layer().with_writer(move || writer.clone())));
    thread::scope(|scope| {
        for number in 0..4 {
            let dispatch = dispatch.clone();
            let named = thread::Builder::new().name(format!("t{number}"));
            named.spawn_scoped(scope, move || tracing::dispatcher::with_default(&dispatch, work)).unwrap();
        }
    });
    let text = sink.text();
    for number in 0..4 {
        let name = format!("t{number}");
        let own: String = text.lines().filter(|line| line.starts_with(&name)).map(|line| format!("{line}\n")).collect();
        assert_eq!(own, alone.replace("t0", &name));
    }
}

/// Each call shows the number and the name of its thread.
#[test]
fn numbers_of_threads() {
    let sink = Sink::default();
    let writer = sink.clone();
    let layer = plain().with_thread_ids(true).with_thread_names(true).with_writer(move || writer.clone());
    let dispatch = tracing::Dispatch::new(Registry::default().with(layer));
    let tell = || {
        let shown = format!("{:?}", thread::current().id());
        let number = shown.trim_start_matches("ThreadId(").trim_end_matches(')').to_owned();
        tracing::dispatcher::with_default(&dispatch, || info_span!("a").in_scope(|| info!("x")));
        number
    };
    thread::scope(|scope| {
        for name in [Some("one"), None] {
            let builder = name.map_or(thread::Builder::new(), |name| thread::Builder::new().name(name.into()));
            let number = builder.spawn_scoped(scope, tell).unwrap().join().unwrap();
            let prefix = format!("{number}{}", name.map_or(String::new(), |name| format!(":{name}")));
            let text = std::mem::take(&mut *sink.0.lock().unwrap());
            assert_eq!(String::from_utf8(text).unwrap(), format!("{prefix}┐a \n{prefix}├─ INFO x\n{prefix}┘\n"));
        }
    });
}

/// A value is shown as `Debug` shows it.
#[test]
fn values() {
    let texts = ["", "plain, it's", "\"quoted\"", "back\\slash", "é", "line\nfeed", "\u{7f}\u{0}", "\u{301}"];
    for text in texts {
        assert_eq!(drawn(plain(), || info!(text)), format!("INFO text={text:?}\n"));
    }
    // A byte that is escaped, at each place of short and longer strings.
    for length in [1, 7, 8, 9, 16, 17] {
        for place in 0..length {
            for other in ["\"", "\\", "\n", "\u{7f}", "é", "~", " "] {
                let text = format!("{}{other}{}", "x".repeat(place), "x".repeat(length - 1 - place));
                assert_eq!(drawn(plain(), || info!(text)), format!("INFO text={text:?}\n"));
            }
        }
    }
    for power in 1..20 {
        let (least, most) = (10u64.pow(power), 10u64.pow(power) - 1);
        let text = drawn(plain(), || info!(least, most, below = -(most as i64)));
        assert_eq!(text, format!("INFO least={least}, most={most}, below={}\n", -(most as i64)));
    }
    for (signed, unsigned) in [(0, 0), (7, 10), (-1, 99), (i64::MIN, u64::MAX), (i64::MAX, 1 << 63)] {
        let text = drawn(plain(), || info!(signed, unsigned));
        assert_eq!(text, format!("INFO signed={signed:?}, unsigned={unsigned:?}\n"));
    }
    let text = drawn(plain(), || info!(yes = true, no = false, small = 1u8, half = 0.5, wide = i128::MIN));
    assert_eq!(text, format!("INFO yes=true, no=false, small=1, half=0.5, wide={}\n", i128::MIN));
}

/// An event with many fields.
#[test]
fn many_fields() {
    let text = drawn(plain(), || info!(a = 1, b = "2", c = 3, d = 4, e = 5, f = ?Some(6), g = 7, h = 8, i = 9, j = "", k = 11));
    assert_eq!(text, "INFO a=1, b=\"2\", c=3, d=4, e=5, f=Some(6), g=7, h=8, i=9, j=\"\", k=11\n");
}

/// If a filter hides a span from the layer, what is in that span is drawn in the nearest ancestor
/// that isn't hidden. Another layer sees all spans, since `tracing` doesn't make a span that no
/// layer sees.
#[test]
fn spans_that_a_filter_hides() {
    let sink = Sink::default();
    let writer = sink.clone();
    let layer = plain().with_writer(move || writer.clone()).with_filter(filter_fn(|metadata| metadata.target() != "hidden"));
    let subscriber = Registry::default().with(plain().with_writer(io::sink)).with(layer);
    tracing::subscriber::with_default(subscriber, || {
        let hidden = info_span!(target: "hidden", "x").entered();
        info!("in no span");
        let a = info_span!("a").entered();
        let hidden_too = info_span!(target: "hidden", "y").entered();
        info!("in a");
        info!(target: "hidden", "not at all");
        info_span!("b").in_scope(|| info!("in b"));
        info_span!(parent: &hidden_too, "c").in_scope(|| info!("in c"));
        drop((hidden_too, a, hidden));
    });
    let (b, c) = ("└─┐b \n  ├─ INFO in b\n┌─┘\n", "└─┐c \n  ├─ INFO in c\n┌─┘\n");
    assert_eq!(sink.text(), format!("INFO in no span\n┐a \n├─ INFO in a\n{b}{c}┘\n"));
}

/// The layer's current span is the registry's, also if a span is entered twice and left out of
/// order.
#[test]
fn spans_that_are_entered_again() {
    fn tell() {
        let current = tracing::Span::current();
        info!("in {}", current.metadata().map_or("none", |metadata| metadata.name()));
    }
    let text = drawn(plain(), || {
        let a = info_span!("a");
        let b = a.in_scope(|| info_span!("b"));
        let in_a = a.enter();
        let in_b = b.enter();
        let again = a.enter();
        tell();
        drop(in_b);
        tell();
        drop(in_a);
        tell();
        drop(again);
        tell();
    });
    let shown = "┐a \n└─┐b \n  ├─ INFO in b\n├─ INFO in a\n├─ INFO in a\nINFO in none\n┌─┘\n┘\n";
    assert_eq!(text, shown);
}

/// `tracing` reuses ids. The test makes far more spans than there are ids at a time.
#[test]
fn ids_that_are_given_anew() {
    let text = drawn(plain(), || {
        for round in 0..40_000 {
            let _a = info_span!("a").entered();
            info!(round);
        }
    });
    let rounds = (0..40_000).map(|round| format!("┐a \n├─ INFO round={round}\n┘\n"));
    assert!(text == rounds.collect::<String>());
}

/// A record of the crate `log`, as `tracing-log` passes it on, and an event that only has its
/// target.
#[test]
fn records_of_log() {
    let text = drawn(plain().with_targets(true), || {
        tracing::event!(target: "log", tracing::Level::INFO, { log.target = "shop::orders", log.line = 7 }, "stored");
        info!(target: "log", "no record");
    });
    let target = if cfg!(feature = "log") { "shop::orders" } else { "log" };
    assert_eq!(text, format!("├─ INFO {target} stored\n├─ INFO log no record\n").replace("├─ ", ""));
}

#[test]
fn a_layer_is_debug() {
    let text = format!("{:?}", plain().with_targets(true));
    assert!(text.starts_with("HierarchicalLayer {") && text.contains("targets: true"), "{text}");
}
