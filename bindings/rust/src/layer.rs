//! Passes the calls of `tracing` to the library, and writes what they draw to the writer.

use crate::here::{self, Here};
use crate::spans::{Kept, Spans};
use crate::time::{monotonic, wall, FormatTime};
use crate::{sys, HierarchicalLayer};
use std::collections::VecDeque;
use std::io::Write;
use std::sync::atomic::{AtomicBool, Ordering};
use std::sync::{Mutex, MutexGuard, PoisonError};
use std::time::Duration;
use tracing_core::span::{Attributes, Id, Record};
use tracing_core::{Event, Level, Subscriber};
use tracing_subscriber::fmt::MakeWriter;
use tracing_subscriber::layer::{Context, Layer};
use tracing_subscriber::registry::LookupSpan;

/// The tree, its spans and a buffer for its output. It is made at the first call.
pub(crate) struct State {
    tree: sys::Tree,
    spans: Spans,
    room: Vec<u8>,
}

/// Spans that closed while their thread was in a call of this layer, in the order of their closes.
#[derive(Default)]
pub(crate) struct Late {
    ids: Mutex<VecDeque<Id>>,
    // Whether `ids` isn't empty, so that most calls needn't take the lock.
    any: AtomicBool,
}

impl Late {
    fn push(&self, id: Id) {
        let mut ids = locked(&self.ids);
        ids.push_back(id);
        self.any.store(true, Ordering::Release);
    }

    fn pop(&self) -> Option<Id> {
        let mut ids = locked(&self.ids);
        let id = ids.pop_front();
        self.any.store(!ids.is_empty(), Ordering::Release);
        id
    }

    #[inline]
    fn any(&self) -> bool {
        self.any.load(Ordering::Acquire)
    }
}

// The data behind a lock is consistent even after a panic: a call of the library has its whole
// effect or no effect.
#[inline]
fn locked<T>(mutex: &Mutex<T>) -> MutexGuard<'_, T> {
    mutex.lock().unwrap_or_else(PoisonError::into_inner)
}

#[inline]
fn level(level: &Level) -> u32 {
    match *level {
        Level::TRACE => 0,
        Level::DEBUG => 1,
        Level::INFO => 2,
        Level::WARN => 3,
        Level::ERROR => 4,
    }
}

impl<W, FT> HierarchicalLayer<W, FT>
where
    W: for<'writer> MakeWriter<'writer> + 'static,
    FT: FormatTime,
{
    // Returns what the caller's timer shows for an event here and now.
    #[cold]
    #[inline(never)]
    fn time(&self, here: &Here) -> (String, String) {
        let current = here.entered.current(self.number);
        let opened = locked(&self.state).as_ref().and_then(|state| Some(state.spans.get(current?)?.opened));
        let (mut moment, mut elapsed) = (String::new(), String::new());
        let _ = self.timer.format_time(&mut moment);
        if let Some(opened) = opened {
            let open = Duration::from_nanos(monotonic().saturating_sub(opened));
            let _ = self.timer.style_timestamp(self.settings.ansi, open, &mut elapsed);
        }
        (moment, elapsed)
    }

    // Makes the tree at the first call. If that fails, the next call tries again.
    #[cold]
    #[inline(never)]
    fn make_tree(&self, state: &mut Option<State>) {
        *state = sys::Tree::new(&self.settings).ok().map(|tree| State { tree, spans: Spans::default(), room: vec![0; 1024] });
    }

    // Makes a call and writes what it draws. `opens` is the span that the call opens, if it opens
    // one. Draws nothing if the tree can't be made, or if the call is refused or isn't made.
    #[inline(always)]
    fn draw(&self, here: &Here, opens: Option<&Id>, make: impl FnOnce(&mut sys::Tree, &mut Spans) -> Option<()>) {
        let mut state = locked(&self.state);
        if state.is_none() {
            self.make_tree(&mut state);
        }
        let Some(state) = state.as_mut() else { return };
        // A span that had this id before has closed, but its close isn't drawn yet.
        if opens.is_some_and(|id| self.late.any() && state.spans.get(id.into_u64()).is_some()) {
            self.close_late(here, state);
        }
        if make(&mut state.tree, &mut state.spans).is_some() {
            self.write(state);
        }
        if self.late.any() {
            self.close_late(here, state);
        }
    }

    // Writes what the last call drew. What the writer refuses is lost, and later calls are drawn.
    #[inline(always)]
    fn write(&self, state: &mut State) {
        let text = state.tree.text(&mut state.room);
        if !text.is_empty() {
            let _ = self.make_writer.make_writer().write_all(text);
        }
    }

    // Closes the spans that closed during calls. Their ids may be used again once they aren't in
    // `late` any more.
    #[cold]
    #[inline(never)]
    fn close_late(&self, here: &Here, state: &mut State) {
        while let Some(id) = self.late.pop() {
            let Some(kept) = state.spans.remove(&id) else { continue };
            if state.tree.close(kept.id, &self.context(here)).is_ok() {
                self.write(state);
            }
        }
    }

    // Returns the context of a call, without a current span.
    #[inline(always)]
    fn context<'a>(&self, here: &'a Here) -> sys::Context<'a> {
        if self.settings.shows_context() {
            self.shown_context(here)
        } else {
            sys::Context::NONE
        }
    }

    #[inline(never)]
    fn shown_context<'a>(&self, here: &'a Here) -> sys::Context<'a> {
        let clocked = self.settings.timer != 0;
        let name = if self.settings.thread_names { here.name() } else { None };
        sys::Context {
            current: 0,
            thread_id: if self.settings.thread_ids { here.number() } else { 0 },
            thread_name: name.unwrap_or("").into(),
            mono: if clocked { monotonic() } else { 0 },
            wall: if clocked { wall() } else { 0 },
            has_thread_name: name.is_some(),
        }
    }
}

impl<S, W, FT> Layer<S> for HierarchicalLayer<W, FT>
where
    S: Subscriber + for<'span> LookupSpan<'span>,
    W: for<'writer> MakeWriter<'writer> + 'static,
    FT: FormatTime,
{
    fn on_new_span(&self, attrs: &Attributes<'_>, id: &Id, ctx: Context<'_, S>) {
        here::call(|here, fields| {
            let current = if attrs.is_contextual() { here.entered.current(self.number) } else { None };
            let named = current.or(attrs.parent().map(Id::into_u64));
            let opened = if self.own_timer { monotonic() } else { 0 };
            fields.take(|visit| attrs.record(visit));
            let context = self.context(here);
            self.draw(here, Some(id), |tree, spans| {
                let parent = spans.parent(id, named, &ctx).map(|kept| kept.id);
                let attributes = sys::Attributes {
                    name: attrs.metadata().name().into(),
                    target: attrs.metadata().target().into(),
                    parent: parent.unwrap_or(0),
                    parent_kind: if parent.is_some() { sys::OF } else { sys::ROOT },
                };
                let made = tree.new_span(&attributes, fields.as_slice(), &context).ok()?;
                spans.insert(id, Kept { id: made, opened });
                Some(())
            });
        });
    }

    fn on_record(&self, id: &Id, values: &Record<'_>, _: Context<'_, S>) {
        here::call(|here, fields| {
            fields.take(|visit| values.record(visit));
            self.draw(here, None, |tree, spans| tree.record(spans.get(id.into_u64())?.id, fields.as_slice()).ok());
        });
    }

    fn on_event(&self, event: &Event<'_>, _: Context<'_, S>) {
        here::call(|here, fields| {
            let time = if self.own_timer { Some(self.time(here)) } else { None };
            fields.take(|visit| event.record(visit));
            let mut context = self.context(here);
            let level = level(event.metadata().level());
            let is_contextual = event.is_contextual();
            #[cfg(feature = "log")]
            let log_target = crate::log::target_of(event);
            #[cfg(not(feature = "log"))]
            let log_target = None::<String>;
            let target = log_target.as_deref().unwrap_or_else(|| event.metadata().target());
            self.draw(here, None, |tree, spans| {
                if let Some((moment, elapsed)) = &time {
                    tree.set_time(&sys::Time { moment: moment.as_str().into(), elapsed: elapsed.as_str().into() }).ok()?;
                }
                let current = here.entered.current(self.number).and_then(|id| spans.get(id));
                context.current = current.map_or(0, |kept| kept.id);
                let named = event.parent().and_then(|id| spans.get(id.into_u64()));
                let event = sys::Event {
                    target: target.into(),
                    parent: named.map_or(0, |kept| kept.id),
                    parent_kind: match named {
                        Some(_) => sys::OF,
                        None if is_contextual => sys::CURRENT,
                        None => sys::ROOT,
                    },
                    level,
                };
                tree.event(&event, fields.as_slice(), &context).ok()
            });
        });
    }

    fn on_enter(&self, id: &Id, _: Context<'_, S>) {
        here::enter(self.number, id);
    }

    fn on_exit(&self, id: &Id, _: Context<'_, S>) {
        here::leave(self.number, id);
    }

    fn on_close(&self, id: Id, _: Context<'_, S>) {
        let closed = here::call(|here, _| {
            let context = self.context(here);
            self.draw(here, None, |tree, spans| tree.close(spans.remove(&id)?.id, &context).ok().map(drop));
        });
        if closed.is_none() {
            self.late.push(id);
        }
    }
}
