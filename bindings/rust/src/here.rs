//! The data of a thread: the spans that it is in, and the buffers of its calls. All of it is in one
//! thread local, which a call looks up once.

use crate::entered::Entered;
use crate::fields::Fields;
use std::cell::{Cell, OnceCell, RefCell};
use std::thread::{self, Thread};
use tracing_core::span::Id;

/// The data of a thread, except its buffers.
pub(crate) struct Here {
    /// The spans that it is in.
    pub(crate) entered: Entered,
    thread: OnceCell<Thread>,
    number: OnceCell<u64>,
}

impl Here {
    const fn new() -> Here {
        Here { entered: Entered::new(), thread: OnceCell::new(), number: OnceCell::new() }
    }

    /// Returns the thread's name.
    pub(crate) fn name(&self) -> Option<&str> {
        self.thread.get_or_init(thread::current).name()
    }

    /// Returns the thread's number, as the 7 in `ThreadId(7)`.
    pub(crate) fn number(&self) -> u64 {
        *self.number.get_or_init(|| {
            let shown = format!("{:?}", thread::current().id());
            shown.chars().filter(char::is_ascii_digit).collect::<String>().parse().unwrap_or(0)
        })
    }
}

thread_local! {
    // The buffers are borrowed while the thread is in a call.
    static HERE: (Here, RefCell<Fields>) = const { (Here::new(), RefCell::new(Fields::new())) };
    // Whether the thread is in a call at its end, when `HERE` is already destroyed. This has no
    // destructor and is never destroyed.
    static IN_LAST_CALL: Cell<bool> = const { Cell::new(false) };
}

/// Makes a call with the data of the thread. A call inside a call isn't made, as in `tracing-tree`,
/// and returns `None`. Otherwise a writer or a `Debug` that logs would wait for itself.
#[inline(always)]
pub(crate) fn call<R>(make: impl FnOnce(&Here, &mut Fields) -> R) -> Option<R> {
    let mut make = Some(make);
    let made = HERE.try_with(|(here, fields)| {
        let mut fields = fields.try_borrow_mut().ok()?;
        Some(make.take()?(here, &mut fields))
    });
    made.unwrap_or_else(|_| last_call(make?))
}

// Like `call`, but at the end of a thread, in the destructor of another thread local. The thread
// has left all spans by then.
#[cold]
#[inline(never)]
fn last_call<R>(make: impl FnOnce(&Here, &mut Fields) -> R) -> Option<R> {
    struct InLastCall;
    impl Drop for InLastCall {
        fn drop(&mut self) {
            IN_LAST_CALL.with(|in_call| in_call.set(false));
        }
    }
    if IN_LAST_CALL.with(|in_call| in_call.replace(true)) {
        return None;
    }
    let _in_call = InLastCall;
    Some(make(&Here::new(), &mut Fields::new()))
}

/// Records that the thread enters a span.
#[inline]
pub(crate) fn enter(layer: u64, id: &Id) {
    let _ = HERE.try_with(|(here, _)| here.entered.enter(layer, id));
}

/// Records that the thread leaves a span.
#[inline]
pub(crate) fn leave(layer: u64, id: &Id) {
    let _ = HERE.try_with(|(here, _)| here.entered.leave(layer, id));
}
