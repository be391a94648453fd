//! The spans that a thread is in, as each layer has seen them entered. The registry knows them too,
//! but it reads the span's record first, which takes longer.

use std::cell::RefCell;
use std::sync::atomic::{AtomicU64, Ordering};
use tracing_core::span::Id;

/// One entry into a span.
struct Entry {
    /// The layer's number, plus one if the thread was in the span already. Such an entry doesn't
    /// change the current span, as in the registry.
    layer: u64,
    id: u64,
}

impl Entry {
    #[inline]
    fn is_of(&self, layer: u64, id: u64) -> bool {
        self.id == id && self.layer & !1 == layer
    }
}

// Separate, so that the usual case saves no registers.
#[cold]
#[inline(never)]
fn remove_last_of(entries: &mut Vec<Entry>, layer: u64, id: u64) {
    if let Some(at) = entries.iter().rposition(|entry| entry.is_of(layer, id)) {
        entries.remove(at);
    }
}

/// Returns an even number that no other layer has.
pub(crate) fn new_layer() -> u64 {
    static LAYERS: AtomicU64 = AtomicU64::new(0);
    LAYERS.fetch_add(2, Ordering::Relaxed)
}

/// The spans that a thread is in, for all layers, in the order of the entries.
pub(crate) struct Entered(RefCell<Vec<Entry>>);

impl Entered {
    pub(crate) const fn new() -> Entered {
        Entered(RefCell::new(Vec::new()))
    }

    /// Records that the thread enters a span.
    #[inline]
    pub(crate) fn enter(&self, layer: u64, id: &Id) {
        let id = id.into_u64();
        let mut entries = self.0.borrow_mut();
        let again = entries.iter().any(|entry| entry.is_of(layer, id));
        entries.push(Entry { layer: layer + u64::from(again), id });
    }

    /// Removes the last entry into a span.
    #[inline]
    pub(crate) fn leave(&self, layer: u64, id: &Id) {
        let id = id.into_u64();
        let mut entries = self.0.borrow_mut();
        // Usually the last span that was entered is left first.
        if entries.last().is_some_and(|entry| entry.is_of(layer, id)) {
            entries.pop();
        } else {
            remove_last_of(&mut entries, layer, id);
        }
    }

    /// Returns the span that the thread is in.
    #[inline]
    pub(crate) fn current(&self, layer: u64) -> Option<u64> {
        let entries = self.0.borrow();
        entries.iter().rev().find(|entry| entry.layer == layer).map(|entry| entry.id)
    }
}
