//! The ids that the spans of `tracing` have in the tree.

use std::collections::HashMap;
use std::hash::{BuildHasherDefault, Hasher};
use tracing_core::span::Id;
use tracing_core::Subscriber;
use tracing_subscriber::layer::Context;
use tracing_subscriber::registry::LookupSpan;

/// The data that is kept for a span.
#[derive(Clone, Copy)]
pub(crate) struct Kept {
    /// The span's id in the tree.
    pub(crate) id: u64,
    /// When the span opened, on the clock of `monotonic`. 0 if the layer has no custom timer.
    pub(crate) opened: u64,
}

/// The open spans of the tree, by their ids in `tracing`. An id is only used again after its span
/// has closed.
#[derive(Default)]
pub(crate) struct Spans {
    kept: HashMap<u64, Kept, BuildHasherDefault<ByProduct>>,
}

impl Spans {
    #[inline]
    pub(crate) fn insert(&mut self, id: &Id, kept: Kept) {
        self.kept.insert(id.into_u64(), kept);
    }

    #[inline]
    pub(crate) fn get(&self, id: u64) -> Option<Kept> {
        self.kept.get(&id).copied()
    }

    #[inline]
    pub(crate) fn remove(&mut self, id: &Id) -> Option<Kept> {
        self.kept.remove(&id.into_u64())
    }

    /// Returns the parent of a new span. If a filter hides the parent from this layer, returns the
    /// nearest ancestor that isn't hidden.
    #[inline(always)]
    pub(crate) fn parent<S>(&self, id: &Id, named: Option<u64>, ctx: &Context<'_, S>) -> Option<Kept>
    where
        S: Subscriber + for<'span> LookupSpan<'span>,
    {
        self.get(named?).or_else(|| self.get(ctx.span(id)?.parent()?.id().into_u64()))
    }
}

/// Hashes ids by a multiplication. The ids of a thread count up from a separate start, and the
/// product spreads them.
#[derive(Default)]
pub(crate) struct ByProduct(u64);

impl Hasher for ByProduct {
    fn write(&mut self, bytes: &[u8]) {
        for byte in bytes {
            self.write_u64(u64::from(*byte));
        }
    }

    #[inline]
    fn write_u64(&mut self, number: u64) {
        self.0 = (self.0 ^ number).wrapping_mul(0x9e37_79b9_7f4a_7c15);
    }

    #[inline]
    fn finish(&self) -> u64 {
        self.0
    }
}
