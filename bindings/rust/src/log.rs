//! Records of the crate `log`, which `tracing-log` passes on as events of the target `log`.

use std::fmt;
use tracing_core::field::{Field, Visit};
use tracing_core::Event;

// The field with the target of a record.
const TARGET: &str = "log.target";

/// Returns the target of a record of the crate `log`. Returns `None` for every other event.
#[inline]
pub(crate) fn target_of(event: &Event<'_>) -> Option<String> {
    let metadata = event.metadata();
    if metadata.target() != "log" || metadata.fields().field(TARGET).is_none() {
        return None;
    }
    let mut found = Target(None);
    event.record(&mut found);
    found.0
}

struct Target(Option<String>);

impl Visit for Target {
    fn record_str(&mut self, field: &Field, value: &str) {
        if field.name() == TARGET {
            self.0 = Some(value.to_owned());
        }
    }

    fn record_debug(&mut self, _: &Field, _: &dyn fmt::Debug) {}
}
