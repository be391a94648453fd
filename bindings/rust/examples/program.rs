//! Draws the calls of `../c/program.jsonl` with the settings of each number: `program NUMBER..`

use std::io;
use tracing::field::Empty;
use tracing::{debug, error, info, info_span, trace, warn};
use tracing_subscriber::prelude::*;
use tracing_subscriber::Registry;
use tracing_tree_proved::HierarchicalLayer;

/// Returns the settings with this number. Each bit is a switch, and the number determines the
/// indent amount and the wraparound.
fn numbered(number: usize) -> HierarchicalLayer {
    let switch = |bit: usize| number >> bit & 1 != 0;
    let layer = HierarchicalLayer::new(1 + number % 5)
        .with_ansi(switch(0))
        .with_indent_lines(switch(1))
        .with_targets(switch(2))
        .with_thread_names(switch(3))
        .with_verbose_entry(switch(4))
        .with_verbose_exit(switch(5))
        .with_span_retrace(switch(6))
        .with_deferred_spans(switch(7))
        .with_close_retrace(switch(8))
        .with_span_modes(switch(9))
        .with_bracketed_fields(switch(10));
    match number % 3 {
        0 => layer.with_wraparound(1 + number % 4),
        _ => layer,
    }
}

fn draw() {
    let server = info_span!(target: "web", "server", host = "localhost", port = 8080);
    server.in_scope(|| info!(target: "web", "starting"));
    let conn = server.in_scope(|| info_span!(target: "web", "conn", peer = "82.9.9.9"));
    conn.in_scope(|| warn!(target: "web", ms = 271, "slow answer:\nwaiting for the disk"));
    let query = conn.in_scope(|| info_span!(target: "sql", "query", text = "select 1", rows = Empty));
    let other = query.in_scope(|| info_span!(target: "web", parent: &server, "conn", peer = "10.0.0.7"));
    query.in_scope(|| debug!(target: "sql", "asked"));
    other.in_scope(|| info!(target: "web", "connected"));
    query.record("rows", 3);
    query.in_scope(|| {
        error!(target: "sql", code = 7, retried = false, "lost");
        trace!(target: "web", parent: &other, "not in the current span");
        info!(target: "web", parent: None, "in no span");
    });
    drop(query);
    drop(other);
    server.in_scope(|| info!(target: "web", "done"));
    drop(conn);
}

fn main() {
    for argument in std::env::args().skip(1) {
        println!("== {argument}");
        let layer = numbered(argument.parse().expect("a number")).with_writer(io::stdout);
        tracing::subscriber::with_default(Registry::default().with(layer), draw);
    }
}
