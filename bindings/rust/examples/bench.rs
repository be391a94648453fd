//! Makes the calls of `../c/bench.c` through `tracing`: `bench COUNT KIND LAYER`. LAYER is `none`
//! or `ours`.

use std::io;
use tracing::{info, info_span, Subscriber};
use tracing_subscriber::prelude::*;
use tracing_subscriber::Registry;
use tracing_tree_proved::HierarchicalLayer;

fn run(subscriber: impl Subscriber + Send + Sync, count: u64, with_spans: bool) {
    let (outer, inner) = if with_spans { (count, 1) } else { (1, count) };
    tracing::subscriber::with_default(subscriber, || {
        for _ in 0..outer {
            let _server = info_span!(target: "web", "server", host = "localhost", port = 8080).entered();
            let _conn = info_span!(target: "web", "conn", peer = "82.9.9.9").entered();
            for _ in 0..inner {
                info!(target: "web", "starting");
            }
        }
    });
}

fn main() {
    let words: Vec<String> = std::env::args().collect();
    let (count, kind) = (words[1].parse().expect("a count"), words[2].parse::<u32>().expect("a kind"));
    if words[3] == "none" {
        return run(Registry::default(), count, kind % 2 == 1);
    }
    let layer = HierarchicalLayer::new(2)
        .with_indent_lines(true)
        .with_ansi(kind >= 2)
        .with_targets(kind >= 2)
        .with_span_retrace(kind >= 2)
        .with_writer(io::sink);
    run(Registry::default().with(layer), count, kind % 2 == 1);
}
