//! A small server's log: the same calls as in `../../c/server.c`.

use tracing::{info, info_span, warn};
use tracing_subscriber::prelude::*;
use tracing_tree_proved::HierarchicalLayer;

fn main() {
    let layer = HierarchicalLayer::new(2).with_indent_lines(true).with_ansi(false);
    tracing_subscriber::registry().with(layer.with_writer(std::io::stdout)).init();
    let _server = info_span!("server", host = "localhost", port = 8080).entered();
    info!("starting");
    let _conn = info_span!("conn", peer = "82.9.9.9").entered();
    warn!(ms = 271, "slow answer:\nwaiting for the disk");
}
