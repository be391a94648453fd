//! Draws an event with its time at the machine's offset, which is read before there are threads.

use tracing_subscriber::prelude::*;
use tracing_tree_proved::time::LocalDateTime;
use tracing_tree_proved::HierarchicalLayer;

fn main() {
    let Some(timer) = LocalDateTime::of_machine() else {
        eprintln!("the machine's offset can't be read");
        std::process::exit(1);
    };
    tracing_subscriber::registry().with(HierarchicalLayer::default().with_timer(timer)).init();
    tracing::info!("starting");
}
