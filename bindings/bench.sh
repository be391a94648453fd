#!/bin/bash
# Counts the instructions of the calls of c/bench.c with valgrind's callgrind: from C, through the
# Rust crate, and of tracing's registry only. The numbers are for one round: the difference between
# 1,000 and 500 rounds, divided by 500. Needs what build.sh has left in bin/.
set -eu
cd "$(dirname "$0")/.."
scripts/need.sh cc valgrind library
room=$(mktemp -d)
trap 'rm -rf "$room"' EXIT
"${CC:-cc}" -std=c99 -O2 -Ibindings/c bindings/c/bench.c bin/libtracing_tree.a -o "$room/bench"
rust=
if command -v cargo > /dev/null && (cd bindings/rust && TRACING_TREE_LIB=../../bin cargo build --offline --quiet --release --example bench); then
    rust=bindings/rust/target/release/examples/bench
fi

# Prints the instructions of one round of a command. Its first argument is the number of rounds.
round() {
    local program=$1 few many
    shift
    few=$(valgrind --tool=callgrind --callgrind-out-file=/dev/null "$program" 500 "$@" 2>&1 | sed -n 's/.*Collected : //p')
    many=$(valgrind --tool=callgrind --callgrind-out-file=/dev/null "$program" 1000 "$@" 2>&1 | sed -n 's/.*Collected : //p')
    echo $(((many - few) / 500))
}

names=("an event, lines" "two spans and an event, lines" "an event, colours and retracing" "two spans and an event, colours and retracing")
for kind in 0 1 2 3; do
    line="${names[$kind]}: C $(round "$room/bench" $kind)"
    [ -z "$rust" ] || line="$line, Rust $(round $rust $kind ours), the registry alone $(round $rust $kind none)"
    echo "$line"
done
