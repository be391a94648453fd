#!/bin/bash
# Draws the example. Uses the proved program if that in bin/ is newer than every source;
# otherwise compiles and runs the sources without a proof.
set -eu
top=$(cd "$(dirname "$0")/.." && pwd)
example=$top/examples/first.jsonl
program=$top/bin/tracing_tree
if [ -x "$program" ] && [ -z "$(find "$top/crates" "$top/crates.txt" -newer "$program" -type f -not -path '*/out/*' -not -path '*/must-fail/*' -print -quit)" ]; then
    exec "$program" < "$example"
fi
"$top/scripts/need.sh" rt
echo "demo: this run compiles the sources without their proofs, in about a minute; 'make build' makes the proved program" >&2
said=$(mktemp)
trap 'rm -f "$said"' EXIT
cd "$top/crates/tracing_tree_cli"
rt try --steps 1 < "$example" 2> "$said" || { cat "$said" >&2; exit 1; }
