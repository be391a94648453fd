#!/bin/sh
# Proves the library for C and writes it to bin/:
# - libtracing_tree.a, with the kit's heap inside, so that it links by itself,
# - libtracing_tree.so.1, and libtracing_tree.so for the linker.
# usage: build.sh [ARCHIVE]
#
# ARCHIVE was proved and built before, as in the gate. With it nothing is proved again.
#
# Builds nothing without a proof. If a source doesn't compile or isn't proved, prints the errors on
# standard error, leaves no library in bin/, and ends with status 1.
set -eu
cd "$(dirname "$0")/.."
scripts/need.sh rt cc ar
mkdir -p bin
proved=crates/tracing_tree_c/out/libtracing_tree_c.a
rm -f bin/libtracing_tree.*
if [ -n "${1:-}" ]; then
    proved=$1
else
    rm -f "$proved"
    # The check records on this machine that the sources are proved, which a build doesn't do.
    # `make test` looks for that record.
    if ! (cd crates/tracing_tree_c && rt check && rt lib) > bin/bindings.log 2>&1; then
        cat bin/bindings.log >&2
        exit 1
    fi
fi
objects=$(mktemp -d)
trap 'rm -rf "$objects"' EXIT
proved=$(realpath "$proved")
heap=$(dirname "$(rt doc)")/c/liblibc_c.a
mkdir "$objects/tree" "$objects/heap"
(cd "$objects/tree" && ar x "$proved")
(cd "$objects/heap" && ar x "$heap")
ar crsD bin/libtracing_tree.a "$objects"/*/*.o
cat > "$objects/exports.map" <<'MAP'
{ global: tt_*; local: *; };
MAP
"${CC:-cc}" -shared -nostartfiles -Wl,-soname,libtracing_tree.so.1 -Wl,--version-script="$objects/exports.map" -Wl,-z,defs \
    -o bin/libtracing_tree.so.1 "$objects"/*/*.o -lc
ln -sf libtracing_tree.so.1 bin/libtracing_tree.so
