#!/bin/bash
# Tests what build.sh has left in bin/, from C, C++, Go, Python and Rust. If a tool is missing, says
# in one line what is left out. The last line is 'bindings: N passed, M failed', and the status is 1
# if something failed. Without the library, a C compiler, ar or Python it says what to do, and ends
# with status 2.
set -u
cd "$(dirname "$0")/.."
scripts/need.sh library cc ar python || exit 2
top=$(pwd)
room=$(mktemp -d)
trap 'rm -rf "$room"' EXIT
cc=${CC:-cc}
cxx=${CXX:-c++}
strict="-Wall -Wextra -Wpedantic -Werror"
library=bin/libtracing_tree.a
example=bindings/c/server.c
suite=bindings
. bindings/steps.sh

# ---- layouts
python3 bindings/layouts.py crates/tracing_tree_c/src c > "$room/layout.c"
step "layouts of the header" $cc -std=c11 $strict -Ibindings/c -fsyntax-only "$room/layout.c"
step "layouts of the Rust crate" prints bindings/rust/src/layout.rs python3 bindings/layouts.py crates/tracing_tree_c/src rust
mkdir "$room/changed"
for field in 'bool ansi;=uint64_t ansi;' 'uint64_t epoch;=uint32_t epoch;' 'int64_t wall;=int32_t wall;' 'uint32_t level;='; do
    sed "s/${field%%=*}/${field#*=}/" bindings/c/tracing_tree.h > "$room/changed/tracing_tree.h"
    refuses "a header with '${field#*=}' for '${field%%=*}'" 'static assertion\|no member' \
        $cc -std=c11 -I"$room/changed" -fsyntax-only "$room/layout.c"
done

# ---- a stub of a library of version 0, whose functions all return 0
sed -n 's/^[a-z0-9_]* \(tt_[a-z0-9_]*\)(.*/int \1(void) { return 0; }/p' bindings/c/tracing_tree.h > "$room/other.c"
mkdir "$room/other"
step "another version of the library" $cc -c "$room/other.c" -o "$room/other.o"
ar crs "$room/other/libtracing_tree.a" "$room/other.o"

# ---- the header, the example and the tests in C
step "the example" $cc -std=c99 -O1 -g $strict -Ibindings/c $example $library -o "$room/server"
step "what the example draws" prints bindings/c/server.out "$room/server"
if has "${cxx%% *}"; then
    step "the header as C++17" $cxx -std=c++17 $strict -x c++ -include bindings/c/tracing_tree.h -fsyntax-only /dev/null
    step "the example as C++17" $cxx -std=c++17 -O1 $strict -Ibindings/c -x c++ $example -x none $library -o "$room/server_cxx"
    step "what the example draws as C++17" prints bindings/c/server.out "$room/server_cxx"
    step "the header for C++" $cxx -std=c++17 $strict -x c++ -include bindings/c/tracing_tree.hpp -fsyntax-only /dev/null
    step "the example in C++" $cxx -std=c++17 -O1 $strict -Ibindings/c bindings/c/server.cpp $library -pthread -o "$room/server_hpp"
    step "what the example in C++ draws" prints bindings/c/server.out "$room/server_hpp"
    step "the example in C++ over another version" $cxx -std=c++17 -Ibindings/c bindings/c/server.cpp \
        "$room/other/libtracing_tree.a" -pthread -o "$room/other_hpp"
    refuses "another version of the library in C++" "the header and the library differ in version" "$room/other_hpp"
    step "the tests in C++" $cxx -std=c++17 -O1 $strict -Ibindings/c bindings/c/test.cpp $library -pthread -o "$room/test_cxx"
    counts "the tests in C++" "$room/test_cxx"
    step "the tests in C++ with sanitizers" $cxx -std=c++17 -g -fsanitize=address,undefined -fno-sanitize-recover=all \
        -Ibindings/c bindings/c/test.cpp $library -pthread -o "$room/test_cxx_sanitized"
    step "no test in C++ fails with sanitizers" bash -c '"$0" | grep -q "^[1-9][0-9]* 0\$"' "$room/test_cxx_sanitized"
else
    left_out "the headers, the examples and the tests as C++17, since $cxx isn't there"
fi
step "the tests" $cc -std=c99 -O1 -g $strict -Ibindings/c -Wl,--wrap=malloc,--wrap=realloc bindings/c/test.c $library \
    -o "$room/test"
counts "the tests in C" "$room/test"
step "the example with sanitizers" $cc -std=c99 -g -fsanitize=address,undefined -fno-sanitize-recover=all -Ibindings/c \
    $example $library -o "$room/server_sanitized"
step "what the example draws with sanitizers" prints bindings/c/server.out "$room/server_sanitized"
step "the tests with sanitizers" $cc -std=c99 -g -fsanitize=address,undefined -fno-sanitize-recover=all -Ibindings/c \
    -Wl,--wrap=malloc,--wrap=realloc bindings/c/test.c $library -o "$room/test_sanitized"
step "no test fails with sanitizers" bash -c '"$0" | grep -q "^[1-9][0-9]* 0\$"' "$room/test_sanitized"
if has valgrind; then
    for program in server test; do
        step "$program under valgrind" valgrind -q --leak-check=full --errors-for-leak-kinds=all --error-exitcode=1 "$room/$program"
    done
else
    left_out "runs under valgrind, which isn't there"
fi

# ---- what is installed
step "install" scripts/install.sh library "" "$room/prefix"
echo "$(realpath "$room")/prefix/lib/libtracing_tree.so.1" > "$room/place"
step "the installed Python module finds the installed library" prints "$room/place" env -u TRACING_TREE_LIB -C "$room" \
    PYTHONPATH="$room/prefix/lib/python3/dist-packages" \
    python3 -B -c 'import os, tracing_tree; print(os.path.realpath(tracing_tree._library._name))'
if has pkg-config; then
    export PKG_CONFIG_PATH="$room/prefix/lib/pkgconfig"
    step "link by pkg-config" $cc -std=c99 $example $(pkg-config --cflags --libs tracing_tree) -o "$room/shared"
    step "link by pkg-config, static" \
        $cc -std=c99 -static $example $(pkg-config --static --cflags --libs tracing_tree) -o "$room/static"
    has "${cxx%% *}" && step "link the example in C++ by pkg-config" \
        $cxx -std=c++17 bindings/c/server.cpp $(pkg-config --cflags --libs tracing_tree) -pthread -o "$room/shared_cxx"
    step "what the shared object draws" prints bindings/c/server.out env LD_LIBRARY_PATH="$room/prefix/lib" "$room/shared"
    step "what the static program draws" prints bindings/c/server.out "$room/static"
else
    left_out "linking by pkg-config, which isn't there"
fi

# ---- the Go package
test_go bindings/go bindings/c/server.out
if has go; then
    step "the example in Go over another version" env -C bindings/go GOCACHE="$room/go" GOTOOLCHAIN=local CC="$cc" \
        CGO_LDFLAGS="-L$room/other" go build -o "$room/other_go" ./server
    refuses "another version of the library in Go" "version 0 of libtracing_tree.a is linked, and 1 is needed" "$room/other_go"
fi

# ---- the worked cases of the program, through the shared object
counts "the worked cases" python3 bindings/python/cases.py bin/libtracing_tree.so.1 crates/test_cases/data

# ---- the Python module
counts "the Python module" env TRACING_TREE_LIB=bin/libtracing_tree.so.1 python3 bindings/python/test_tracing_tree.py

# ---- how the Rust crate finds the library: its build script, without cargo, in a dummy checkout
tree=$(realpath "$room")/tree
crate=$tree/bindings/rust

# Runs the build script with these variables, and with no package installed: search VARIABLE=VALUE..
search() { env -i PATH="$PATH" CARGO_MANIFEST_DIR="$crate" PKG_CONFIG_LIBDIR="$room/none" "$@" "$room/search"; }

# Compares the folders that it links from and watches: links_from FOLDER VARIABLE=VALUE..
links_from() {
    local folder=$1
    shift
    search "$@" > "$room/printed" && grep -qxF "cargo:rustc-link-search=native=$folder" "$room/printed" &&
        grep -qxF "cargo:rerun-if-changed=$folder/libtracing_tree.a" "$room/printed"
}

# The build must stop with exactly this message, and print nothing for cargo:
# stops_with TEXT VARIABLE=VALUE..
stops_with() {
    local text=$1
    shift
    ! search "$@" > "$room/printed" 2> "$room/error" && [ "$(cat "$room/error")" = "$text" ] && [ ! -s "$room/printed" ]
}

if ! has rustc; then
    left_out "how the Rust crate finds the library, since rustc isn't there"
elif step "build of the build script" rustc --edition 2021 -D warnings -o "$room/search" bindings/rust/build.rs && [ -x "$room/search" ]; then
    what="Run \`make bindings\` in the repository (about 20 minutes), or set TRACING_TREE_LIB to the folder that has it."
    other="Set it to the folder that has it, or unset it and run \`make bindings\` in the repository (about 20 minutes)."
    mkdir -p "$crate/lib" "$tree/bin" "$room/my lib" "$room/none" "$room/stale"
    printf 'prefix=%s\nlibdir=${prefix}/lib\nName: tracing_tree\nDescription: -\nVersion: 1\n' "$room/stale" > "$room/stale/tracing_tree.pc"
    step "no library" stops_with "libtracing_tree.a isn't in $crate/lib, nor known to pkg-config, nor in $tree/bin. $what"
    step "no library, and no pkg-config" \
        stops_with "libtracing_tree.a isn't in $crate/lib, nor known to pkg-config, nor in $tree/bin. $what" PKG_CONFIG="$room/none/pkg-config"
    ar crs "$tree/bin/libtracing_tree.a"
    step "the library in the checkout's bin/" links_from "$tree/bin"
    step "the library in the checkout's bin/, without pkg-config" links_from "$tree/bin" PKG_CONFIG="$room/none/pkg-config"
    step "an empty TRACING_TREE_LIB" links_from "$tree/bin" TRACING_TREE_LIB=
    if has pkg-config; then
        step "the library by pkg-config" links_from "$room/prefix/lib" PKG_CONFIG_PATH="$room/prefix/lib/pkgconfig"
        step "a package without its library" links_from "$tree/bin" PKG_CONFIG_PATH="$room/stale"
        rm "$tree/bin/libtracing_tree.a"
        step "no library, but a package" stops_with \
            "libtracing_tree.a isn't in $crate/lib, nor in $room/stale/lib, which pkg-config names, nor in $tree/bin. $what" \
            PKG_CONFIG_PATH="$room/stale"
    else
        left_out "the search of the Rust crate by pkg-config, which isn't there"
    fi
    ar crs "$crate/lib/libtracing_tree.a"
    step "the library beside the crate" links_from "$crate/lib" PKG_CONFIG_PATH="$room/prefix/lib/pkgconfig"
    step "TRACING_TREE_LIB without a library" \
        stops_with "TRACING_TREE_LIB names $room/my lib, which has no libtracing_tree.a. $other" TRACING_TREE_LIB="$room/my lib"
    ar crs "$room/my lib/libtracing_tree.a"
    step "the library by TRACING_TREE_LIB" links_from "$room/my lib" TRACING_TREE_LIB="$room/my lib"
    step "the library by TRACING_TREE_LIB, from the crate's folder" links_from "$crate/../../../my lib" TRACING_TREE_LIB="../../../my lib"
fi

# ---- the Rust crate
if can_test_rust; then
    cd bindings/rust
    step "build over another version" env TRACING_TREE_LIB="$room/other" cargo build --offline --quiet --example program
    refuses "another version of the library at the first use" "needs version [1-9][0-9]* of libtracing_tree.a, but version 0 is linked" \
        target/debug/examples/program 0
    # The checkout's own library, which the crate finds in bin/ if nothing is installed or set.
    export PKG_CONFIG_LIBDIR="$room/none" PKG_CONFIG_PATH=
    unset TRACING_TREE_LIB
    step "build of the Rust crate" cargo build --offline --quiet --lib --example program --example server
    step "what the example in Rust draws" prints "$top/bindings/c/server.out" target/debug/examples/server
    # Draws an event in this time zone, whose row must have the offset that `date` prints.
    shows_offset() {
        TZ=$1 target/debug/examples/offset 2> "$room/offset" &&
            grep -q " $(TZ=$1 date +%:z):00 INFO starting" "$room/offset"
    }
    step "build with the machine's offset" cargo build --offline --quiet --features local-offset --example offset
    step "the machine's offset east of UTC" shows_offset Asia/Kolkata
    step "the machine's offset west of UTC" shows_offset America/St_Johns
    tested "tests of the Rust crate" 's/^test result: ok. \([0-9]*\) passed.*/\1/p' cargo test --offline --quiet
    cd "$top"
fi

# ---- the same calls, drawn by the program, in C and in Rust
step "the program in C" $cc -std=c99 -O1 $strict -Ibindings/c bindings/c/program.c $library -o "$room/program"
programs=("$room/program")
[ -x bindings/rust/target/debug/examples/program ] && has cargo && programs+=(bindings/rust/target/debug/examples/program)
drawer=${TRACING_TREE:-}
for built in bin/tracing_tree crates/tracing_tree_cli/out/tracing_tree_cli; do
    [ -z "$drawer" ] && [ -x "$built" ] && drawer=$built
done
if [ -z "$drawer" ]; then
    left_out "the comparison with the program that draws lines, which isn't built (make build)"
else
    counts "the same calls in C and Rust" python3 bindings/same.py bindings/c/program.jsonl "$drawer" "${programs[@]}"
fi

echo "bindings: $passed passed, $failed failed"
[ "$failed" = 0 ]
