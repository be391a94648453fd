#!/bin/bash
# Tests the archive that dist.sh has written, unpacked in an empty folder, with the kit's `rt` off
# the PATH: the programs by their worked cases, and the library from C, C++, Go, Python and Rust. If
# a tool is missing, it says in one line what it leaves out. The last line is 'dist: N passed, M
# failed', and the status is 1 if something failed.
# usage: dist_test.sh
set -u
cd "$(dirname "$0")/.."
scripts/need.sh cc python || exit 2
version=$(sed -n 's/^version = "\(.*\)"/\1/p' bindings/rust/Cargo.toml)
name=tracing_tree-$version-x86_64-linux
archive=dist/$name.tar.gz
[ -f "$archive" ] || { echo "$archive isn't there: run 'make dist' first" >&2; exit 2; }
room=$(mktemp -d)
room=$(realpath "$room")
trap 'rm -rf "$room"' EXIT
cc=${CC:-cc}
cxx=${CXX:-c++}
strict="-Wall -Wextra -Wpedantic -Werror"
suite=dist
. bindings/steps.sh

# Runs a script whose last line is 'N of M runs ended as they must': runs NAME COMMAND..
runs() {
    local name=$1 right all
    shift
    "$@" > "$room/log" 2>&1
    read -r right all < <(
        sed -En 's/.*\b([0-9]+) of ([0-9]+) runs ended as they must$/\1 \2/p' "$room/log"
    )
    if [ "${all:-0}" -gt 0 ]; then
        passed=$((passed + right))
        [ "$right" = "$all" ] || { fails "$name" && failed=$((failed + all - right - 1)); }
    else
        fails "$name"
    fi
}

# ---- the tools of this machine, without rt
mkdir "$room/tools"
IFS=: read -ra folders <<< "$PATH"
for folder in "${folders[@]}"; do
    ln -s "$(realpath -m "$folder")"/* "$room/tools" 2> "$room/log"
done
rm -f "$room/tools/rt"
PATH=$room/tools
step "rt is off the PATH" bash -c '! command -v rt'
unset TRACING_TREE_LIB CGO_CFLAGS CGO_LDFLAGS
export PKG_CONFIG_LIBDIR="$room/none" PKG_CONFIG_PATH=

# ---- what is in the archive
mkdir "$room/empty"
step "unpack" tar -xzf "$archive" -C "$room/empty"
unpacked=$room/empty/$name
wanted="LICENSE-APACHE LICENSE-MIT README.md bin c go include lib rust share"
step "what is in the archive" [ "$(LC_ALL=C ls "$unpacked" | tr '\n' ' ')" = "$wanted " ]
drawn=$unpacked/c/server.out
step "what the examples draw" cmp "$drawn" bindings/c/server.out

# ---- the programs
bin=$unpacked/bin
runs "the programs of calls" scripts/program.sh "$bin/tracing_tree" "$bin/tracing_tree_read"
runs "the cases of ttree" scripts/cases.py "$bin/ttree"
runs "ttree" scripts/ttree.sh "$bin/ttree" "$bin/tracing_tree"

# ---- C and C++
include=-I$unpacked/include
library=$unpacked/lib/libtracing_tree.a

# Compiles and runs an example: example NAME COMPILER AND ARGUMENTS..
example() {
    local name=$1
    shift
    rm -f "$room/server"
    step "the example in $name" "$@" -o "$room/server"
    step "what the example in $name draws" \
        prints "$drawn" env LD_LIBRARY_PATH="$unpacked/lib" "$room/server"
}

# Compiles and runs tests: tests NAME COMPILER AND ARGUMENTS..
tests() {
    local name=$1
    shift
    rm -f "$room/test"
    step "the tests in $name" "$@" -o "$room/test"
    counts "the tests in $name" "$room/test"
}

example C $cc -std=c99 $strict $include "$unpacked/c/server.c" "$library"
tests C $cc -std=c99 $include -Wl,--wrap=malloc,--wrap=realloc bindings/c/test.c "$library"
if has pkg-config; then
    flags=$(PKG_CONFIG_PATH=$unpacked/lib/pkgconfig pkg-config --cflags --libs tracing_tree)
    example "C by pkg-config" $cc -std=c99 "$unpacked/c/server.c" $flags
else
    left_out "linking by pkg-config, which isn't there"
fi
if has "${cxx%% *}"; then
    cxx="$cxx -std=c++17 $strict $include"
    example C++ $cxx "$unpacked/c/server.cpp" "$library" -pthread
    tests C++ $cxx bindings/c/test.cpp "$library" -pthread
else
    left_out "the example and the tests in C++, since $cxx isn't there"
fi

# ---- Go: the package, and a module that uses it
test_go "$unpacked/go" "$drawn"
if has go; then
    mkdir "$room/user_go"
    cp bindings/go/server/server.go "$room/user_go"
    cat > "$room/user_go/go.mod" << MOD
module user

go 1.19

require tracingtree v0.0.0

replace tracingtree => $unpacked/go
MOD
    example "Go, in another module" env -C "$room/user_go" GOCACHE="$room/go" GOTOOLCHAIN=local \
        CC="$cc" go build
fi

# ---- Python: the tests are in a folder without the module
mkdir "$room/python"
cp bindings/python/test_tracing_tree.py "$room/python"
export PYTHONPATH="$unpacked/lib/python3/dist-packages" PYTHONDONTWRITEBYTECODE=1
counts "the tests in Python" python3 "$room/python/test_tracing_tree.py"

# ---- Rust: the crate, and a crate that uses it
if can_test_rust; then
    user=$room/empty/user
    mkdir -p "$user/src" "$room/empty/.cargo"
    cp bindings/rust/.cargo/config.toml "$room/empty/.cargo"
    cp bindings/rust/examples/server.rs "$user/src/main.rs"
    cat > "$user/Cargo.toml" << TOML
[package]
name = "user"
version = "0.1.0"
edition = "2021"

[dependencies]
tracing = "0.1"
tracing-subscriber = { version = "0.3", default-features = false, features = ["registry"] }
tracing_tree_proved = { path = "../$name/rust" }
TOML
    export CARGO_TARGET_DIR="$room/target"
    tested "the tests of the Rust crate" 's/^test result: ok. \([0-9]*\) passed.*/\1/p' \
        env -C "$unpacked/rust" cargo test --offline --quiet
    step "a crate that uses the Rust crate" env -C "$user" cargo build --offline --quiet
    step "what a crate that uses the Rust crate draws" prints "$drawn" "$room/target/debug/user"
fi

echo "dist: $passed passed, $failed failed"
[ "$failed" = 0 ]
