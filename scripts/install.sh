#!/bin/sh
# Installs what `make build` and `make bindings` have left in bin/, or removes it. Builds nothing.
# usage: install.sh install|library|archive|uninstall STAGE PREFIX
#   install    the programs, man pages, completions and docs, and the C library if it has been built
#   library    the library with its headers, its pkg-config file and the Python module only
#   archive    what install does, but nothing without the library, and a pkg-config file that
#              finds its folder wherever the archive is unpacked
#   uninstall  removes what install and library install
# The files are put under STAGE/PREFIX; STAGE may be empty. The status is 2 if nothing is installed.
set -eu
cd "$(dirname "$0")/.."

# What is installed: the mode, the file, and its place under PREFIX.
files() {
    cat << 'FILES'
755 bin/tracing_tree bin/tracing_tree
755 bin/tracing_tree_read bin/tracing_tree_read
755 bin/ttree bin/ttree
644 docs/man/tracing_tree.1 share/man/man1/tracing_tree.1
644 docs/man/tracing_tree_read.1 share/man/man1/tracing_tree_read.1
644 docs/man/ttree.1 share/man/man1/ttree.1
644 completions/tracing_tree_read.bash share/bash-completion/completions/tracing_tree_read
644 completions/ttree.bash share/bash-completion/completions/ttree
644 completions/_tracing_tree_read share/zsh/site-functions/_tracing_tree_read
644 completions/_ttree share/zsh/site-functions/_ttree
644 completions/tracing_tree_read.fish share/fish/vendor_completions.d/tracing_tree_read.fish
644 completions/ttree.fish share/fish/vendor_completions.d/ttree.fish
644 README.md share/doc/tracing_tree/README.md
644 CHANGELOG.md share/doc/tracing_tree/CHANGELOG.md
644 CONTRIBUTING.md share/doc/tracing_tree/CONTRIBUTING.md
644 LICENSE-APACHE share/doc/tracing_tree/LICENSE-APACHE
644 LICENSE-MIT share/doc/tracing_tree/LICENSE-MIT
644 docs/README.md share/doc/tracing_tree/docs/README.md
644 docs/manual/c.md share/doc/tracing_tree/docs/manual/c.md
644 docs/manual/chrome-traces.md share/doc/tracing_tree/docs/manual/chrome-traces.md
644 docs/manual/go-test.md share/doc/tracing_tree/docs/manual/go-test.md
644 docs/manual/json-lines.md share/doc/tracing_tree/docs/manual/json-lines.md
644 docs/manual/json-logs.md share/doc/tracing_tree/docs/manual/json-logs.md
644 docs/manual/junit.md share/doc/tracing_tree/docs/manual/junit.md
644 docs/manual/many-services.md share/doc/tracing_tree/docs/manual/many-services.md
644 docs/manual/pages.md share/doc/tracing_tree/docs/manual/pages.md
644 docs/manual/read-back.md share/doc/tracing_tree/docs/manual/read-back.md
644 docs/manual/rust-json.md share/doc/tracing_tree/docs/manual/rust-json.md
644 docs/manual/rust.md share/doc/tracing_tree/docs/manual/rust.md
644 docs/manual/service.md share/doc/tracing_tree/docs/manual/service.md
644 docs/manual/tap.md share/doc/tracing_tree/docs/manual/tap.md
644 docs/manual/threads.md share/doc/tracing_tree/docs/manual/threads.md
644 docs/manual/ttree.md share/doc/tracing_tree/docs/manual/ttree.md
644 docs/reference/formats.md share/doc/tracing_tree/docs/reference/formats.md
644 docs/reference/glossary.md share/doc/tracing_tree/docs/reference/glossary.md
644 docs/reference/pages.md share/doc/tracing_tree/docs/reference/pages.md
644 docs/proofs/definitions.md share/doc/tracing_tree/docs/proofs/definitions.md
644 docs/proofs/reading-a-claim.md share/doc/tracing_tree/docs/proofs/reading-a-claim.md
644 docs/proofs/tested-only.md share/doc/tracing_tree/docs/proofs/tested-only.md
644 docs/proofs/what-is-proved.md share/doc/tracing_tree/docs/proofs/what-is-proved.md
644 docs/proofs/wrong-bodies.md share/doc/tracing_tree/docs/proofs/wrong-bodies.md
644 docs/design/architecture.md share/doc/tracing_tree/docs/design/architecture.md
644 docs/design/differences.md share/doc/tracing_tree/docs/design/differences.md
644 docs/design/decisions/README.md share/doc/tracing_tree/docs/design/decisions/README.md
644 docs/design/decisions/c.md share/doc/tracing_tree/docs/design/decisions/c.md
644 docs/design/decisions/chrome.md share/doc/tracing_tree/docs/design/decisions/chrome.md
644 docs/design/decisions/clocks.md share/doc/tracing_tree/docs/design/decisions/clocks.md
644 docs/design/decisions/crates.md share/doc/tracing_tree/docs/design/decisions/crates.md
644 docs/design/decisions/drawing.md share/doc/tracing_tree/docs/design/decisions/drawing.md
644 docs/design/decisions/formats.md share/doc/tracing_tree/docs/design/decisions/formats.md
644 docs/design/decisions/go-test.md share/doc/tracing_tree/docs/design/decisions/go-test.md
644 docs/design/decisions/junit.md share/doc/tracing_tree/docs/design/decisions/junit.md
644 docs/design/decisions/lines.md share/doc/tracing_tree/docs/design/decisions/lines.md
644 docs/design/decisions/logs.md share/doc/tracing_tree/docs/design/decisions/logs.md
644 docs/design/decisions/memory.md share/doc/tracing_tree/docs/design/decisions/memory.md
644 docs/design/decisions/otlp.md share/doc/tracing_tree/docs/design/decisions/otlp.md
644 docs/design/decisions/pages.md share/doc/tracing_tree/docs/design/decisions/pages.md
644 docs/design/decisions/registry.md share/doc/tracing_tree/docs/design/decisions/registry.md
644 docs/design/decisions/rows.md share/doc/tracing_tree/docs/design/decisions/rows.md
644 docs/design/decisions/tap.md share/doc/tracing_tree/docs/design/decisions/tap.md
644 docs/design/decisions/threads.md share/doc/tracing_tree/docs/design/decisions/threads.md
644 docs/design/decisions/tracer.md share/doc/tracing_tree/docs/design/decisions/tracer.md
644 docs/developing/adding-things.md share/doc/tracing_tree/docs/developing/adding-things.md
644 docs/developing/gate.md share/doc/tracing_tree/docs/developing/gate.md
644 docs/developing/performance.md share/doc/tracing_tree/docs/developing/performance.md
644 docs/developing/setup.md share/doc/tracing_tree/docs/developing/setup.md
644 docs/developing/testing.md share/doc/tracing_tree/docs/developing/testing.md
644 docs/tree.svg share/doc/tracing_tree/docs/tree.svg
644 bindings/README.md share/doc/tracing_tree/bindings/README.md
FILES
}

# What is installed of the library. A link's file is its target, and a function writes the
# pkg-config file.
library_files() {
    cat << 'FILES'
644 bin/libtracing_tree.a lib/libtracing_tree.a
755 bin/libtracing_tree.so.1 lib/libtracing_tree.so.1
link libtracing_tree.so.1 lib/libtracing_tree.so
644 bindings/c/tracing_tree.h include/tracing_tree.h
644 bindings/c/tracing_tree.hpp include/tracing_tree.hpp
644 bindings/python/tracing_tree.py lib/python3/dist-packages/tracing_tree.py
write pkg_config lib/pkgconfig/tracing_tree.pc
FILES
}

# Folders that are removed if they are empty. The others may have been there before.
FOLDERS='share/doc/tracing_tree/docs/manual share/doc/tracing_tree/docs/reference
share/doc/tracing_tree/docs/proofs share/doc/tracing_tree/docs/developing
share/doc/tracing_tree/docs/design/decisions share/doc/tracing_tree/docs/design
share/doc/tracing_tree/docs share/doc/tracing_tree/bindings
share/doc/tracing_tree'

# The quotes keep a prefix with spaces one word. pkg-config quotes pcfiledir itself.
pkg_config() {
    cat << PC
prefix=$folder
libdir=\${prefix}/lib
includedir=\${prefix}/include

Name: tracing_tree
Description: Draws spans and events as a tree
Version: 1
Libs: -L$quote\${libdir}$quote -ltracing_tree
Cflags: -I$quote\${includedir}$quote
PC
}

say() { echo "install: $*" >&2; }

# Says why a file in bin/ can't be installed, or nothing.
fault_of() {
    if [ ! -f "bin/$1" ]; then
        echo "bin/$1 is missing"
    elif [ -n "$(find crates crates.txt -newer "bin/$1" -type f \
        -not -path '*/out/*' -not -path '*/must-fail/*' -print -quit)" ]; then
        echo "bin/$1 is older than its sources"
    fi
}

library_fault() {
    fault=$(fault_of libtracing_tree.a)
    [ -n "$fault" ] || fault=$(fault_of libtracing_tree.so.1)
    echo "$fault"
}

put() {
    while read -r mode file place; do
        case $mode in
            link) ln -sfn "$file" "$to/$place" ;;
            write) "$file" | install -D -m 644 /dev/stdin "$to/$place" ;;
            *) install -D -m "$mode" "$file" "$to/$place" ;;
        esac
    done
}

# Installs the library, or says why not and takes this status.
install_library() {
    fault=$(library_fault)
    if [ -n "$fault" ]; then
        say "the C library is left out, since $fault:" \
            "run 'make bindings' (20 minutes on four cores)"
        status=$1
    else
        library_files | put
    fi
}

# Ends with status 2 if a program is missing or old, or if there is a fault already.
check_programs() {
    for program in tracing_tree tracing_tree_read ttree; do
        fault=$(fault_of $program)
        if [ -n "$fault" ]; then
            say "$fault: run 'make build' (35 minutes on four cores)"
            status=2
        fi
    done
    [ "$status" = 0 ] || exit "$status"
}

install_all() {
    check_programs
    files | put
    install_library 0
}

# Installs all or nothing. pkg-config sets pcfiledir to the folder of its file.
install_archive() {
    fault=$(library_fault)
    if [ -n "$fault" ]; then
        say "$fault: run 'make bindings' (20 minutes on four cores)"
        status=2
    fi
    check_programs
    folder='${pcfiledir}/../..'
    quote=
    { files; library_files; } | put
}

uninstall() {
    { files; library_files; } | while read -r mode file place; do
        rm -f "$to/$place"
    done
    # what Python writes when the module is first used
    rm -f "$to"/lib/python3/dist-packages/__pycache__/tracing_tree.*.pyc
    for folder in $FOLDERS; do
        rmdir "$to/$folder" 2> /dev/null || true
    done
}

if [ $# != 3 ]; then
    say "usage: install.sh install|library|archive|uninstall STAGE PREFIX"
    exit 2
fi
case $3 in
    /*) ;;
    *) say "PREFIX must begin with /: '$3'"; exit 2 ;;
esac
prefix=${3%/}
folder=$prefix
quote='"'
to=$2$prefix
status=0
case $1 in
    install) install_all ;;
    library) install_library 2 ;;
    archive) install_archive ;;
    uninstall) uninstall ;;
    *) say "unknown command: $1"; status=2 ;;
esac
exit "$status"
