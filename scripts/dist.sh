#!/bin/sh
# Writes dist/tracing_tree-VERSION-x86_64-linux.tar.gz, for use without the kit: what `make install`
# installs, and the library's Rust crate and Go package with the library inside. Builds nothing: if
# something is missing from bin/ or old, it says what to run, and the status is 2.
# Equal files give equal bytes. Their date is SOURCE_DATE_EPOCH, or that of the last commit.
set -eu
cd "$(dirname "$0")/.."
version=$(sed -n 's/^version = "\(.*\)"/\1/p' bindings/rust/Cargo.toml)
name=tracing_tree-$version-x86_64-linux
date=${SOURCE_DATE_EPOCH:-$(scripts/need.sh git && git log -1 --format=%ct)}
stage=$(mktemp -d)
trap 'rm -rf "$stage"' EXIT
scripts/install.sh archive "$stage" "/$name"

# Puts files at the same place below another folder: put FROM TO FILE..
put() {
    from=$1 to=$2
    shift 2
    for file; do
        install -D -m 644 "$from/$file" "$stage/$name/$to/$file"
    done
}

# Returns the files of a kind below a folder, without what cargo builds: all FOLDER PATTERN
all() { (cd "$1" && find . -path ./target -prune -o -name "$2" -type f -print); }

put . . LICENSE-APACHE LICENSE-MIT
put bindings . README.md
put bindings/c c server.c server.cpp server.out
put bindings/rust rust Cargo.toml README.md $(all bindings/rust '*.rs')
put bindings/go go go.mod $(all bindings/go '*.go')
for package in rust go; do
    put bin "$package/lib" libtracing_tree.a
    put . "$package" LICENSE-APACHE LICENSE-MIT
done
put bindings/c go/lib tracing_tree.h

tar --sort=name --mtime="@$date" --owner=0 --group=0 --numeric-owner --mode=u=rwX,go=rX \
    --format=gnu -C "$stage" -cf "$stage/tar" "$name"
gzip -n -9 "$stage/tar"
mkdir -p dist
mv "$stage/tar.gz" "dist/$name.tar.gz"
echo "dist: wrote dist/$name.tar.gz"
