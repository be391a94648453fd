#!/bin/bash
# Proves and builds a program, and copies it: build.sh CRATE PROGRAM. The program of an earlier
# build is removed first, so a source that doesn't compile or prove leaves no program. `rt run` also
# runs what it built, here with an empty input. How that run ends doesn't matter.
set -u
top=$(cd "$(dirname "$0")/.." && pwd)
"$top/scripts/need.sh" rt || exit 2
mkdir -p "$top/bin"
log=$top/bin/$1.log
cd "$top/crates/$1" || exit 2
rm -f "out/$1" "$top/$2"
echo "build: $1: proving it and what it stands on; all that is said goes to bin/$1.log" >&2

# Prints the check's progress and its errors, with the minutes so far.
progress() {
    local line
    while IFS= read -r line; do
        case $line in
            'so far: '* | 'logic='* | *': error'*) printf 'build: %s: %d.%d min: %.150s\n' "$1" $((SECONDS / 60)) $((SECONDS % 60 / 6)) "$line" >&2 ;;
        esac
    done
}

rt run < /dev/null 2>&1 | tee "$log" | progress "$1"
[ -x "out/$1" ] || { cat "$log" >&2; echo "build: $1 was not built" >&2; exit 1; }
cp "out/$1" "$top/$2"
