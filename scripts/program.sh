#!/bin/bash
# Runs the built programs as their users do. The program that draws runs on each worked case, and
# with inputs and outputs that are missing, full or closed. Then the program that reads runs. Names
# each run that failed and prints how many runs ended as they must. The status is 1 if one failed.
#
# usage: program.sh [--checked] DRAWING_PROGRAM READING_PROGRAM
#
# --checked says that the programs were compiled with checks of memory. They reserve terabytes of
# addresses, so the run with little memory is left out. They are a hundred times as slow.
# Therefore long inputs are shorter.
set -u
is_checked=
long_lines=50000
large_bytes=10000000
large_parts=1000000
if [ "$1" = --checked ]; then
    is_checked=1
    long_lines=20000
    large_bytes=1000000
    large_parts=100000
    shift
fi
program=$(realpath "$1")
reader=$(realpath "$2")
top=$(cd "$(dirname "$0")/.." && pwd)
cases=$top/crates/test_cases
tree=$cases/data/first/tree
room=$(mktemp -d)
trap 'rm -rf "$room"' EXIT
runs=0
right=0

# Runs the program with this call's standard input, output and error, and keeps its status.
run() {
    timeout 120 "$program" "$@"
    status=$?
}

# Counts the run with this name. `out` and `err` must equal these files, and the status this one.
count() {
    runs=$((runs + 1))
    if cmp -s "$2" "$room/out" && cmp -s "$3" "$room/err" && [ "$4" = "$status" ]; then
        right=$((right + 1))
    else
        echo "program $1: FAILED: status $status, and on standard error: $(head -c 200 "$room/err")"
    fi
}

# Prints the first path if that file exists, otherwise the second.
file_or() {
    if [ -e "$1" ]; then echo "$1"; else echo "$2"; fi
}

# Prints the file's contents if it exists, otherwise this string.
text_or() {
    if [ -e "$1" ]; then cat "$1"; else echo "$2"; fi
}

# Writes a file with these lines.
lines() {
    printf '%s\n' "${@:2}" > "$room/$1"
}

# Prints the lines of a file, each in two pieces.
pieces() {
    while IFS= read -r line; do
        printf '%s' "${line:0:20}"
        sleep 0.02
        printf '%s\n' "${line:20}"
    done < "$1"
}

# The line that is reported isn't promised if a long output can't be written.
hide_line() {
    sed -i 's/^line [0-9][0-9]*: /line N: /' "$room/err"
}

make_files() {
    : > "$room/none"
    lines settings 'line 1: settings'
    lines read 'line 1: read'
    lines no_call 'line 3: not a call'
    lines end_writer 'end: writer'
    lines line_writer 'line N: writer'
    lines no_call.in '{"indent_lines":true}' '{"call":"new","name":"a"}' '{"call":"new"}'
    lines opened '┐a '
    lines memory 'line 3: memory'
    { echo '{"indent_lines":true}'
      echo '{"call":"new","name":"a"}'
      head -c 100000000 /dev/zero | tr '\0' ' '; } > "$room/wide.in"
    { echo '{"indent_lines":true}'
      yes '{"call":"event","level":"INFO","fields":[["message","x"]]}' | head -n "$long_lines"; } > "$room/long.in"
    yes 'INFO x' | head -n "$long_lines" > "$room/long"
    head -n 1 "$room/long" > "$room/first"
}

run_cases() {
    local name wanted
    for input in "$cases"/data/*/*.in; do
        name=${input%.in}
        run < "$input" > "$room/out" 2> "$room/err"
        count "on ${name#"$cases"/data/}" "$name.out" "$(file_or "$name.err" "$room/none")" "$(text_or "$name.status" 0)"
    done
    wanted=$(sed -n 's/^total: [0-9]* of //p' "$cases/stdout")
    [ "$runs" = "$wanted" ] || { echo "program: FAILED: $runs cases and not $wanted"; runs=$((runs + 1)); }
}

run_inputs() {
    run < /dev/null > "$room/out" 2> "$room/err"
    count "without input" "$room/none" "$room/settings" 2
    run <&- > "$room/out" 2> "$room/err"
    count "with standard input closed" "$room/none" "$room/read" 1
    run < "$room" > "$room/out" 2> "$room/err"
    count "on a directory" "$room/none" "$room/read" 1
    run < <(pieces "$tree.in") > "$room/out" 2> "$room/err"
    count "on an input in pieces" "$tree.out" "$room/none" 0
    run < "$room/long.in" > "$room/out" 2> "$room/err"
    count "on a long input" "$room/long" "$room/none" 0
    run --help --version -x "$tree.in" < "$tree.in" > "$room/out" 2> "$room/err"
    count "with arguments" "$tree.out" "$room/none" 0
}

# Prints two lines and the first part of the next one. Prints the rest when the drawing of the two
# lines has been written, or after ten seconds.
waiting() {
    printf '%s\n' '{"indent_lines":true}' '{"call":"new","name":"a"}'
    printf '{"call":"event",'
    for ((tries = 0; tries < 100; tries++)); do
        cmp -s "$room/opened" "$room/out" && break
        sleep 0.1
    done
    cp "$room/out" "$room/seen"
    printf '%s\n' '"level":"INFO","fields":[["message","x"]],"current":1}'
}

# The program writes everything that it can draw before it waits for more input.
run_live() {
    cp "$room/none" "$room/out"
    lines live '┐a ' '├─ INFO x'
    run < <(waiting) > "$room/out" 2> "$room/err"
    count "on an input that waits" "$room/live" "$room/none" 0
    mv "$room/seen" "$room/out"
    count "while its input waits" "$room/opened" "$room/none" 0
}

# Runs a first line padded with spaces, a long name, and a long array under an unknown key, without
# and with a float.
run_large() {
    { printf '{"indent_lines":'; head -c "$large_parts" /dev/zero | tr '\0' ' '; echo 'true}'
      printf '{"call":"new","name":"'; head -c "$large_bytes" /dev/zero | tr '\0' n; echo '"}'
      printf '{"call":"close","id":1,"x":['; yes 1, | head -n "$large_parts" | tr -d '\n'; echo '1]}'; } > "$room/large.in"
    { printf '┐'; head -c "$large_bytes" /dev/zero | tr '\0' n; printf ' \n┘\n'; } > "$room/large"
    run < "$room/large.in" > "$room/out" 2> "$room/err"
    count "on long lines" "$room/large" "$room/none" 0
    # A float in the array makes the line invalid.
    sed -i '3s/1]}$/1.5]}/' "$room/large.in"
    head -n 1 "$room/large" > "$room/large_opened"
    run < "$room/large.in" > "$room/out" 2> "$room/err"
    count "on a long line with a float" "$room/large_opened" "$room/no_call" 1
}

# Runs a line that is longer than the memory that the program may use.
run_memory() {
    [ -z "$is_checked" ] || return 0
    status=$(ulimit -v 50000; run < "$room/wide.in" > "$room/out" 2> "$room/err"; echo "$status")
    count "with little memory" "$room/opened" "$room/memory" 1
}

run_outputs() {
    cp "$room/none" "$room/out"
    run < "$tree.in" >&- 2> "$room/err"
    count "with standard output closed" "$room/none" "$room/end_writer" 1
    run < "$tree.in" > /dev/full 2> "$room/err"
    count "on a full device" "$room/none" "$room/end_writer" 1
    run < "$room/long.in" > /dev/full 2> "$room/err"
    hide_line
    count "on a full device, long" "$room/none" "$room/line_writer" 1
    run < "$room/no_call.in" > /dev/full 2> "$room/err"
    count "on a full device, with a fault of its input" "$room/none" "$room/no_call" 1
    run < /dev/null > /dev/full 2> "$room/err"
    count "on a full device, with nothing to write" "$room/none" "$room/settings" 2
}

# Runs with a pipe whose only reader was closed before the run, and with one whose reader stops.
run_pipes() {
    mkfifo "$room/pipe"
    exec 3<> "$room/pipe" 4> "$room/pipe" 3>&-
    run < "$tree.in" >&4 2> "$room/err"
    count "into a pipe without a reader" "$room/none" "$room/end_writer" 1
    run < "$room/long.in" >&4 2> "$room/err"
    hide_line
    count "into a pipe without a reader, long" "$room/none" "$room/line_writer" 1
    exec 4>&-
    { run < "$room/long.in" 2> "$room/err"; echo "$status" > "$room/status"; } | head -n 1 > "$room/out"
    status=$(cat "$room/status")
    hide_line
    count "into a pipe whose reader goes" "$room/first" "$room/line_writer" 1
}

# Runs the program with its standard error full or closed.
run_quiet() {
    case $1 in
        full) run 2> /dev/full ;;
        closed) run 2>&- ;;
    esac
}

# If standard error can't be written, the output and the status don't change.
run_errors() {
    cp "$room/none" "$room/err"
    for kind in full closed; do
        run_quiet "$kind" < "$tree.in" > "$room/out"
        count "with standard error $kind" "$tree.out" "$room/none" 0
        run_quiet "$kind" < /dev/null > "$room/out"
        count "with standard error $kind, without input" "$room/none" "$room/none" 2
        run_quiet "$kind" < "$room/no_call.in" > "$room/out"
        count "with standard error $kind, with a fault of its input" "$room/opened" "$room/none" 1
    done
}

# Runs the program that reads: on a drawing, and with the faults that it reports.
run_reader() {
    program=$reader
    lines rows \
        '{"shape":"OpenRoot","level":0,"lines":["a "]}' \
        '{"shape":"Open","verbose":false,"level":1,"lines":["b "]}' \
        '{"shape":"Event","level":2,"lines":[" WARN x"],"ancestors":[0,1]}' \
        '{"shape":"Close","verbose":false,"level":1,"lines":[""]}' \
        '{"shape":"CloseRoot","level":0,"lines":[""]}'
    run < "$tree.out" > "$room/out" 2> "$room/err"
    count "that reads" "$room/rows" "$room/none" 0
    run < /dev/null > "$room/out" 2> "$room/err"
    count "that reads, without input" "$room/none" "$room/none" 0
    run < "$room" > "$room/out" 2> "$room/err"
    count "that reads, on a directory" "$room/none" "$room/read" 1
    { cat "$tree.out"; echo '│'; } > "$room/no_row.in"
    lines no_row 'line 6: not a row'
    run < "$room/no_row.in" > "$room/out" 2> "$room/err"
    count "that reads, on what is no row" "$room/rows" "$room/no_row" 1
    cp "$room/none" "$room/out"
    run < "$tree.out" > /dev/full 2> "$room/err"
    count "that reads, on a full device" "$room/none" "$room/end_writer" 1
    run < "$tree.out" >&- 2> "$room/err"
    count "that reads, with standard output closed" "$room/none" "$room/end_writer" 1
}

# Runs the program that reads with arguments. What it says about them isn't promised, so an x
# replaces that.
run_arguments() {
    lines rows_4 '{"shape":"Open","verbose":false,"level":1,"lines":["b "]}'
    run --amount 4 < <(echo '└───┐b ') > "$room/out" 2> "$room/err"
    count "that reads, with amount 4" "$room/rows_4" "$room/none" 0
    echo x > "$room/told"
    for word in --amount=1 --amount=x --amount --unknown -x "$tree.out"; do
        run "$word" < "$tree.out" > "$room/out" 2> "$room/err"
        [ -s "$room/err" ] && cp "$room/told" "$room/err"
        count "that reads, with $word" "$room/none" "$room/told" 2
    done
    for word in --help --version; do
        run "$word" < "$tree.out" > "$room/out" 2> "$room/err"
        [ -s "$room/out" ] && cp "$room/told" "$room/out"
        count "that reads, with $word" "$room/told" "$room/none" 0
    done
}

make_files
run_cases
run_inputs
run_live
run_large
run_memory
run_outputs
run_pipes
run_errors
run_reader
run_arguments
echo "program: $right of $runs runs ended as they must"
[ "$right" = "$runs" ]
