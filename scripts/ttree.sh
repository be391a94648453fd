#!/bin/bash
# Runs the program that draws other tools' output as its users do. For Go's tests, the drawing must
# be that of the first program for the calls that scripts/go_lines.py writes. Names each run that
# failed and prints how many runs ended as they must. The status is 1 if one failed.
#
# usage: ttree.sh [--checked] TTREE DRAWING_PROGRAM
#
# --checked says that the programs were compiled with checks of memory. They are a hundred times as
# slow. Therefore long inputs are shorter.
set -u
long_spans=100000
if [ "$1" = --checked ]; then
    long_spans=10000
    shift
fi
ttree=$(realpath "$1")
tree=$(realpath "$2")
top=$(cd "$(dirname "$0")/.." && pwd)
room=$(mktemp -d)
trap 'rm -rf "$room"' EXIT
. "$top/scripts/ttree_tracing.sh"
. "$top/scripts/ttree_junit.sh"
. "$top/scripts/ttree_tap.sh"
. "$top/scripts/ttree_otlp.sh"
. "$top/scripts/ttree_chrome.sh"
runs=0
right=0

# Runs the program. Removes the paths of the tests' own files from its messages.
run() {
    timeout 300 "$ttree" "$@" > "$room/out" 2> "$room/err"
    status=$?
    sed -i "s#^ttree: \($room\|$top\)/[^:]*: #ttree: #" "$room/err"
}

# Counts the run with this name. `out` must equal this file, standard error this string, and the
# status this one.
count() {
    runs=$((runs + 1))
    if cmp -s "$room/$2" "$room/out" && [ "$3" = "$(cat "$room/err")" ] && [ "$4" = "$status" ]; then
        right=$((right + 1))
    else
        echo "program ttree $1: FAILED: status $status, and on standard error: $(head -c 200 "$room/err")"
    fi
}

# Writes the first program's drawing of this input to `want`. The second argument is a sed
# expression that changes the settings, and the others are passed to go_lines.py.
expect() {
    python3 "$top/scripts/go_lines.py" "${@:3}" < "$1" | sed "1$2" | "$tree" > "$room/want"
}

# Counts the drawing of this input, which must end with this status.
drawing() {
    expect "$1" 's/^//'
    run "$1"
    count "on $(basename "$1")" want '' "$2"
}

run_samples() {
    drawing "$top/examples/go-fail.jsonl" 1
    drawing "$top/examples/go-test.jsonl" 1
    drawing "$top/examples/go-std.jsonl" 0
}

run_options() {
    local input=$top/examples/go-test.jsonl
    expect "$input" 's/"span_retrace": true/"ansi": true, "span_retrace": true/'
    run --from go-test --color always "$input"
    count 'with colours' want '' 1
    expect "$input" 's/"indent_lines": true/"indent_amount": 5/'
    run --no-lines --amount 5 "$input"
    count 'without lines' want '' 1
    expect "$input" 's/"span_retrace": true, "close_retrace": true/"span_retrace": false/'
    run --no-retrace < "$input"
    count 'without retracing' want '' 1
}

# Lines that Go's tests don't print like this, and the ends of inputs.
run_odd() {
    printf '%s\n' '{"Action":"output","Package":"p","Output":"a\u001b[31mred\u0085 \tb\n"}' '{"Action":"pause","Package":"p"}' '' \
        '{"Action":"pass","Package":"p","Test":"Never/Ran","Elapsed":1e-3}' '{"Action":"fail","Package":"p"}' 'no build' > "$room/odd"
    expect "$room/odd" 's/^//'
    run "$room/odd"
    count 'on odd lines' want '' 1
    cp "$room/odd" "$room/skipped"
    printf '[1]\n{"Action":"run"}\n\377\n' >> "$room/skipped"
    run "$room/skipped"
    count 'on lines that tell nothing' want 'ttree: line 7: "Action" must be a string, skipped
ttree: line 8: "Package" must be a string, skipped
ttree: line 9: not UTF-8, skipped
ttree: 3 lines skipped' 1
    printf '{"Action":"output","Package":"p"}\n' > "$room/textless"
    echo 'INFO passed=0, failed=0, skipped=0, unfinished=0, packages=0, packages_failed=0' > "$room/want"
    run "$room/textless"
    count 'on output without a text' want 'ttree: line 1: "Output" must be a string, skipped
ttree: 1 line skipped' 1
    sed 's/$/\r/' "$top/examples/go-test.jsonl" > "$room/crlf"
    expect "$top/examples/go-test.jsonl" 's/^//'
    run "$room/crlf"
    count 'on lines that end as on Windows' want '' 1
    : > "$room/none"
    : > "$room/want"
    run "$room/none"
    count 'on an empty file' want '' 0
}

# Tests that are still running when one with the same name starts, or when their package or the
# input ends. Each tree was written by hand from docs/reference/formats.md.
run_left() {
    cat > "$room/left" << 'END_OF_LINES'
{"Action":"run","Package":"p","Test":"TestA"}
{"Action":"run","Package":"p","Test":"TestA/x"}
{"Action":"run","Package":"p","Test":"TestB"}
{"Action":"output","Package":"p","Test":"TestA/x","Output":"x\n"}
{"Action":"run","Package":"p","Test":"TestB"}
{"Action":"output","Package":"p","Test":"TestB","Output":"again\n"}
{"Action":"run","Package":"q"}
{"Action":"output","Package":"q","Output":"log\n"}
{"Action":"pass","Package":"q"}
{"Action":"fail","Package":"p"}
END_OF_LINES
    cat > "$room/want" << 'END_OF_TREE'
┐p 
└─┐TestA 
  └─┐x 
    ├─ INFO x
├─ ERROR unfinished TestB
└─┐TestB 
  ├─ INFO again
┐q 
├─ INFO log
├─ INFO pass
┘
┐p 
└─┐TestB 
  ├─ ERROR unfinished
┌─┘
└─┐TestA 
  └─┐x 
    ├─ ERROR unfinished
  ┌─┘
  ├─ ERROR unfinished
┌─┘
├─ ERROR fail
┘
ERROR passed=0, failed=0, skipped=0, unfinished=4, packages=2, packages_failed=1, failed_packages=p
END_OF_TREE
    run "$room/left"
    count 'on tests that still run' want '' 1
    drawing "$room/left" 1
    run_late
    cat > "$room/ended" << 'END_OF_LINES'
{"Action":"start","Package":"p"}
{"Action":"run","Package":"p","Test":"TestA"}
{"Action":"output","Package":"p","Test":"TestA","Output":"=== RUN   TestA\n"}
{"Action":"run","Package":"p","Test":"TestA/x"}
{"Action":"output","Package":"p","Test":"TestA/x","Output":"half"}
{"Action":"run","Package":"q","Test":"TestB"}
{"Action":"pass","Package":"q","Test":"TestB","Elapsed":0.5}
{"ImportPath":"r","Action":"build-output","Output":"r warns\n"}
END_OF_LINES
    cat > "$room/want" << 'END_OF_TREE'
┐p 
└─┐TestA 
┐q 
├─ INFO pass TestB, elapsed=0.5
┐p 
└─┐TestA 
  └─┐x 
    ├─ INFO half
    ├─ ERROR unfinished
  ┌─┘
  ├─ ERROR unfinished
┌─┘
├─ ERROR unfinished
┘
┐q 
├─ ERROR unfinished
┘
┐r 
├─ WARN r warns
┘
ERROR passed=1, failed=0, skipped=0, unfinished=2, packages=2, packages_failed=2, failed_packages=p q
END_OF_TREE
    run "$room/ended"
    count 'on an input that ends while tests run' want '' 1
    drawing "$room/ended" 1
    echo '{"ImportPath":"r","Action":"build-output","Output":"r warns\n"}' > "$room/ended"
    printf '┐r \n├─ WARN r warns\n┘\nINFO passed=0, failed=0, skipped=0, unfinished=0, packages=0, packages_failed=0\n' > "$room/want"
    run "$room/ended"
    count 'on a build alone' want '' 0
}

# Counts the run on lines, which must end with this status. Standard input has the lines, a line
# `--` and the tree, which was written by hand from docs/reference/formats.md.
tree_of_lines() {
    cat > "$room/both"
    sed '/^--$/,$d' "$room/both" > "$room/lines"
    sed '1,/^--$/d' "$room/both" > "$room/want"
    run --from go-test "$room/lines"
    count "$1" want '' "$2"
    expect "$room/lines" 's/^//'
    count "$1, as go_lines.py tells them" want '' "$2"
}

# What Go 1.20 and later print: benchmarks without an end, frames after half a line, kinds of
# strings, builds, and how packages end.
run_newer() {
    tree_of_lines 'on benchmarks without an end' 0 << 'END_OF_LINES'
{"Action":"start","Package":"p"}
{"Action":"run","Package":"p","Test":"BenchmarkA"}
{"Action":"output","Package":"p","Test":"BenchmarkA","Output":"=== RUN   BenchmarkA\n"}
{"Action":"output","Package":"p","Test":"BenchmarkA","Output":"BenchmarkA\n"}
{"Action":"output","Package":"p","Test":"BenchmarkA","Output":"BenchmarkA-4  \t"}
{"Action":"output","Package":"p","Test":"BenchmarkA","Output":"  10\t 16 ns/op\n"}
{"Action":"run","Package":"p","Test":"BenchmarkB"}
{"Action":"output","Package":"p","Output":"PASS\n"}
{"Action":"pass","Package":"p","Elapsed":0.1}
--
┐p 
└─┐BenchmarkA 
  ├─ INFO BenchmarkA-4  	  10	 16 ns/op
├─ INFO pass BenchmarkB
└─┐BenchmarkA 
  ├─ INFO pass
┌─┘
├─ INFO pass, elapsed=0.1
┘
INFO passed=2, failed=0, skipped=0, unfinished=0, packages=1, packages_failed=0
END_OF_LINES
    tree_of_lines 'on frames behind half a line' 0 << 'END_OF_LINES'
{"Action":"run","Package":"p","Test":"T"}
{"Action":"output","Package":"p","Test":"T","Output":"x"}
{"Action":"run","Package":"p","Test":"T/s"}
{"Action":"output","Package":"p","Test":"T/s","Output":"=== ATTR  T/s owner me\n"}
{"Action":"output","Package":"p","Test":"T/s","Output":"y"}
{"Action":"output","Package":"p","Test":"T/s","Output":"--- PASS: T/s (0.00s)\n"}
{"Action":"pass","Package":"p","Test":"T/s","Elapsed":0}
{"Action":"output","Package":"p","Test":"T","Output":"wrong\n","OutputType":"error"}
{"Action":"output","Package":"p","Test":"T","Output":"z"}
{"Action":"output","Package":"p","Test":"T","Output":"--- any frame\n","OutputType":"frame"}
{"Action":"pass","Package":"p","Test":"T","Elapsed":0}
{"Action":"output","Package":"p","Output":"coverage: 80.0% of statements\n"}
{"Action":"output","Package":"p","Output":"ok  \tp\t(cached)\tcoverage: 80.0% of statements\n"}
{"Action":"pass","Package":"p","Elapsed":0}
--
┐p 
└─┐T 
  ├─ INFO x
  └─┐s 
    ├─ INFO y
    ├─ INFO pass, elapsed=0
  ┌─┘
  ├─ ERROR wrong
  ├─ INFO z
  ├─ INFO pass, elapsed=0
┌─┘
├─ INFO pass, elapsed=0, cached=true, coverage=80.0%
┘
INFO passed=2, failed=0, skipped=0, unfinished=0, packages=1, packages_failed=0
END_OF_LINES
    tree_of_lines 'on what builds print, and lines among them' 1 << 'END_OF_LINES'
go: downloading example.com/x v1.2.3
{"ImportPath":"r [r.test]","Action":"build-output","Output":"# r [r.test]\n"}
{"ImportPath":"r [r.test]","Action":"build-output","Output":"./a.go:3: undefined: x\n"}
{"ImportPath":"s","Action":"build-output","Output":"# s\n"}
{"ImportPath":"s","Action":"build-output","Output":"s warns\n"}
{"ImportPath":"r [r.test]","Action":"build-fail"}
{"Action":"start","Package":"r"}
{"Action":"fail","Package":"r","Elapsed":0,"FailedBuild":"r [r.test]"}
{"Action":"start","Package":"s"}
note
panic: oops
{"Action":"skip","Package":"s"}
after
--
INFO go: downloading example.com/x v1.2.3
┐r 
├─ ERROR ./a.go:3: undefined: x
├─ ERROR fail, elapsed=0
┘
┐s 
├─ WARN s warns
├─ INFO note
├─ ERROR panic: oops
├─ WARN skip
┘
INFO after
ERROR passed=0, failed=0, skipped=0, unfinished=0, packages=2, packages_failed=1, failed_packages=r
END_OF_LINES
    tree_of_lines 'on a build among lines of JSON, and lines after its package' 1 << 'END_OF_LINES'
# example.com/b
# [example.com/b]
b.go:1: bad
go: finding module for package x
{"Action":"fail","Package":"example.com/b"}
make: *** [test] Error 1
# example.com/c
c.go:1: bad
--
┐example.com/b 
├─ ERROR b.go:1: bad
├─ INFO go: finding module for package x
├─ ERROR fail
┘
INFO make: *** [test] Error 1
┐example.com/c 
├─ ERROR c.go:1: bad
┘
ERROR passed=0, failed=0, skipped=0, unfinished=0, packages=1, packages_failed=1, failed_packages=example.com/b
END_OF_LINES
    tree_of_lines 'on packages that started, and a build that did not' 1 << 'END_OF_LINES'
{"ImportPath":"s","Action":"build-output","Output":"s warns\n"}
{"ImportPath":"r","Action":"build-output","Output":"go: downloading x v1\n"}
{"ImportPath":"r","Action":"build-output","Output":"./a.go:3: undefined: x\n"}
{"ImportPath":"r","Action":"build-fail"}
{"Action":"start","Package":"p"}
{"Action":"start","Package":"q"}
{"Action":"pass","Package":"q"}
--
┐r 
├─ INFO go: downloading x v1
├─ ERROR ./a.go:3: undefined: x
INFO pass q
ERROR unfinished p
┘
┐s 
├─ WARN s warns
┘
ERROR passed=0, failed=0, skipped=0, unfinished=0, packages=2, packages_failed=1, failed_packages=p
END_OF_LINES
    { for name in {01..12}; do printf '{"Action":"fail","Package":"p","Test":"T%s"}\n' "$name"; done; echo '{"Action":"pass","Package":"p"}'; } > "$room/lines"
    {
        echo '┐p '
        printf '├─ ERROR fail T%s\n' {01..12}
        printf '├─ INFO pass\n┘\n'
        echo "ERROR passed=0, failed=12, skipped=0, unfinished=0, packages=1, packages_failed=0, failed_tests=$(echo p.T{01..10}) and 2 more"
    } > "$room/want"
    run "$room/lines"
    count 'on twelve tests that fail' want '' 1
}

# Skipped lines. The first ten are reported, and then their number.
run_skipped() {
    local number notes=''
    { cat "$room/odd"; printf '[1]\n%.0s' {1..12}; } > "$room/many"
    for number in {7..16}; do
        notes+="ttree: line $number: \"Action\" must be a string, skipped"$'\n'
    done
    expect "$room/odd" 's/^//'
    run "$room/many"
    count 'on twelve lines that tell nothing' want "${notes}ttree: 12 lines skipped" 1
    { head -n 1 "$room/odd"; echo '[1]'; tail -n 2 "$room/odd"; } > "$room/strict"
    python3 "$top/scripts/go_lines.py" < <(head -n 1 "$room/odd") | head -n -3 | "$tree" > "$room/want"
    run --strict "$room/strict"
    count 'with --strict' want 'ttree: line 2: "Action" must be a string' 1
    expect "$room/odd" 's/^//'
    run --strict "$room/odd"
    count 'with --strict on lines that are known' want '' 1
}

# Tests that first print, or end, after the test that they started in.
run_late() {
    cat > "$room/late" << 'END_OF_LINES'
{"Action":"run","Package":"p","Test":"TestA"}
{"Action":"run","Package":"p","Test":"TestA/x"}
{"Action":"run","Package":"p","Test":"TestA/x/deep"}
{"Action":"run","Package":"p","Test":"TestA/y"}
{"Action":"output","Package":"p","Test":"TestA","Output":"a\n"}
{"Action":"fail","Package":"p","Test":"TestA"}
{"Action":"output","Package":"p","Test":"TestA/x/deep","Output":"deep\n"}
{"Action":"pass","Package":"p","Test":"TestA/x"}
{"Action":"pass","Package":"p","Test":"TestA/x/deep"}
{"Action":"skip","Package":"p","Test":"TestA/y"}
{"Action":"run","Package":"p","Test":"TestB"}
{"Action":"run","Package":"p","Test":"TestB/x"}
{"Action":"run","Package":"p","Test":"TestB"}
{"Action":"output","Package":"p","Test":"TestB/x","Output":"of the first\n"}
{"Action":"output","Package":"p","Test":"TestB","Output":"of the second\n"}
{"Action":"fail","Package":"p"}
END_OF_LINES
    cat > "$room/want" << 'END_OF_TREE'
┐p 
└─┐TestA 
  └─┐x 
  ├─ INFO a
  ├─ ERROR fail
  └─┐x 
    └─┐deep 
      ├─ INFO deep
    ├─ INFO pass
    └─┐deep 
      ├─ INFO pass
    ┌─┘
  ┌─┘
┌─┘
├─ WARN skip TestA/y
└─┐TestB 
  ├─ ERROR unfinished
┌─┘
└─┐TestB/x 
  ├─ INFO of the first
└─┐TestB 
  ├─ INFO of the second
└─┐TestB/x 
  ├─ ERROR unfinished
┌─┘
└─┐TestB 
  ├─ ERROR unfinished
┌─┘
├─ ERROR fail
┘
ERROR passed=2, failed=1, skipped=1, unfinished=3, packages=1, packages_failed=1, failed_packages=p, failed_tests=p.TestA
END_OF_TREE
    run "$room/late"
    count 'on tests that outlast the one in which they began' want '' 1
    drawing "$room/late" 1
}

# Lines of Go's tests in random order, with and without --failed.
run_random() {
    local seed options status_of
    for seed in $(seq 1 20); do
        python3 "$top/scripts/go_lines.py" --random "$seed" > "$room/random"
        for options in '' --failed; do
            expect "$room/random" 's/^//' $options
            status_of=0
            tail -n 1 "$room/want" | grep -q '^INFO' || status_of=1
            run --from go-test $options "$room/random"
            count "$options on random lines of Go's tests, seed $seed" want '' "$status_of"
        done
    done
}

# Several files are drawn one after another. The status is the worst of theirs.
run_files() {
    local passed=$top/examples/go-std.jsonl failed=$top/examples/go-test.jsonl calls=$top/examples/server.jsonl
    for input in "$passed" "$failed" "$calls"; do
        run "$input"
        cp "$room/out" "$room/$(basename "$input").tree"
    done
    cat "$room"/{go-std.jsonl,go-test.jsonl,server.jsonl}.tree > "$room/want"
    run "$passed" "$failed" "$calls"
    count 'on three files' want '' 1
    run "$passed" - "$calls" < "$failed"
    count 'on two files and standard input' want '' 1
    cat "$room"/{go-std.jsonl,server.jsonl}.tree > "$room/want"
    run "$passed" "$room/missing" "$calls"
    count 'on a missing file between two' want 'ttree: No such file or directory (os error 2)' 2
    printf '[1]\n' > "$room/bad"
    timeout 300 "$ttree" "$room/bad" --from go-test > "$room/out" 2> "$room/err"
    status=$?
    echo 'INFO passed=0, failed=0, skipped=0, unfinished=0, packages=0, packages_failed=0' > "$room/want"
    count 'on a bad line of a file' want "ttree: $room/bad: line 1: \"Action\" must be a string, skipped
ttree: $room/bad: 1 line skipped" 1
}

# Rows that are cut off. The trees were written by hand. `…` takes the last column, a wide character
# takes two columns, and escape sequences take no column.
run_widths() {
    printf '%s\n' '{"indent_lines":true}' '{"call":"new","name":"abcdefgh"}' \
        '{"call":"event","level":"INFO","fields":[["message","wide 日本語"]],"current":1}' > "$room/wide"
    run --width 20 "$room/wide"
    printf '┐abcdefgh \n├─INFO wide 日本語\n' > "$room/fits"
    sed -i 's/├─INFO/├─ INFO/' "$room/fits"
    cp "$room/fits" "$room/want"
    count 'with --width as wide as the rows' want '' 0
    printf '┐abcdefgh \n├─ INFO wide 日本…\n' > "$room/want"
    run --width 18 "$room/wide"
    count 'with --width before a wide character' want '' 0
    printf '┐abcdefgh \n├─ INFO wide 日…\n' > "$room/want"
    run --width 17 "$room/wide"
    count 'with --width within a wide character' want '' 0
    printf '┐abc…\n├─ I…\n' > "$room/want"
    run --width 5 "$room/wide"
    count 'with --width 5' want '' 0
    printf '…\n…\n' > "$room/want"
    run --width 1 "$room/wide"
    count 'with --width 1' want '' 0
    cp "$room/fits" "$room/want"
    run --width 0 "$room/wide"
    count 'with --width 0' want '' 0
    COLUMNS=5 run "$room/wide"
    count 'with COLUMNS, and not on a terminal' want '' 0
    printf '┐abc…\n├─ I…\n' > "$room/want"
    COLUMNS=5 on_terminal "$room/wide"
    count 'with COLUMNS on a terminal' want '' 0
    cp "$room/fits" "$room/want"
    COLUMNS=5 on_terminal --width 0 "$room/wide"
    count 'with COLUMNS and --width 0 on a terminal' want '' 0
    COLUMNS=wide on_terminal "$room/wide"
    count 'with COLUMNS that is no number on a terminal' want '' 0
    printf '{"ansi":true}\n{"call":"new","name":"abcdefgh"}\n' > "$room/coloured"
    printf ' \033[1;32mabc…\033[0m\n' > "$room/want"
    run --width 5 "$room/coloured"
    count 'with --width and colours' want '' 0
}

# If the reader of its output stops, as `head` does, the program ends without a message.
run_closed() {
    local input
    for input in go-std.jsonl clang-trace.json server.jsonl; do
        { timeout 300 "$ttree" "$top/examples/$input" "$top/examples/go-std.jsonl" 2> "$room/err"; echo "$?" > "$room/status"; } | head -n 1 > "$room/out"
        timeout 300 "$ttree" "$top/examples/$input" | head -n 1 > "$room/want"
        status=$(cat "$room/status")
        count "on $input into head" want '' 0
    done
}

# Prints a line, and another one when the drawing of the first has been written, or after ten
# seconds. What had been written by then is `seen`.
print_in_turn() {
    printf '%s\n' "$1"
    for ((tries = 0; tries < 100; tries++)); do
        cmp -s "$room/want" "$room/live" && break
        sleep 0.1
    done
    cp "$room/live" "$room/seen"
    printf '%s\n' "$2"
}

# Counts what is drawn of a line, on standard input, while the next one hasn't come. The first
# argument is a name, the next two are the lines, and the others are passed to the program.
live() {
    local name=$1 first=$2 next=$3
    cat > "$room/want"
    : > "$room/live"
    print_in_turn "$first" "$next" | timeout 300 "$ttree" "${@:4}" > "$room/live" 2> "$room/err"
    status=$?
    mv "$room/seen" "$room/out"
    count "$name, while its input waits" want '' 0
}

# The program draws each line before it waits for the next one.
run_live() {
    local log='{"level":"info","msg":"a"}' next='{"level":"info","msg":"b"}'
    live 'on a log' "$log" "$next" <<< 'INFO a'
    live 'on a log in a few columns' "$log" "$next" --width 20 <<< 'INFO a'
    live 'on a log with times' "$log" "$next" --times <<< '                                      INFO a'
    live 'on tracing' '{"level":"INFO","fields":{"message":"a"},"target":"t"}' \
        '{"level":"INFO","fields":{"message":"b"},"target":"t"}' <<< 'INFO a'
    live "on Go's tests" '{"Action":"output","Package":"p","Output":"x\n"}' '{"Action":"pass","Package":"p"}' << 'END'
┐p 
├─ INFO x
END
    live 'on settings and calls' $'{"indent_lines":true}\n{"call":"new","name":"a"}' '{"call":"close","id":1}' <<< '┐a '
}

# Lines of settings and calls. The first line or --from selects the format.
run_lines() {
    local input=$top/examples/server.jsonl
    "$tree" < "$input" > "$room/want"
    run "$input"
    count 'on settings and calls' want '' 0
    run --from lines < "$input"
    count 'with --from lines' want '' 0
    run - < "$input"
    count 'on standard input by its name' want '' 0
    { cat "$input"; echo '{"call":"close"}'; echo '{"call":"event","level":"INFO"}'; } > "$room/ended"
    run "$room/ended"
    count 'on a line that is no call' want "ttree: line $(($(wc -l < "$input") + 1)): a member of the call is missing, unknown or invalid" 1
    local level='"level" must be one of TRACE, DEBUG, INFO, WARN, ERROR'
    local name='"call" must be one of new, clone, record, event, close'
    printf '%s\n' '{"indent_lines":true}' '{"call":"new","name":"a\nb","fields":[["x","1\n2"]]}' \
        '{"call":"event","level":"INFO","fields":[["message","c\nd"]],"current":1}' > "$room/lines"
    printf '%s\n' '┐a\nb x=1\n2' '├─ INFO c' '│  d' > "$room/want"
    run "$room/lines"
    count 'on line ends in settings and calls' want '' 0
    printf '%s\n' '{}' '{"call":"event","level":"INFO"}' '' '{"call":"event","level":"info"}' > "$room/lines"
    printf ' INFO\n' > "$room/want"
    run "$room/lines"
    count 'on a level in small letters' want "ttree: line 4: $level, found \"info\"" 1
    printf '%s\n' '{}' '{"call":"event"}' > "$room/lines"
    run --from lines "$room/lines"
    count 'on a call without a level' none "ttree: line 2: $level" 1
    printf '%s\n' '{}' '{"call":"fork\u001b[2J"}' > "$room/lines"
    run --from lines "$room/lines"
    count 'on a call of another name' none "ttree: line 2: $name, found \"fork\\u{1b}[2J\"" 1
    printf '%s\n' '{}' "{\"call\":\"$(printf 'x%.0s' {1..80})\"}" > "$room/lines"
    run --from lines "$room/lines"
    count 'on a long name of a call' none "ttree: line 2: $name, found \"$(printf 'x%.0s' {1..59})…" 1
    printf '%s\r\n' '{"indent_lines":true}' '{"call":"new","name":"a"}' > "$room/lines"
    printf '┐a \n' > "$room/want"
    run "$room/lines"
    count 'on calls that end as on Windows' want '' 0
    printf '{"indent_lines":true}\n{"call":"new","name":"a"}\n{"call":"ne' > "$room/lines"
    run "$room/lines"
    count 'on a call that is cut off' want 'ttree: line 3: expected a JSON object with a call' 1
    : > "$room/want"
    run --from lines "$room/none"
    count 'on an empty file with --from lines' want 'ttree: line 1: expected a JSON object with settings' 2
    printf '{"Actions":"x"}\n' > "$room/lines"
    passes_on 'an object that has other keys' "$room/lines"
    run --from lines "$room/lines"
    : > "$room/want"
    count 'with --from lines on an object that has other keys' want 'ttree: line 1: expected a JSON object with settings' 2
    echo 'INFO passed=0, failed=0, skipped=0, unfinished=0, packages=0, packages_failed=0' > "$room/want"
    run --from go-test "$room/lines"
    count 'with --from go-test on an object that has other keys' want 'ttree: line 1: "Action" must be a string, skipped
ttree: 1 line skipped' 1
    printf '[]\n' > "$room/lines"
    run --from go-test "$room/lines"
    count 'with --from go-test on an array' want 'ttree: line 1: "Action" must be a string, skipped
ttree: 1 line skipped' 1
}

# Counts the run on this input. None of its lines determines its format, so it is printed unchanged.
passes_on() {
    run "$2"
    cp "$2" "$room/want"
    count "on $1" want "ttree: no line determines the format; expected the output of go test -json, TAP, JUnit XML, the JSON of Rust's tracing-subscriber, JSON logs, OTLP as JSON, a Chrome trace, or settings and calls; --from names the format" 2
}

# Counts the run on this input. Standard input has its tree.
detects() {
    printf "$2" > "$room/lines"
    cat > "$room/want"
    run "$room/lines"
    count "on $1" want "${4-}" "${3-0}"
}

# Lines before a line that determines the format, and inputs without such a line.
run_detection() {
    local event='{"level":"INFO","fields":{"message":"x"},"target":"t"}\n'
    detects 'a line before tracing' "Starting\n$event" <<< $'INFO Starting\nINFO x'
    detects 'blank lines before tracing' "\n \t\r\n$event" <<< 'INFO x'
    detects 'a byte order mark' "\xef\xbb\xbf$event" <<< 'INFO x'
    detects 'an object of another format before tracing' "{\"a\":1}\n$event" 1 'ttree: line 1: "level" must be one of TRACE, DEBUG, INFO, WARN, ERROR, skipped
ttree: 1 line skipped' <<< 'INFO x'
    detects 'services of docker compose' 'Attaching to web-1\nweb-1  | {"level":"WARN","fields":{"message":"x"},"target":"t"}\ndb-1   | ready\n{"level":"INFO","fields":{"message":"a | b"},"target":"t"}\n' <<< $'INFO Attaching to web-1\nWARN x, prefix=web-1\nINFO ready, prefix=db-1\nINFO a | b'
    printf "Attaching to web-1\nweb-1  | $event" > "$room/lines"
    printf 'INFO Attaching to web-1\nINFO x, prefix=web-1\n' > "$room/want"
    run --from tracing "$room/lines"
    count 'on services of docker compose with --from' want '' 0
    detects 'a log with a target' '{"level":"INFO","msg":"x","target":"y"}\n' <<< 'INFO x, target=y'
    detects 'a log with fields beside its message' '{"level":"INFO","message":"x","fields":{"a":1}}\n' <<< 'INFO x, fields.a=1'
    detects 'pods of kubectl' '[pod/web/a] {"Action":"pass","Package":"p"}\n' <<< $'INFO pass p, prefix=pod/web/a\nINFO passed=0, failed=0, skipped=0, unfinished=0, packages=1, packages_failed=0'
    detects 'times before tracing' '2026-11-24T02:31:19Z {"level":"INFO","fields":{"message":"x"},"target":"t"}\nStarting up\n2026-11-24T02:31:20Z  up\n' <<< $'INFO x, prefix=2026-11-24T02:31:19Z\nINFO Starting up\nINFO  up, prefix=2026-11-24T02:31:20Z'
    detects 'a panic before a trace' 'panic: x\n[\n{"ph":"i","ts":1,"name":"a"}]' <<< $'ERROR panic: x\nINFO a'
    detects 'lines before settings' 'Starting\n\n{"indent_lines":true}\n{"call":"new","name":"a"}\n{"call":"ne' 1 'ttree: line 5: expected a JSON object with a call' <<< $'INFO Starting\n┐a '
    detects 'settings without a key' '{}\n\n{"call":"event","level":"INFO","fields":[["message","x"]]}\n' <<< ' INFO x'
    detects 'a call without settings' 'Starting\n{"call":"event","level":"INFO"}\n' 2 'ttree: line 2: expected a JSON object with settings' <<< 'INFO Starting'
    detects 'a mark before named lines' "\xef\xbb\xbf{\"indent_lines\":true}\n" < "$room/none"
    printf '\n \n' > "$room/lines"
    : > "$room/want"
    run "$room/lines"
    count 'on blank lines' want '' 0
    printf '=== RUN   TestA\n--- PASS: TestA (0.00s)\nPASS\nok  \tp\t0.002s' > "$room/lines"
    passes_on "Go's tests without -json" "$room/lines"
    printf '{}\n{ x }\n[info] a\n' > "$room/lines"
    passes_on 'lines that look like JSON' "$room/lines"
    yes '{"level":"info"}' | head -n 5000 > "$room/lines"
    passes_on 'many lines of another format' "$room/lines"
    { head -c 1100000 /dev/zero | tr '\0' x; printf '\n%b' "$event"; } > "$room/lines"
    passes_on 'a long line of another format' "$room/lines"
    printf '1..10 files\nok 3 files copied\n' > "$room/lines"
    passes_on 'lines that look like TAP' "$room/lines"
    detects 'a log whose first line is truncated' '{"level":"info","msg":"sta\n{"level":"info","msg":"up"}\n\n{"level":"warn","msg":"x"}\n' <<< $'INFO {"level":"info","msg":"sta\nINFO up\nWARN x'
    detects 'blank lines of services' 'web-1  | {"level":"WARN","fields":{"message":"x"},"target":"t"}\nweb-1  | \n \t\r\nweb-1  | up\n' <<< $'WARN x, prefix=web-1\nINFO up, prefix=web-1'
    { yes x | head -n 999; printf "$event"; } > "$room/lines"
    { yes 'INFO x' | head -n 1000; } > "$room/want"
    run "$room/lines"
    count 'on 999 lines before tracing' want '' 0
}

# Colours on a terminal, but not with NO_COLOR or on a terminal without colours. A terminal's lines
# end with a carriage return too.
run_terminal() {
    local input=$top/examples/go-test.jsonl
    local -x TERM=xterm
    expect "$input" 's/"span_retrace": true/"ansi": true, "span_retrace": true/'
    on_terminal "$input"
    count 'on a terminal' want '' 1
    expect "$input" 's/^//'
    NO_COLOR=1 on_terminal "$input"
    count 'on a terminal under NO_COLOR' want '' 1
    expect "$input" 's/"span_retrace": true/"ansi": true, "span_retrace": true/'
    NO_COLOR='' on_terminal "$input"
    count 'on a terminal under an empty NO_COLOR' want '' 1
    expect "$input" 's/^//'
    TERM=dumb on_terminal "$input"
    count 'on a terminal without colours' want '' 1
    on_terminal --color never "$input"
    count 'on a terminal with --color never' want '' 1
}

on_terminal() {
    timeout 120 python3 - "$ttree" "$@" > "$room/raw" 2> "$room/err" << 'END'
import os, pty, sys
sys.exit(os.waitstatus_to_exitcode(pty.spawn(sys.argv[1:])))
END
    status=$?
    tr -d '\r' < "$room/raw" > "$room/out"
}

run_faults() {
    : > "$room/want"
    run "$room/missing"
    count 'on a missing file' want 'ttree: No such file or directory (os error 2)' 2
    run "$room"
    count 'on a directory' want "ttree: $room: line 1: the input can't be read" 1
    gzip -c "$top/examples/go-test.jsonl" > "$room/packed"
    for word in --color=auto --from=chrome; do
        run "$word" "$room/packed"
        count "on a compressed file with $word" want 'ttree: the input is compressed with gzip; use zcat FILE | ttree' 2
    done
    timeout 120 "$ttree" "$top/examples/go-std.jsonl" > /dev/full 2> "$room/err"
    status=$?
    : > "$room/out"
    [ -s "$room/err" ] && [ "$status" = 1 ] && : > "$room/err"
    count 'on a full device' want '' 1
    for word in --amount=x --width=x --width=-1 --from=cargo --level=fatal --level=WARN --unknown; do
        run "$word"
        [ -s "$room/err" ] && : > "$room/err"
        count "with $word" want '' 2
    done
    for word in --help --version; do
        run "$word"
        [ -s "$room/out" ] && : > "$room/out"
        count "with $word" want '' 0
    done
}

run_samples
run_options
run_odd
run_left
run_newer
run_skipped
run_random
run_files
run_widths
run_closed
run_live
run_lines
run_terminal
run_faults
run_tracing
run_junit
run_tap
run_otlp
run_detection
run_odd_traces
echo "ttree: $right of $runs runs ended as they must"
[ "$right" = "$runs" ]
