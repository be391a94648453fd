# Steps of a test in bash, which test.sh and scripts/dist_test.sh source. The caller sets `suite`,
# which begins each message, and `room`, a folder for what the steps write. `passed` and `failed`
# count.
passed=0
failed=0

has() { command -v "$1" > /dev/null; }

left_out() { echo "$suite: left out: $*"; }

# Counts a step that failed, and shows the end of what it said: fails NAME
fails() {
    failed=$((failed + 1))
    echo "$suite: FAILED: $1"
    tail -n 20 "$room/log"
}

# Runs a command that must succeed: step NAME COMMAND..
step() {
    local name=$1
    shift
    if "$@" > "$room/log" 2>&1; then passed=$((passed + 1)); else fails "$name"; fi
}

# Runs a command that must fail and print this pattern: refuses NAME TEXT COMMAND..
refuses() {
    local name=$1 text=$2
    shift 2
    step "$name" bash -c 'text=$1; shift; ! "$@" > "$0" 2>&1 && grep -q "$text" "$0"' \
        "$room/told" "$text" "$@"
}

# Runs a command whose last line is how many checks passed and failed: counts NAME COMMAND..
counts() {
    local name=$1 good bad
    shift
    if "$@" > "$room/log" 2>&1 && read -r good bad < <(tail -n 1 "$room/log") &&
        [ "$((good + bad))" -gt 0 ]; then
        head -n -1 "$room/log"
        passed=$((passed + good))
        failed=$((failed + bad))
    else
        fails "$name"
    fi
}

# Compares what a command prints with a file: prints FILE COMMAND..
prints() {
    local file=$1
    shift
    "$@" > "$room/printed" && cmp "$room/printed" "$file"
}

# Runs tests whose output has a line for each that passed, or for several. PATTERN is sed's, and
# prints how many passed: tested NAME PATTERN COMMAND..
tested() {
    local name=$1 pattern=$2 good sum=0
    shift 2
    if "$@" > "$room/log" 2>&1; then
        for good in $(sed -n "$pattern" "$room/log"); do sum=$((sum + good)); done
        if [ "$sum" -gt 0 ]; then passed=$((passed + sum)); else fails "$name: no test ran"; fi
    else
        fails "$name"
    fi
}

# Tests the Go package in this folder: test_go FOLDER SERVER.OUT
test_go() {
    if ! has go; then
        left_out "the Go package, since go isn't there"
        return
    fi
    local go=(env -C "$1" GOCACHE="$room/go" GOTOOLCHAIN=local CC="${CC:-cc}" go)
    "${go[@]}" list -f '{{.GoFiles}}' . | grep -q slog.go ||
        left_out "the handler for log/slog, since $(go env GOVERSION) is older than Go 1.21"
    step "vet of the Go package" "${go[@]}" vet ./...
    refuses "the Go package without cgo" needsACCompilerAndCGO_ENABLED \
        env CGO_ENABLED=0 "${go[@]}" build -o "$room/none" ./server
    tested "tests of the Go package" 's/^--- PASS.*/1/p' "${go[@]}" test -count=1 -v .
    step "the example in Go" "${go[@]}" build -o "$room/server_go" ./server
    step "what the example in Go draws" prints "$2" "$room/server_go"
}

# Returns whether the Rust crate can be tested over Debian's packages, or says that it is left out.
can_test_rust() {
    local crates=/usr/share/cargo/registry
    if ! has cargo; then
        left_out "the Rust crate, since cargo isn't there"
        return 1
    fi
    if ! compgen -G "$crates/tracing-0.1*" > /dev/null ||
        ! compgen -G "$crates/tracing-subscriber-0.3*" > /dev/null; then
        left_out "the Rust crate, since Debian's librust-tracing-dev and" \
            "librust-tracing-subscriber-dev aren't there"
        return 1
    fi
}
