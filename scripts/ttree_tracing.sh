# The runs of ttree on lines of Rust's tracing, for scripts/ttree.sh. Each tree was written by hand
# from docs/reference/formats.md.

# Counts the run with this name on lines. Standard input has the lines, a line `--` and their tree.
# The other arguments are the status and the standard error.
lines_of() {
    cat > "$room/both"
    sed '/^--$/,$d' "$room/both" > "$room/tracing"
    sed '1,/^--$/d' "$room/both" > "$room/want"
    run "$room/tracing"
    count "$1" want "${3-}" "${2-0}"
}

# Values, and lines that can't be read.
run_tracing_lines() {
    lines_of 'on values of tracing' << 'END_OF_LINES'
{"level":"TRACE","fields":{"message":"a\u001b[31m","text":"b c","n":-1.50,"yes":true,"no":false,"none":null,"some":[1],"more":{"x":1}},"target":"t"}
{"timestamp":"never","level":"WARN","code":7,"target":"t","filename":"a.rs","line_number":3,"threadName":"main"}
--
TRACE a\u{1b}[31m, text=b c, n=-1.50, yes=true, no=false, none=null, some=[1], more={"x":1}
WARN code=7
END_OF_LINES
    lines_of 'on lines of tracing that are cut off or lack a level' 1 'ttree: line 2: "level" must be one of TRACE, DEBUG, INFO, WARN, ERROR, skipped
ttree: line 4: "level" must be one of TRACE, DEBUG, INFO, WARN, ERROR, found "info", skipped
ttree: 2 lines skipped' << 'END_OF_LINES'
{"level":"INFO","fields":{"message":"a"},"target":"t","spans":[{"name":"s"}]}
{"fields":{"message":"b"},"target":"t"}
loading plugins
{"level":"info","fields":{"message":"c"},"target":"t"}
{"level":"INFO","fields":{"mess
--
┐s 
├─ INFO a
├─ INFO loading plugins
├─ INFO {"level":"INFO","fields":{"mess
END_OF_LINES
    lines_of 'on plain lines among those of tracing' << 'END_OF_LINES'
{"level":"INFO","fields":{"message":"new"},"target":"t","span":{"name":"s"},"spans":[]}
{"level":"INFO","fields":{"message":"a"},"target":"t","span":{"name":"s"},"spans":[{"name":"s"}]}
thread 'main' panicked at src/main.rs:2:5:
	index out of bounds
{"level":"INFO","fields":{"message":"close"},"target":"t","span":{"name":"s"},"spans":[]}
goroutine 1 [running]:
goroutine leak
panic: boom
fatal error: all goroutines are asleep
Traceback (most recent call last):
Exception in thread "main" java.lang.Error
17
--
┐s 
├─ INFO a
├─ ERROR thread 'main' panicked at src/main.rs:2:5:
├─ INFO 	index out of bounds
┘
ERROR goroutine 1 [running]:
INFO goroutine leak
ERROR panic: boom
ERROR fatal error: all goroutines are asleep
ERROR Traceback (most recent call last):
ERROR Exception in thread "main" java.lang.Error
INFO 17
END_OF_LINES
    sed 's/$/\r/' "$top/examples/tracing-full.jsonl" > "$room/crlf"
    run --from tracing "$top/examples/tracing-full.jsonl"
    mv "$room/out" "$room/want"
    run "$room/crlf"
    count 'on lines of tracing that end as on Windows' want '' 0
    printf '{"fields":{"message":"a"}}\n' > "$room/part"
    : > "$room/want"
    run --from tracing "$room/part"
    count 'with --from tracing' want 'ttree: line 1: "level" must be one of TRACE, DEBUG, INFO, WARN, ERROR, skipped
ttree: 1 line skipped' 1
    printf '{"level":"INFO","text":"a"}\n' > "$room/part"
    passes_on 'an object with a level only' "$room/part"
}

run_tracing() {
    run_tracing_lines
}
