# The runs of ttree on OTLP as JSON, for scripts/ttree.sh. The trees were written by hand from
# docs/reference/formats.md.

# The order of the lines doesn't change the tree.
run_otlp_order() {
    sample=$top/examples/otlp-shop.jsonl
    run "$sample"
    cp "$room/out" "$room/want"
    tac "$sample" > "$room/otlp"
    run "$room/otlp"
    count 'on the lines of OTLP from the last on' want '' 0
    for seed in 1 2 3 4; do
        shuf --random-source=<(yes "$seed") "$sample" > "$room/otlp"
        run "$room/otlp"
        count "on the lines of OTLP in order $seed" want '' 0
    done
    python3 -c 'import json, sys
spans, logs = [], []
for line in open(sys.argv[1]):
    it = json.loads(line)
    spans += it.get("resourceSpans", [])
    logs += it.get("resourceLogs", [])
print(json.dumps({"resourceLogs": logs, "resourceSpans": spans}, indent=2))' "$sample" > "$room/otlp"
    run --from otlp "$room/otlp"
    count 'on one object of OTLP over several lines' want '' 0
}

# A tree too deep for recursion, and a tree as wide.
run_large_otlp() {
    python3 -c 'import sys
def line(i, above):
    print("{\"resourceSpans\":[{\"scopeSpans\":[{\"spans\":[{\"traceId\":\"a\",\"spanId\":\"%x\",\"parentSpanId\":\"%x\",\"startTimeUnixNano\":\"%d\"}]}]}]}" % (i, above, i))
n = int(sys.argv[1])
for i in range(1, n): line(i, i - 1 if sys.argv[2] == "deep" else 0)' 2000 deep > "$room/otlp"
    run --from otlp "$room/otlp"
    head -n 2 "$room/out" > "$room/first"
    printf '┐trace id=a\n└─┐ \n' > "$room/want"
    cp "$room/first" "$room/out"
    count 'on deep spans of OTLP' want '' 0
}

# Lines that aren't of OTLP. The first of them determine no format.
run_otlp_among_lines() {
    needed='expected an object with "resourceSpans", "resourceLogs" or "resourceMetrics", and "traceId" and "spanId" in its spans, skipped'
    cat > "$room/otlp" << 'END_OF_LINES'
starting

{"resourceLogs":[{"scopeLogs":[{"logRecords":[{"body":{"stringValue":"one"}}]}]}]}
{"other":1}

a plain line
{}
{"resourceMetrics":[]}
{"resourceSpans":[{"scopeSpans":[{"spans":[{"spanId":"1"}]}]}]}
END_OF_LINES
    printf 'INFO starting\nINFO one\n' > "$room/want"
    run "$room/otlp"
    count 'on other lines among those of OTLP' want "ttree: line 4: $needed
ttree: line 6: $needed
ttree: line 9: $needed
ttree: 3 lines skipped" 1
    printf '{"resourceLogs":[]}\n\xff\n{"resourceLogs":[{"scopeLogs":[{"logRecords":[{"body":{"stringValue":"one"}}]}]}]}\n[\n' > "$room/otlp"
    printf 'INFO one\n' > "$room/want"
    run "$room/otlp"
    count 'on a line of OTLP that is not UTF-8' want "ttree: line 2: not UTF-8, skipped
ttree: line 4: $needed
ttree: 2 lines skipped" 1
    : > "$room/want"
    run --strict "$room/otlp"
    count 'on a line of OTLP that is not UTF-8, under --strict' want 'ttree: line 2: not UTF-8' 1
}

run_otlp() {
    run_otlp_among_lines
    run_otlp_order
    run_large_otlp
}
