# The runs of ttree on traces, for scripts/ttree.sh. Each tree was written by hand from
# docs/reference/formats.md.

# Counts the run with this name and these arguments on a trace. Standard input has the trace, a line
# `--` and its tree. The arguments end with `--`. After that come the status and the standard error.
trace_of() {
    local name=$1 words=()
    shift
    while [ $# -gt 0 ] && [ "$1" != -- ]; do
        words+=("$1")
        shift
    done
    cat > "$room/both"
    sed '/^--$/,$d' "$room/both" > "$room/trace"
    sed '1,/^--$/d' "$room/both" > "$room/want"
    run "${words[@]}" "$room/trace"
    count "$name" want "${3-}" "${2-0}"
}

# Traces that end early, unknown elements, and inputs that aren't traces.
run_odd_traces() {
    trace_of 'on a list that ends early' << 'END'
[{"ph":"i","ts":0,"name":"only"},
--
INFO only
END
    trace_of 'on an object that ends in an element' -- 1 'ttree: element 2: not a JSON object, skipped
ttree: 1 element skipped' << 'END'
{"displayTimeUnit":"ms","traceEvents":[{"ph":"X","ts":1,"dur":1,"name":"]}\"{"},{"ph":"X","ts":
--
INFO ]}"{, time=1.000μs
END
    trace_of 'on an object with more than its list' -- 1 'ttree: element 2: not a JSON object, skipped
ttree: 1 element skipped' << 'END'
{"otherData":{"x":[{"ph":"i","ts":0,"name":"other"}]},"traceEvents":[{"ph":"i","ts":0,"name":"mine"}],"last":{"y":
--
INFO mine
END
    trace_of 'on a comma after the last element' << 'END'
[{"ph":"i","ts":0,"name":"a"},]
--
INFO a
END
    trace_of 'on what is no JSON after the list' -- 1 'ttree: element 2: not a JSON object, skipped
ttree: 1 element skipped' << 'END'
{"traceEvents":[{"ph":"i","ts":0,"name":"a"}],"x":NaN}
--
INFO a
END
    printf '[{"ph":"i","ts":0,"name":"a"},{"ph":"i","ts":1,"name":"\303' > "$room/bytes"
    echo 'INFO a' > "$room/want"
    run "$room/bytes"
    count 'on a trace that ends in a character' want 'ttree: element 2: not a JSON object, skipped
ttree: 1 element skipped' 1
    trace_of 'on a large number of a thread' << 'END'
[{"ph":"X","tid":18446744073709551615,"ts":0,"dur":1,"name":"a"},{"ph":"X","tid":-1,"ts":0,"dur":1,"name":"b"}]
--
┐thread tid=-1
├─ INFO b, time=1.000μs
┘
┐thread tid=18446744073709551615
├─ INFO a, time=1.000μs
┘
END
    printf '[build] started\n{"Action":"fail","Package":"p"}\n' > "$room/banner"
    expect "$room/banner" 's/^//'
    run "$room/banner"
    count 'on a word in brackets before the lines of a test' want '' 1
    local unknown='[1,{"ph":"X","ts":1},{"ph":"B","ts":"1"},{"ph":"B","ts":1e99},{"ph":"i","ts":1,"pid":[]},{"ph":"i","ts":1,"tid":1.5},
{"ph":"C","ts":"anything"},{"ph":"i","ts":0,"name":"kept"}]'
    trace_of 'on elements that say nothing' --from chrome -- 1 'ttree: element 1: "ph" must be a string, skipped
ttree: element 2: "dur" must be a number of microseconds, skipped
ttree: element 3: "ts" must be a number of microseconds, skipped
ttree: element 4: "ts" must be a number of microseconds, skipped
ttree: element 5: "pid" must be a whole number, skipped
ttree: element 6: "tid" must be a whole number, skipped
ttree: 6 elements skipped
ttree: 1 counter, flow or other element has no row' << END
$unknown
--
INFO kept
END
    trace_of 'with --strict on a trace' --from chrome --strict -- 1 'ttree: element 1: "ph" must be a string' < <(echo "$unknown"; echo --)
    local number notes=''
    for number in {1..10}; do
        notes+="ttree: element $number: \"ph\" must be a string, skipped"$'\n'
    done
    trace_of 'on twelve elements that say nothing' --from chrome -- 1 "${notes}ttree: 12 elements skipped" < <(printf '[%s]\n--\n' "$(printf '0,%.0s' {1..11})0")
    local none='ttree: not a trace: expected an array, or an object with an array at "traceEvents"'
    trace_of 'on an object that is no trace' --from chrome -- 1 "$none" < <(printf '{"a":1}\n--\n')
    trace_of 'on a text that is no trace' --from chrome -- 1 "$none" < <(printf '"x"\n--\n')
    trace_of 'on a list that is no JSON' --from chrome -- 1 "$none" < <(printf '[{"ph":"i","ts":0,"name":"a"},,{}]\n--\n')
    printf '[{"ph":"i","ts":0,"name":"a"},,{}]' > "$room/list"
    trace_of 'on a list that only looks like a trace' -- 1 "$none" < <(cat "$room/list"; printf '\n--\n'; cat "$room/list"; echo)
    trace_of 'on nothing as a trace' --from chrome -- 1 "$none" < <(printf -- '--\n')
    trace_of 'on a list that just began' < <(printf '[\n--\n')
    printf '[{"ph":"i","ts":0,"name":"\377"}]' > "$room/bytes"
    : > "$room/want"
    run "$room/bytes"
    count 'on a trace that is not UTF-8' want 'ttree: not UTF-8' 1
    many_spans "$long_spans"
}

# Runs this number of spans: side by side with the last one first, and nested in one another.
many_spans() {
    python3 -c 'print("[" + ",".join("{\"ph\":\"X\",\"ts\":%d,\"dur\":1,\"name\":\"s\"}" % (n * 2) for n in reversed(range('"$1"'))) + "]")' > "$room/wide"
    python3 -c 'print("INFO s, time=1.000μs\n" * '"$1"', end="")' > "$room/want"
    run "$room/wide"
    count 'on many spans side by side' want '' 0
    python3 -c 'print("[" + ",".join("{\"ph\":\"B\",\"ts\":%d,\"name\":\"s\"}" % n for n in range('"$1"')) + "]")' > "$room/deep"
    printf '┐s \n└─┐s \n  ├─ INFO left out, spans=%d, time=0.000μs\n┌─┘\n┘\n' "$(($1 - 2))" > "$room/want"
    run --depth 2 "$room/deep"
    count 'on many spans in one another' want '' 0
}

