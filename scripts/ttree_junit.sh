# The runs of ttree on JUnit XML, for scripts/ttree.sh. The trees were written by hand from
# docs/reference/formats.md.

# Counts the run with this name on a document. Standard input has the document, a line `--` and its
# tree. The other arguments are the status, the standard error, and options.
junit_of() {
    cat > "$room/both"
    sed '/^--$/,$d' "$room/both" > "$room/junit"
    sed '1,/^--$/d' "$room/both" > "$room/want"
    run --from junit "${@:4}" "$room/junit"
    count "$1" want "${3-}" "${2-0}"
}

# Counts the run on a sample. Its tree is in scripts/junit.
junit_sample() {
    cp "$top/scripts/junit/$1.tree" "$room/want"
    run "$top/examples/$1"
    count "on $1" want '' 1
}

run_junit_samples() {
    junit_sample junit-pytest.xml
    junit_sample junit-node.xml
    junit_sample junit-ctest.xml
    junit_sample junit-gotestsum.xml
}

# Only what failed.
run_junit_failed() {
    junit_of 'on JUnit XML with --failed' 1 '' --failed << 'END_OF_RUN'
first <line>
<testsuites>
<testsuite name="passes" time="1"><properties><property name="p" value="1"/></properties><testcase name="a" classname="C"/><system-out>quiet</system-out></testsuite>
<testsuite name="fails" time="2">
  <testsuite name="inner passes" time="3"><testcase name="b"/></testsuite>
  <testcase name="c" classname="D"/>
  <testcase name="d" classname="D"><failure message="no"/><system-out>printed</system-out></testcase>
  <testcase name="e" classname="E"><skipped/></testcase>
  <testcase name="f" classname="D"><error/></testcase>
  <system-out>loud</system-out>
</testsuite>
<testsuite name="no setup"><error message="broken"/></testsuite>
<testcase name="g"/>
</testsuites>
--
INFO first <line>
┐fails 
└─┐D 
  └─┐d 
    ├─ ERROR no
    ├─ INFO printed
    ├─ ERROR fail
  ┌─┘
  └─┐f 
    ├─ ERROR error
    ├─ ERROR fail
  ┌─┘
┌─┘
├─ INFO loud
├─ INFO end, time=2.000s
┘
┐no setup 
├─ ERROR broken
┘
ERROR passed=4, failed=3, skipped=1
END_OF_RUN
    junit_of 'on a truncated document with --failed' 1 'ttree: the document ends early' --failed << 'END_OF_RUN'
<testsuite name="a"><testsuite name="b"><testcase name="x"><failure/></testcase></testsuite><testsuite name="c"><system-out>d</system-out><testcase name="y"/>
--
┐a 
└─┐b 
  └─┐x 
    ├─ ERROR failure
    ├─ ERROR fail
  ┌─┘
┌─┘
┘
ERROR passed=1, failed=1, skipped=0
END_OF_RUN
    run --failed --json --from junit "$room/junit"
    grep -c '"step":"new"' "$room/out" > "$room/found"
    cp "$room/found" "$room/out"
    printf '3\n' > "$room/want"
    count 'on the spans of JUnit XML with --failed and --json' want 'ttree: the document ends early' 1
}

# Long documents and deep ones.
run_junit_long() {
    { printf '<testsuite name="a"><testcase name="x"'; for at in $(seq 100000); do printf ' a%d="b"' "$at"; done; printf '/></testsuite>\n'; } > "$room/long"
    printf '┐a \n├─ INFO pass x\n┘\nINFO passed=1, failed=0, skipped=0\n' > "$room/want"
    run --from junit "$room/long"
    count 'on an element with 100,000 attributes' want '' 0
    { printf '<testsuites>'; printf '<a>%.0s' $(seq 10000); printf '<testsuite name="a"><testcase name="x"/></testsuite>'; printf '</a>%.0s' $(seq 10001); } > "$room/deep"
    run --from junit "$room/deep"
    count 'on 10,000 elements in one another' want '' 0
    { printf '<testsuite name="a"><testcase name="x"><system-out>\n'; head -c 300000 /dev/zero | tr '\0' '&'; printf '</system-out></testcase></testsuite>\n'; } > "$room/amps"
    run --from junit "$room/amps"
    [ "$(wc -c < "$room/out")" -gt 300000 ] && cp "$room/out" "$room/want"
    count 'on 300,000 ampersands' want '' 0
}

run_junit() {
    run_junit_samples
    run_junit_failed
    run_junit_long
}
