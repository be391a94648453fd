# The runs of ttree on TAP, for scripts/ttree.sh. The trees were written by hand from
# docs/reference/formats.md.

# Control characters in the input are never written.
run_tap_hostile() {
    printf 'ok 1 - a\033[31m\n# b\033c\nnot ok 2 - d\302\233 # TODO e\007\n  ---\n  f\033: 1\n  ...\n# Subtest: \033g\n    ok 1\nok 3 - \033g\n1..3\n' > "$room/tap"
    printf '%s\n' 'INFO pass a\u{1b}[31m' 'INFO b\u{1b}c' '┐d\u{9b} ' '├─ INFO f\u{1b}: 1' '├─ WARN todo, reason=e\u{7}' '┘' '┐\u{1b}g ' '├─ INFO pass 1' '├─ INFO pass' '┘' \
        'INFO passed=3, failed=0, skipped=0, todo=1' > "$room/want"
    run "$room/tap"
    count 'on TAP with control characters' want '' 0
    printf '1..3\nok 1 - a\nok 2 - \377\nok 3 - c\n' > "$room/tap"
    printf '%s\n' 'INFO pass a' 'ERROR missing 2' 'INFO pass c' 'ERROR planned 3, ran 2' 'ERROR passed=2, failed=0, skipped=0, todo=0' > "$room/want"
    run "$room/tap"
    count 'on TAP with a line that is not UTF-8' want "ttree: line 3: not UTF-8, skipped
ttree: 1 line skipped" 1
    python3 -c 'print("ok 1 - " + " #" * 200000 + "\n" + " " * 400000 + "ok 2\n# " + "\\" * 200001)' > "$room/tap"
    run --width 0 "$room/tap"
    cp "$room/out" "$room/want"
    count 'on long lines of TAP' want '' 1
}

run_tap() {
    run_tap_hostile
}
