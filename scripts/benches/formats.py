"""Times ttree on made-up input of each format, beside other tools that read the same file.

Each input has the same size. A row is the best of three runs: seconds, MB per second and peak
memory of ttree, then seconds of the other tool if it is installed, and how many times as long it
takes. Asserts nothing. The inputs are the same each time. The smallest peak that can be shown is
Python's own, about 14 MB."""
import json, os, shutil, subprocess, tempfile, time

ROUNDS = 3
START = 1_800_000_000


def stamp(count):
    """The time of the row with this number, 50 microseconds after the one before."""
    at = START + count // 20_000
    return time.strftime("%Y-%m-%dT%H:%M:%S", time.gmtime(at)) + f".{count % 20_000 * 50_000:09d}Z"


def compact(value):
    return json.dumps(value, separators=(",", ":"))


def go_test():
    """Tests with two subtests of five lines each, a package of 100 tests after the other."""
    count, package = 0, 0

    def line(action, test=None, **more):
        nonlocal count
        count += 1
        named = {"Test": test} if test else {}
        return compact({"Time": stamp(count), "Action": action, "Package": f"example.com/shop/p{package}", **named, **more})

    while True:
        package += 1
        yield line("start")
        for number in range(100):
            for name in (f"TestOrder{number}", f"TestOrder{number}/small", f"TestOrder{number}/large"):
                yield line("run", name)
                yield line("output", name, Output=f"=== RUN   {name}\n")
                for step in range(5):
                    yield line("output", name, Output=f"    order_test.go:{step + 10}: step {step} of {number}\n")
            for name in (f"TestOrder{number}/small", f"TestOrder{number}/large", f"TestOrder{number}"):
                yield line("output", name, Output=f"--- PASS: {name} (0.01s)\n")
                yield line("pass", name, Elapsed=0.01)
        yield line("output", Output="PASS\n")
        yield line("pass", Elapsed=1.25)


def tracing():
    """Requests of a service: two spans, four events and a close each."""
    count = 0
    while True:
        request = {"method": "GET", "uri": f"/orders/{count}", "name": "request"}
        query = {"sql": "select * from orders", "name": "query"}
        for spans in ([request], [request, query], [request, query], [request]):
            count += 1
            yield compact({"timestamp": stamp(count), "level": "INFO", "fields": {"message": "fetched", "rows": count % 7},
                           "target": "shop::orders", "span": spans[-1], "spans": spans})


def logs():
    """Lines of a service's log, by request."""
    count = 0
    while True:
        count += 1
        yield compact({"time": stamp(count), "level": "INFO", "msg": "order stored", "trace_id": f"{count // 8:032x}",
                       "order": count, "customer": f"c-{count % 97}"})


def otlp():
    """Traces of five spans of two services, a line for each trace."""
    count = 0
    while True:
        count += 1
        spans = []
        for number in range(5):
            start = START * 10**9 + count * 10**6 + number * 10**5
            spans.append({
                "traceId": f"{count:032x}", "spanId": f"{count * 8 + number:016x}",
                "parentSpanId": f"{count * 8 + number - 1:016x}" if number else "", "name": f"step {number}", "kind": 1,
                "startTimeUnixNano": str(start), "endTimeUnixNano": str(start + 10**6 - number * 10**5 * 2),
                "attributes": [{"key": "order", "value": {"intValue": str(count)}},
                               {"key": "http.route", "value": {"stringValue": "/orders"}}], "status": {}})
        service = [{"key": "service.name", "value": {"stringValue": f"service-{count % 2}"}}]
        yield compact({"resourceSpans": [{"resource": {"attributes": service}, "scopeSpans": [{"spans": spans}]}]})


def chrome():
    """Complete spans on one thread, nested three deep."""
    yield "["
    count = 0
    while True:
        count += 1
        depth = count % 3
        element = {"name": f"Frontend {count % 50}", "ph": "X", "pid": 1, "tid": 1, "ts": count // 3 * 300 + depth * 50,
                   "dur": 290 - depth * 100}
        yield compact(element) + ","


def junit():
    """Suites of 100 cases. Every 50th case fails."""
    yield "<testsuites>"
    suite = 0
    while True:
        suite += 1
        yield f'<testsuite name="suite {suite}" tests="100">'
        for case in range(100):
            yield f'<testcase classname="shop.Orders{suite}" name="case {case} &lt;small&gt;" time="0.0{case:02d}">'
            if case % 50 == 0:
                yield '<failure message="expected 1">expected 1,\n  got 2 &amp; more</failure>'
            yield "<system-out>stored an order</system-out></testcase>"
        yield "</testsuite>"


def tap():
    """Results with a comment each, one in 20 of them with a block."""
    yield "TAP version 13"
    count = 0
    while True:
        count += 1
        yield f"# order {count}"
        yield f"{'not ok' if count % 20 == 0 else 'ok'} {count} - stores order {count}"
        if count % 20 == 0:
            yield "  ---\n  message: 'expected 1'\n  duration_ms: 0.25\n  ..."


# Each format: its lines, those at the end, and another tool with its arguments.
FORMATS = {
    "go-test": (go_test, "", ["gotestsum", "--format", "testname", "--raw-command", "cat"]),
    "tracing": (tracing, "", ["jq", "-c", "."]),
    "logs": (logs, "", ["jq", "-c", "."]),
    "otlp": (otlp, "", ["jq", "-c", "."]),
    "chrome": (chrome, '{"name":"last","ph":"i","pid":1,"tid":1,"ts":0}]\n', ["jq", "-c", "."]),
    "junit": (junit, "</testsuite></testsuites>\n", ["xmllint", "--huge", "--noout"]),
    "tap": (tap, "", None),
}


def written(path, lines, last, size):
    """Writes lines until they have this size. What stays open in a suite of JUnit XML is closed."""
    done = 0
    with open(path, "w", encoding="utf-8") as file:
        for line in lines():
            if done >= size and (lines is not junit or line == "</testsuite>"):
                break
            done += file.write(line + "\n")
        file.write(last)
    return os.path.getsize(path)


def timed(command):
    """The seconds and the peak memory in MB of the fastest of some runs."""
    best = None
    for _ in range(ROUNDS):
        with open(os.devnull, "wb") as nowhere:
            start = time.monotonic()
            child = subprocess.Popen(command, stdout=nowhere, stderr=nowhere)
            _, _, used = os.wait4(child.pid, 0)
            took = time.monotonic() - start
        best = min(best or (took, used.ru_maxrss / 1024), (took, used.ru_maxrss / 1024))
    return best


def main(ttree, megabytes=20, names=FORMATS):
    print("| Format | MB | ttree, s | MB/s | Peak, MB | Beside it | s | Times ttree |")
    print("|---|---|---|---|---|---|---|---|")
    with tempfile.TemporaryDirectory(prefix="bench-") as room:
        for name in names:
            lines, last, other = FORMATS[name]
            path = f"{room}/{name}"
            size = written(path, lines, last, megabytes * 10**6) / 10**6
            took, peak = timed([ttree, "--from", name, path])
            row = f"| {name} | {size:.0f} | {took:.2f} | {size / took:.0f} | {peak:.0f} |"
            if not other:
                row += " | | |"
            elif not shutil.which(other[0]):
                row += f" {other[0]} isn't installed | | |"
            else:
                beside, _ = timed([*other, path])
                row += f" `{' '.join(other[:2])}` | {beside:.2f} | {beside / took:.1f} |"
            print(row, flush=True)
            os.remove(path)
