"""What the tests open: calls, pages of them, and a server that sends a page in parts."""
import http.server, io, random, threading
import build, pages

SECOND = 10 ** 9
# The time from one job to the next.
STEP = 1_000_000
HOSTILE = ["</script><script>alert(1)</script>", "</xmp><script>alert(2)</script>", "</XMP >", "<!--", "<!--<script>", "<script", "</SCRIPT >", "]]>", "&lt;b&gt;", "<img src=x onerror=alert(1)>", "\u2028\u2029", "\x1b[31mred\x1b[0m", "a\0b", "\ufeffx",
           "\u202egnp.exe", "'\"`\\", "\\u003c", "${alert(1)}", "javascript:alert(1)", "[5]\n</script>", "é→𝄞\U0010ffff", "\r\n", "\ud7ff\ue000", "__proto__", "constructor", "{{script}}", "</plaintext></template></style>"]


def page_of(calls, title="test", end=True):
    out = io.BytesIO()
    if end:
        pages.write_page(out, title, calls)
        return out.getvalue()
    out.write(build.head().encode() + pages.about(title))
    calls(pages.Calls(out.write).take)
    return out.getvalue()


def hostile(take):
    for at, text in enumerate(HOSTILE):
        take({"call": "new", "name": text, "target": text, "fields": [[text, text], ["message", text]], "thread_name": text, "mono": at})
        take({"call": "event", "level": "WARN", "target": text, "fields": [["message", text], [text, text]], "current": at + 1, "mono": at})
        take({"call": "record", "id": at + 1, "fields": [["late", text]]})
    long = "x" * 300_000
    take({"call": "new", "name": long, "fields": [[long, long]]})
    take({"call": "new", "name": "", "fields": [["", ""]]})


def deep(take, depth=10_000):
    for at in range(depth):
        take({"call": "new", "name": f"level{at}", "current": at or None, "mono": at * 1000})
    take({"call": "event", "level": "ERROR", "fields": [["message", "bottom"]], "current": depth, "mono": depth * 1000})
    for at in range(depth, 0, -1):
        take({"call": "close", "id": at, "mono": (2 * depth - at) * 1000})


def wide(take, children=100_000):
    take({"call": "new", "name": "root", "mono": 0})
    for at in range(children):
        take({"call": "new", "name": f"child{at}", "current": 1, "mono": at * 1000})
        take({"call": "close", "id": at + 2, "mono": at * 1000 + 700})
    take({"call": "close", "id": 1, "mono": children * 1000})


def service(take, calls, failures=7):
    """Makes the calls of a service: requests on four threads with queries in them. There are about
    `calls` calls."""
    draw, now, made, span = random.Random(7), 1_795_832_513 * SECOND, 1, 1
    def at(thread=1):
        nonlocal now
        now += draw.randrange(2_000, 90_000)
        return {"mono": now, "wall": now, "thread": thread, "thread_name": f"worker-{thread}"}
    take({"call": "new", "name": "service", "fields": [["port", "8080"]], **at()})
    bad = {int(calls * (it + 0.5) / failures) for it in range(failures)}
    while made < calls - 8:
        thread, request = draw.randrange(1, 5), span + 1
        take({"call": "new", "name": "request", "target": "web::server", "fields": [["id", str(request)], ["path", f"/item/{draw.randrange(1000)}"]], "current": 1, **at(thread)})
        take({"call": "event", "level": "INFO", "target": "web::server", "fields": [["message", "request received"]], "current": request, **at(thread)})
        take({"call": "new", "name": "query", "target": "web::store", "fields": [["sql", "select * from items where id = ?"]], "current": request, **at(thread)})
        take({"call": "event", "level": "DEBUG", "target": "web::store", "fields": [["message", "rows read"], ["rows", str(draw.randrange(500))]], "current": request + 1, **at(thread)})
        if bad and made >= min(bad):
            bad.remove(min(bad))
            take({"call": "event", "level": "ERROR", "target": "web::store", "fields": [["message", "connection lost"], ["attempt", "3"]], "current": request + 1, **at(thread)})
            made += 1
        take({"call": "close", "id": request + 1, **at(thread)})
        if draw.random() < 0.02:
            take({"call": "event", "level": "WARN", "target": "web::server", "fields": [["message", "slow answer"], ["ms", "271"]], "current": request, **at(thread)})
            made += 1
        take({"call": "event", "level": "INFO", "target": "web::server", "fields": [["message", "request served"], ["status", "200"]], "current": request, **at(thread)})
        take({"call": "close", "id": request, **at(thread)})
        span, made = span + 2, made + 7
    take({"call": "close", "id": 1, **at()})


def parts_of(title):
    """Starts a page that is sent in parts: a span with a span and five events in it. Returns the
    list of the parts, a function that takes a call, and another that ends a part."""
    parts, out = [], io.BytesIO()
    take = pages.Calls(out.write).take

    def cut(end=b""):
        parts.append(out.getvalue() + end)
        out.seek(0), out.truncate()

    out.write(build.head().encode() + pages.about(title))
    take({"call": "new", "name": "root", "mono": 0})
    take({"call": "new", "name": "early", "current": 1, "mono": 10})
    for at in range(5):
        take({"call": "event", "level": "INFO", "fields": [["message", f"first {at}"]], "current": 2, "mono": 20 + at})
    return parts, take, cut


def jobs(take, numbers):
    """Makes spans in the first one, with an event in each."""
    for at in numbers:
        take({"call": "new", "name": f"job{at}", "current": 1, "mono": at * STEP})
        take({"call": "event", "level": "INFO", "fields": [["message", f"note {at}"]], "current": at + 3, "mono": at * STEP + 10})
        take({"call": "close", "id": at + 3, "mono": at * STEP + STEP // 2})


class SlowServer:
    """Serves a page in parts. The test says when each is sent."""

    def __init__(self, parts):
        turns = self.turns = [threading.Event() for _ in parts]

        class Handler(http.server.BaseHTTPRequestHandler):
            def do_GET(self):
                self.send_response(200)
                self.send_header("Content-Type", "text/html")
                self.end_headers()
                for turn, part in zip(turns, parts):
                    turn.wait(60)
                    self.wfile.write(part)

            def log_message(self, *_):
                pass

        self.server = http.server.ThreadingHTTPServer(("127.0.0.1", 0), Handler)
        self.url = f"http://127.0.0.1:{self.server.server_port}/"
        threading.Thread(target=self.server.serve_forever, daemon=True).start()

    def send(self, part):
        self.turns[part].set()

    def end(self):
        for turn in self.turns:
            turn.set()
        self.server.shutdown()
        self.server.server_close()
