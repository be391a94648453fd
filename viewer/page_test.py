#!/usr/bin/env python3
"""Tests pages in headless Chromium and headless Firefox.

usage: page_test.py [--browser chromium|firefox] [--only NAME,..] [--keep DIR] [TTREE]
       page_test.py --measure | --shots DIR [TTREE]

Writes pages of small, hostile, truncated and large inputs, opens each from a file, and checks what
it shows. With the program TTREE, also checks the pages of the examples: their rows must be the tree
of `ttree --json`. `--only` selects tests, and `--keep` is a folder for the pages. Instead of the
tests, `--measure` prints sizes and times, and `--shots` writes screenshots, both in Chromium. A
browser that isn't installed is left out. The last line is 'pages in browsers: N of M runs ended as
they must'."""
import argparse, json, os, random, re, subprocess, sys, tempfile, time
import pages
import build
from browser import Browser, find_browser
from firefox import Firefox, find_firefox
from loading_tests import LoadingTests
from inputs import HOSTILE, SECOND, SlowServer, deep, hostile, page_of, service, wide

# Tests of the viewer's layout on small screens need the emulation that only Chromium has.
IN_FIREFOX = ["samples", "server", "current", "overview", "keys", "contrast", "random", "folds_when_big", "hostile", "texts", "zooms", "loading", "loading_without_times", "loading_selection", "loading_search", "cut", "clocks", "map", "tall", "shapes"]
IN_CHROMIUM = [*IN_FIREFOX, "sizes"]

def length_text(ns):
    def digits(value):
        return f"{value:.2f}" if value < 9.995 else f"{value:.1f}" if value < 99.95 else f"{value:.0f}"
    if ns < 1e3:
        return f"{ns} ns"
    for limit, size, unit in ((999.5e3, 1e3, "µs"), (999.5e6, 1e6, "ms"), (59.995e9, 1e9, "s")):
        if ns < limit:
            return f"{digits(ns / size)} {unit}"
    seconds = round(ns / 1e9)
    return f"{seconds // 60} m {seconds % 60} s" if seconds < 3600 else f"{seconds // 3600} h {seconds // 60 % 60} m"


class Tests(LoadingTests):
    def __init__(self, browser, room, repo, ttree=None):
        self.ttree = ttree
        self.browser, self.room, self.repo, self.count, self.failed = browser, room, repo, 0, 0

    def check(self, name, is_so, what=""):
        self.count += 1
        if not is_so:
            self.failed += 1
            print(f"program page: {name}: FAILED {what}")

    def write(self, name, data):
        path = os.path.join(self.room, name + ".html")
        with open(path, "wb") as file:
            file.write(data)
        return "file://" + path

    def show(self, name, data, fragment="", **size):
        self.browser.open(**size)
        self.browser.go(self.write(name, data) + fragment)
        self.browser.until("document.body && document.body.classList.contains('is-read')")
        self.settle()

    def settle(self):
        self.run("new Promise(done => requestAnimationFrame(() => requestAnimationFrame(() => setTimeout(done))))")

    def run(self, text):
        return self.browser.run(text)

    def press(self, *keys):
        for key in keys:
            self.browser.key(key)
        self.settle()

    def fragment(self):
        """Returns the address's fragment, which follows the selection a moment later."""
        time.sleep(0.25)
        return self.run("location.hash")

    def follow(self, fragment):
        """Follows a link within the page. The browser may be slow to say that the address
        changed."""
        self.run(f"new Promise(done => {{ if (location.hash === '{fragment}') return done(); addEventListener('hashchange', () => done(), {{ once: true }}); location.hash = '{fragment}'; }})")
        self.settle()

    def search(self, text):
        if self.run("document.activeElement.id == 'search'"):
            self.press("Escape")
        self.press("/")
        self.browser.type(text)
        self.run("new Promise(done => setTimeout(done, 120))")
        self.browser.until("!document.getElementById('found').textContent.endsWith('…')")
        self.settle()
        return self.run("document.getElementById('found').textContent")

    def until_quiet(self, text):
        """Waits until the content hasn't changed for half a second."""
        self.run(f"(async () => {{ for (let before, same = 0; same < 10; before = {text}) {{ await new Promise(done => setTimeout(done, 50)); same = before === {text} ? same + 1 : 0; }} }})()")

    def open_first(self, parts, spans, fragment=""):
        """Opens a page from a server that has sent the first part, and waits for its spans."""
        server = SlowServer(parts)
        server.send(0)
        self.browser.open()
        self.browser.go(server.url + fragment)
        self.browser.until(f"document.getElementById('counts') && document.getElementById('counts').innerText.startsWith('{spans}')")
        self.settle()
        return server

    def drag_over(self, element):
        """Selects an element's content with the mouse."""
        left, right, y = self.run(f"(() => {{ const box = {element}.getBoundingClientRect(); return [box.left, box.right, (box.top + box.bottom) / 2] }})()")
        self.browser.mouse("mousePressed", left + 2, y, buttons=1)
        self.browser.mouse("mouseMoved", (left + right) / 2, y, buttons=1)
        self.browser.mouse("mouseMoved", right - 1, y, buttons=1)
        self.browser.mouse("mouseReleased", right - 1, y)
        self.settle()

    def rows(self):
        return self.run("[...document.querySelectorAll('.row:not([hidden])')].sort((a, b) => a.getBoundingClientRect().top - b.getBoundingClientRect().top).map(it => it.querySelector('.tree').innerText.replace(/\\s+/g, ' ').trim())")

    def selected(self):
        return self.run("(document.querySelector('.row.selected:not([hidden]) .tree') || {innerText: ''}).innerText.replace(/\\s+/g, ' ').trim()")

    def is_quiet(self, name):
        """Checks that nothing but the page was fetched, and that nothing was logged on the
        console."""
        fetched, told = self.browser.fetched(), self.browser.told()
        others = [it for it in fetched if not it.startswith(("file://", "data:image/svg+xml", "http://127.0.0.1:"))]
        self.check(f"{name}: nothing is fetched", not others and sum(not it.startswith("data:") for it in fetched) <= 1, fetched)
        self.check(f"{name}: nothing is told on the console", not told, json.dumps(told)[:500])

    def end_page(self, name):
        self.is_quiet(name)
        self.browser.close()

    def take_shots(self, folder):
        """Writes screenshots in three sizes, light and dark."""
        examples = {name: self.page_of_example(name) for name in ("clang-trace.json", "go-fail.jsonl", "tracing.jsonl")} if self.ttree else {}
        pages_of = {**examples, "service": page_of(lambda take: service(take, 100_000), "service")}
        for name, data in pages_of.items():
            for width, height in ((1280, 800), (2560, 1440), (390, 844)):
                for is_dark in (False, True):
                    self.show("shot", data, width=width, height=height, mobile=width < 700, dark=is_dark)
                    self.press("e")
                    self.browser.shot(os.path.join(folder, f"{name.split('.')[0]}-{width}x{height}-{'dark' if is_dark else 'light'}.png"))
                    self.browser.close()

    def page_of_example(self, name):
        path = os.path.join(self.repo, "examples", name)
        return subprocess.run([self.ttree, "--html", path], stdout=subprocess.PIPE, stderr=subprocess.DEVNULL, check=False).stdout

    # ---- What is tested

    def samples(self):
        """Checks the page of each example that `ttree --html` accepts. Its rows must be those of
        `ttree --json`."""
        if not self.ttree:
            print("page_test: without the program ttree, the pages of the examples aren't tried")
            return
        folder = os.path.join(self.repo, "examples")
        for name in sorted(os.listdir(folder)):
            path = os.path.join(folder, name)
            made = subprocess.run([self.ttree, "--html", path], stdout=subprocess.PIPE, stderr=subprocess.DEVNULL, check=False)
            if made.returncode == 2:
                continue
            self.show(name, made.stdout, height=6000)
            self.check(f"{name}: title", self.run("document.getElementById('title').textContent") == name)
            want = self.summary(path)
            if want:
                got = self.run("['spans', 'events', 'error', 'warnings'].map(what => Number((document.getElementById('verdict').textContent + ' ' + [...document.querySelectorAll('#counts div')].map(it => it.textContent).join(' ')).match(`([0-9,]+) ?${what.replace(/s$/, '')}`)?.[1].replace(',', '') ?? 0))")
                self.check(f"{name}: counts are those of the summary", got == want, (got, want))
            self.check(f"{name}: no damage", not self.run("document.querySelector('#counts').innerText.includes('damaged')"))
            self.press("+")
            want = self.tree(path)
            got = self.page_rows()
            self.check(f"{name}: rows are those of the drawing", got == want[:len(got)] and len(got) >= min(len(want), 200), next(((one, other) for one, other in zip(got, want) if one != other), (len(got), len(want))))
            self.end_page(name)

    def summary(self, path):
        """Returns the numbers of spans, events, errors and warnings of `ttree --summary`, if the
        format has one."""
        made = subprocess.run([self.ttree, "--summary", path], stdout=subprocess.PIPE, stderr=subprocess.DEVNULL, check=False)
        counts = re.findall(r"^spans (\d+), events (\d+), errors (\d+), warnings (\d+)", made.stdout.decode(), re.M)
        return [int(it) for it in counts[-1]] if counts else None

    def tree(self, path):
        """Returns the depth and the name or level of each span and event, in the order of the tree,
        from `ttree --json`."""
        made = subprocess.run([self.ttree, "--json", path], stdout=subprocess.PIPE, stderr=subprocess.DEVNULL, check=False)
        children, roots = {}, []
        for step in map(json.loads, made.stdout.decode().split("\n")[:-1]):
            if step["step"] in ("new", "event"):
                below = []
                children[step.get("id")] = below
                siblings = children[step["parent"]] if step["parent"] else roots
                siblings.append((step.get("name", step.get("level", "").upper()) if step["step"] == "new" else step["level"].upper(), below))
        rows, ahead = [], [(1, it) for it in reversed(roots)]
        while ahead:
            depth, (name, below) = ahead.pop()
            rows.append([depth, name])
            ahead += [(depth + 1, it) for it in reversed(below)]
        return rows

    def page_rows(self):
        return self.run("[...document.querySelectorAll('.row:not([hidden])')].sort((a, b) => a.getBoundingClientRect().top - b.getBoundingClientRect().top).map(it => [Number(it.getAttribute('aria-level')), (it.querySelector('.name, .level') || it).textContent])")

    def server(self):
        with open(os.path.join(self.repo, "examples", "server.jsonl"), encoding="utf-8") as file:
            text = file.read()
        data = page_of(lambda take: pages.take_lines(text, take), "server")
        self.show("server", data)
        want = ['server host="localhost" port=8080', "INFO starting", 'conn peer="82.9.9.9"', "DEBUG connected", "WARN slow answer: ⏎ waiting for the disk ms=271", "ERROR lost code=7"]
        self.check("server: the tree", self.rows() == want, self.rows())
        self.check("server: counts", self.run("document.getElementById('verdict').innerText") == "1 error")
        self.press("ArrowDown", "ArrowDown", "ArrowDown")
        self.check("server: arrows select", self.selected().startswith("conn"), self.selected())
        self.check("server: fragment", self.fragment() == "#span-2")
        self.check("server: the tree has the focus and names its row", self.run("document.activeElement.id == 'scroller' && document.getElementById(document.activeElement.getAttribute('aria-activedescendant')).classList.contains('selected')"))
        self.press("ArrowLeft")
        self.check("server: folds", len(self.rows()) == 4 and self.run("document.querySelector('.row.selected').getAttribute('aria-expanded')") == "false", self.rows())
        self.press("ArrowRight")
        self.check("server: unfolds", self.rows() == want)
        self.press("ArrowRight", "ArrowLeft", "ArrowLeft", "ArrowLeft", "ArrowLeft")
        self.check("server: out to the root and folded", self.rows() == want[:1], self.rows())
        self.press("Enter", "+", "End")
        self.check("server: Enter unfolds, End is the last row", self.selected() == want[-1], self.selected())
        self.press("Home")
        self.check("server: Home is the first row", self.selected() == want[0])
        self.press("e")
        self.check("server: e finds the error", self.selected() == want[-1])
        self.press("f")
        self.check("server: only what failed", self.rows() == [want[0], want[1], want[5]], self.rows())
        self.press("f", "4")
        self.check("server: warnings and errors", self.rows() == [want[0], want[2], want[4], want[5]], self.rows())
        self.press("1")
        self.check("server: search counts", self.search("SLOW") == "1 of 1", self.run("document.getElementById('found').textContent"))
        self.check("server: search selects", self.selected() == want[4], self.selected())
        self.check("server: search marks", self.run("[...document.querySelectorAll('mark')].map(it => it.textContent).join()") == "slow")
        self.check("server: search for a field", self.search("code=7") == "1 of 1")
        self.check("server: search for quotes", self.search('peer="82') == "1 of 1")
        self.check("server: search over a line end", self.search("for the") == "1 of 1")
        self.check("server: search for nothing", self.search("nowhere") == "none")
        self.press("Escape")
        self.check("server: Escape leaves the search", self.run("document.activeElement.id == 'scroller' && !document.querySelector('mark')"))
        self.press("?")
        self.check("server: help", self.run("document.getElementById('help').open"))
        self.press("Escape")
        self.check("server: help closes", not self.run("document.getElementById('help').open"))
        self.end_page("server")
        self.show("server", data, "#span-2")
        self.check("server: a link selects", self.selected().startswith("conn") and not self.run("document.getElementById('details').hidden"))
        self.check("server: details", "82.9.9.9" in self.run("document.getElementById('details').innerText"))
        self.end_page("server link")

    def current(self):
        """Checks the details of events whose parent isn't their current span."""
        new = [{"call": "new", "name": name, "current": above, "mono": at} for at, (name, above) in enumerate((("root", None), ("batch", 1), ("worker", 1)))]
        event = lambda text, **spans: {"call": "event", "level": "INFO", "target": "t", "fields": [["message", text]], "mono": 9, **spans}
        calls = [*new, event("moved", parent=2, current=3), event("at the root", parent="root", current=3), event("in it", current=3), event("alone", parent=2),
            {"call": "close", "id": 3, "mono": 20}, event("after", parent=2, current=3),
            {"call": "close", "id": 2, "mono": 21}, {"call": "close", "id": 1, "mono": 22}]
        data = page_of(lambda take: [take({key: it for key, it in call.items() if it is not None}) for call in calls])
        self.check("current: the lines", [it for it in data.decode().split("\n") if it.startswith("[3")] == [f'[3,0,9,-1,999999991,"1",{spans},2,"t","message","{text}"]' for spans, text in (("2,3", "moved"), ("0,3", "at the root"), ("3,3", "in it"), ("2,0", "alone"), ("2,0", "after"))])
        self.show("current", data)
        self.check("current: events are in their parents", self.rows() == ["root", "batch", "INFO moved", "INFO alone", "INFO after", "worker", "INFO in it", "INFO at the root"], self.rows())
        facts = "Object.fromEntries([...document.querySelectorAll('#details .facts:not(.fields-list) dt')].map(it => [it.textContent, it.nextSibling.textContent]))"
        for at, (call, text, want) in enumerate(((4, "moved", "worker"), (5, "at the root", "worker"), (6, "in it", None), (7, "alone", None), (9, "after", None))):
            self.follow(f"#call-{call}")
            got = self.run(facts)
            self.check(f"current: details of {text!r}", self.selected() == f"INFO {text}" and got.get("Current span") == want and got.get("Target") == "t", (self.selected(), got))
        self.run("dispatchEvent(new HashChangeEvent('hashchange', { newURL: location.href.replace(/#.*/, '#call-4') })), 0")
        self.settle()
        self.check("current: a link is followed, also if the address has changed since", self.selected() == "INFO moved", self.selected())
        self.follow("#call-4")
        self.run("document.querySelector('#details dd .crumb').click()")
        self.settle()
        self.check("current: the link selects the span", self.selected().startswith("worker") and self.fragment() == "#span-3", self.selected())
        self.check("current: a search finds fields", self.search("at the root") == "1 of 1" and self.search("t,2") == "none")
        self.end_page("current")

    def overview(self):
        """Checks the counts and the lists of the overview on pages of tests."""
        event = lambda text, level="INFO", **more: {"call": "event", "level": level, "fields": [["message", text], *more.pop("fields", [])], **more}
        totals = {"call": "event", "level": "ERROR", "fields": [["passed", "1"], ["failed", "2"]]}
        calls = [{"call": "new", "name": "package"}, {"call": "new", "name": "TestOuter", "current": 1}, {"call": "new", "name": "inner", "current": 2},
            event("setting up", current=3), event("a_test.go:6: got 1, and not the long text that was expected of it, which goes on to the end of its line", current=3), event("fail", "ERROR", current=3),
            {"call": "close", "id": 3}, event("fail", "ERROR", current=2), {"call": "close", "id": 2}, {"call": "new", "name": "TestOther", "current": 1},
            event("failed", "ERROR", current=4, fields=[["message", "too late"]]), event("exit", "WARN", current=4), {"call": "close", "id": 4}, event("fail", "ERROR", current=1), {"call": "close", "id": 1}, totals]
        listed = lambda name: self.run(f"[...document.querySelectorAll('#{name} button')].map(it => [it.querySelector('.what').textContent, it.querySelector('.detail').textContent])")
        self.show("overview", page_of(lambda take: [take(it) for it in calls]))
        self.check("overview: the line of totals is no error", self.run("[document.getElementById('verdict').textContent, document.getElementById('next-error').textContent]") == ["4 errors"] * 2, self.run("document.getElementById('verdict').textContent"))
        self.check("overview: all events are counted", self.run("document.getElementById('counts').innerText").split() == ["4", "spans", "8", "events", "1", "warning"], self.run("document.getElementById('counts').innerText"))
        self.check("overview: first errors say why, in the innermost spans", listed("errors") == [["inner", calls[4]["fields"][0][1]], ["TestOther", "failed: too late"]], listed("errors"))
        self.check("overview: a short name isn't cut", self.run("(name => name.scrollWidth <= name.offsetWidth)(document.querySelector('#errors .what'))"))
        self.check("overview: without times, the errors have the width", self.run("document.getElementById('errors-box').offsetWidth") > 800, self.run("document.getElementById('errors-box').offsetWidth"))
        self.press("E")
        self.check("overview: E goes to the last error, and not to the totals", self.selected() == "ERROR fail", self.selected())
        self.end_page("overview")
        self.show("overview", page_of(lambda take: take(totals)))
        self.check("overview: totals without another error are one", self.run("document.getElementById('verdict').textContent") == "1 error")
        self.end_page("overview: totals")
        spans = [("Total Source", [["count", "2"], ["avg ms", "9"]], 50), ("Total of an order", [], 40), ("Source", [["detail", "x" * 100]], 30)]
        calls = [it for at, (name, fields, length) in enumerate(spans) for it in ({"call": "new", "name": name, "fields": fields, "mono": 0}, {"call": "close", "id": at + 1, "mono": length * 1_123_456_789})]
        self.show("overview", page_of(lambda take: [take(it) for it in calls]), width=1024)
        self.check("overview: sums of Clang aren't slow spans", listed("slowest") == [["Total of an order", ""], ["Source", f"detail={'x' * 73}…"]], listed("slowest"))
        self.check("overview: the time isn't broken", self.run("document.querySelector('#verdict small').getClientRects().length") == 1)
        self.end_page("overview: sums")

    def keys(self):
        """Checks keys after a click on a button, and keys without a selected row."""
        data = page_of(lambda take: service(take, 2000, 2))
        self.show("keys", data)
        for key in "dz":
            self.press(key)
            self.check(f"keys: {key} without a selected row says so", self.run("[...document.querySelectorAll('#notice.is-shown')].map(it => it.textContent).join()") == "No row is selected")
            self.run("document.getElementById('notice').classList.remove('is-shown')")
        self.run("document.getElementById('next-error').focus(), document.getElementById('next-error').click()")
        self.settle()
        self.press("ArrowUp", "ArrowDown")
        self.check("keys: arrows go on from a clicked button", self.selected().startswith("ERROR") and self.run("document.activeElement.id") == "scroller", self.selected())
        self.run("document.getElementById('fold').focus()")
        self.press("Enter")
        self.check("keys: Enter presses a button", len(self.rows()) == 1, len(self.rows()))
        self.press("e", "d")
        self.run("document.querySelector('#details .crumb').focus()")
        before = self.selected()
        self.press("ArrowDown")
        self.check("keys: arrows in the details don't move the selection", self.selected() == before)
        self.end_page("keys")

    def contrast(self):
        """Checks that strings can be read: their contrast is at least 4.5, also where the
        background of a row changes."""
        calls = [{"call": "new", "name": "root", "mono": 0, "fields": [["port", "80"]]}, *[{"call": "event", "level": level, "fields": [["message", f"note {level}"], ["key", "value"]], "current": 1, "mono": at} for at, level in enumerate(pages.LEVELS)],
            {"call": "new", "name": "inner", "current": 1, "mono": 5, "thread": 2}, {"call": "close", "id": 2, "mono": 70}, {"call": "close", "id": 1, "mono": 99}]
        weakest = """(() => {
            const pen = Object.assign(document.createElement('canvas'), { width: 1, height: 1 }).getContext('2d', { willReadFrequently: true });
            const over = (colours) => { pen.clearRect(0, 0, 1, 1); for (const it of colours) pen.fillStyle = it, pen.fillRect(0, 0, 1, 1); return pen.getImageData(0, 0, 1, 1).data; };
            const light = ([...rgb]) => rgb.slice(0, 3).map(it => it / 255).map(it => it <= 0.04045 ? it / 12.92 : ((it + 0.055) / 1.055) ** 2.4).reduce((sum, it, at) => sum + it * [0.2126, 0.7152, 0.0722][at], 0);
            const told = [], walker = document.createTreeWalker(document.body, NodeFilter.SHOW_TEXT);
            for (let text; (text = walker.nextNode());) {
              const element = text.parentElement, behind = [];
              if (!text.data.trim() || !element.checkVisibility({ visibilityProperty: true, opacityProperty: true }) || element.closest('script, style, xmp, option, #notice, #cursor')) continue;
              for (let it = element; it; it = it.parentElement) behind.unshift(getComputedStyle(it).backgroundColor);
              const [one, other] = [over(behind), over([...behind, getComputedStyle(element).color])].map(light), contrast = (Math.max(one, other) + 0.05) / (Math.min(one, other) + 0.05);
              if (contrast < 4.5) told.push(`${contrast.toFixed(2)} ${text.data.slice(0, 20)} (${element.className || element.tagName}, ${element.closest('.row')?.className || element.parentElement.className})`);
            }
            return told;
          })()"""
        for is_dark in (False, True):
            self.show("contrast", page_of(lambda take: [take(it) for it in calls]), dark=is_dark)
            name = f"contrast: {'dark' if is_dark else 'light'}"
            told = self.run(weakest)
            self.check(f"{name}: strings can be read", not told, told)
            self.search("note")
            told = self.run(weakest)
            self.check(f"{name}: also those that match", not told, told)
            self.press("Escape", "d")
            for row in range(8):
                told = self.run(weakest)
                self.check(f"{name}: also if row {row} is selected", not told, told)
                self.press("ArrowDown")
            self.press("5")
            told = self.run(weakest)
            self.check(f"{name}: also with a filter", not told, told)
            self.end_page(name)

    def folds_when_big(self):
        data = page_of(lambda take: service(take, 5000, 2))
        self.show("folds", data)
        self.check("folds: few rows at first", 100 < self.run("document.getElementById('sizer').clientHeight / 24") < 5000)
        self.press("e")
        self.check("folds: e shows the error", self.selected() == "ERROR connection lost attempt=3", self.selected())
        first = self.fragment()
        self.press("e")
        self.check("folds: e goes on", self.fragment() != first and self.selected().startswith("ERROR"))
        self.press("E")
        self.check("folds: E goes back", self.fragment() == first)
        self.check("folds: matches inside of folded spans", self.search("select *").endswith(f" of {data.count(b'select *')}"), self.run("document.getElementById('found').textContent"))
        self.press("Enter", "Enter")
        before = self.fragment()
        self.press("ArrowDown", "n")
        self.check("folds: n goes on", self.fragment() != before)
        self.check("folds: a match is a row", "select *" in self.selected())
        self.press("-")
        self.check("folds: all folded", self.run("document.getElementById('sizer').clientHeight") <= self.run("document.getElementById('scroller').clientHeight"))
        self.end_page("folds")

    def random(self, rounds=24):
        """Compares the numbers and the order of random calls with a simple computation. In every
        second round, a call may be earlier than the one before."""
        for seed in range(rounds):
            draw = random.Random(seed)
            nodes, roots, live, calls, now = [], [], [], [], 0
            for _ in range(draw.randint(5, 45)):
                now += draw.choice([0, 1, 7, 900, 12_000, 3_000_000, 2_500_000_000])
                if seed % 2 and draw.random() < 0.4:
                    now = max(0, now - draw.choice([1, 8, 1000, 14_000, 3_100_000, 4_000_000_000]))
                above = draw.choice([None, *live]) if draw.random() < 0.9 else None
                kind = draw.choice(["new", "new", "event", "event", "close"])
                if kind == "close":
                    leaves = [it for it in live if not any(one in live for one in it["below"])]
                    if leaves:
                        one = draw.choice(leaves)
                        live.remove(one)
                        one["end"] = max(now, one["begin"])
                        calls.append({"call": "close", "id": one["id"], "mono": now})
                    continue
                node = {"kind": kind, "begin": now, "end": None, "below": [], "above": above, "level": draw.choice(list(pages.LEVELS)), "name": f"n{len(nodes)}"}
                node["id"] = 1 + sum(it["kind"] == "new" for it in nodes)
                nodes.append(node)
                (above["below"] if above else roots).append(node)
                calls.append({"call": kind, "name": node["name"], "level": node["level"], "fields": [["message", node["name"]]] if kind == "event" else [], "current": above["id"] if above else None, "mono": now})
                if kind == "new":
                    live.append(node)
            calls = [{key: it for key, it in call.items() if it is not None} for call in calls]
            last = max([max(it["begin"], it["end"] or 0) for it in nodes], default=0)
            first = min([it["begin"] for it in nodes], default=0)

            def end_of(node):
                end = node["begin"] if node["kind"] == "event" else last if node["end"] is None else node["end"]
                return max([end, *map(end_of, node["below"])])

            def since(node):
                since = node["begin"] - (node["above"]["begin"] if node["above"] else first)
                return f"{'−' if since < 0 else '+'}{length_text(abs(since))}"

            def own_of(node):
                """Adds up the times without a child, between neighbouring starts and ends."""
                begin, end = node["begin"], end_of(node)
                inner = [(it["begin"], end_of(it)) for it in node["below"] if it["kind"] == "new"]
                times = sorted({begin, end, *[clamp for it in inner for clamp in (min(max(at, begin), end) for at in it)]})
                return sum(right - left for left, right in zip(times, times[1:]) if not any(one <= left and right <= other for one, other in inner))

            def told(node):
                if node["kind"] == "event":
                    return [f"{node['level']} {node['name']}||{since(node)}"]
                end, own = end_of(node), own_of(node)
                events = below(node)
                mark = " unfinished" if node["end"] is None else ""
                return [f"{node['name']}{mark}|{len(events) or ''}|{length_text(end - node['begin'])}|{length_text(own) if own < end - node['begin'] else ''}|{max(events, default='')}", *[row for it in node["below"] for row in told(it)]]

            def below(node):
                return [pages.LEVELS[node["level"]]] if node["kind"] == "event" else [it for one in node["below"] for it in below(one)]

            if first == last:
                continue
            self.show("random", page_of(lambda take: [take(it) for it in calls]), width=1400, height=1800)
            self.press("+")
            got = self.run("[...document.querySelectorAll('.row:not([hidden])')].sort((a, b) => a.getBoundingClientRect().top - b.getBoundingClientRect().top).map(it => { const text = name => it.querySelector(name).textContent, worst = ['trace', 'debug', 'info', 'warn', 'error'].findIndex(one => it.classList.contains(one)), span = it.classList.contains('span'); return it.querySelector('.tree').innerText.replace(/\\s+/g, ' ').trim() + '|' + text('.count') + '|' + text('.time') + (span ? '|' + text('.self') + '|' + (text('.count') ? worst : '') : ''); })")
            want = [row for it in roots for row in told(it)]
            self.check(f"random {seed}: rows", got == want, next(((one, other) for one, other in zip(got, want) if one != other), (len(got), len(want))))
            self.end_page(f"random {seed}")

    def hostile(self):
        self.show("hostile", page_of(hostile, "</script><script>alert(1)</script>"))
        self.check("hostile: the title", self.run("document.getElementById('title').textContent") == "</script><script>alert(1)</script>")
        self.check("hostile: one script", self.run("document.scripts.length") == 1)
        self.check("hostile: nothing of the texts became an element", self.run("document.querySelectorAll('img, b, .row script, .row style, template, plaintext').length") == 0)
        self.press("+")
        unseen = lambda text: "".join(f"\\u{{{ord(it):x}}}" if ord(it) < 32 and it not in "\n\t" or 0x7F <= ord(it) <= 0x9F or it in "\u2028\u2029\u202e\ufeff" else it for it in text)
        for at, text in enumerate(HOSTILE):
            self.follow(f"#span-{at + 1}")
            got = self.run("document.querySelector('.row.selected .name').textContent")
            self.check(f"hostile: {text!r} in the row", got == unseen(text).replace("\n", " ⏎ "), repr(got))
            got = self.run("document.querySelector('#details .text').textContent")
            self.check(f"hostile: {text!r} in the details", got == unseen(text), repr(got))
            got = self.run("[...document.querySelectorAll('#details .fields-list dd')].map(it => it.textContent)")
            self.check(f"hostile: fields of {text!r}", got == [unseen(text)] * 3, repr(got))
        found = self.search("</script><script>")
        self.check("hostile: found literally", found.endswith(" of 2"), found)
        self.end_page("hostile")
        data = page_of(hostile)
        body = data[len(build.head().encode()):-len((pages.end() + build.tail().encode()))]
        self.check("hostile: no `<` and no control character in the data", not any(it in body for it in [b"<", *[bytes([it]) for it in range(32) if it != 10]]))
        self.check("hostile: each line is JSON", all(isinstance(json.loads(it), list) for it in body.decode().split("\n") if it))
        self.check("hostile: the escape is the same, quick or by the definition", all(pages.quick(it) == pages.quoted(it) and json.loads(pages.quoted(it)) == it for it in HOSTILE + ["".join(map(chr, range(256)))]))

    def texts(self):
        """Checks that the browser has random strings unchanged. Their pieces end, start or escape
        something."""
        pieces = ["<", "/", "script", ">", "!--", "--", "</script", "<script", "]]>", "&lt;", "&#60;", "\\", '"', "'", "`", "\n", "\r", "\t", "\0", "\x1b$B", "\x7f", "\x85", "\u2028", "\ufeff", "\uffff", "\U0010ffff", "é", "x", " ", "u003c", "["]
        draw = random.Random(11)
        want = ["".join(draw.choices(pieces, k=draw.randint(0, 9))) for _ in range(3000)]
        self.show("texts", page_of(lambda take: [take({"call": "event", "level": "INFO", "target": it, "fields": [[it, it]]}) for it in want]))
        got = self.run("document.getElementById('data').textContent.trim().split('\\n').map(it => JSON.parse(it)).filter(it => it[0] === 3).map(it => it.slice(9))")
        self.check("texts: as they were written", got == [[it] * 3 for it in want])
        self.check("texts: nothing else is in the document", self.run("document.scripts.length === 1 && !document.querySelector('#data *')"))
        tried = self.run("(async () => { const told = []; try { document.body.insertAdjacentHTML('beforeend', '<i id=bad></i>'); } catch { told.push('html'); } try { await fetch('https://example.com/'); } catch { told.push('fetch'); } const script = document.createElement('script'); try { script.textContent = 'window.bad = 1'; document.body.append(script); } catch { told.push('script'); } const picture = new Image(); picture.src = 'https://example.com/x.png'; await new Promise(done => { picture.onerror = done; }); told.push('image'); return [told.join(), Boolean(document.getElementById('bad') || window.bad)]; })()")
        self.check("policy: refuses markup, scripts and fetches", tried == ["html,fetch,script,image", False], tried)
        self.browser.close()

    def zooms(self):
        self.show("zooms", page_of(lambda take: service(take, 2000)))
        lane = self.run("(() => { const box = document.querySelector('.row:not([hidden]) .track').getBoundingClientRect(); return [box.left, box.top, box.width] })()")
        y = lane[1] + 60
        axis = lambda: self.run("document.getElementById('axis').innerText")
        before = axis()
        self.browser.mouse("mousePressed", lane[0] + lane[2] * 0.25, y, buttons=1)
        self.browser.mouse("mouseMoved", lane[0] + lane[2] * 0.4, y, buttons=1)
        self.check("zooms: a band while one drags", not self.run("document.querySelector('.band').hidden"))
        self.browser.mouse("mouseMoved", lane[0] + lane[2] * 0.5, y, buttons=1)
        self.browser.mouse("mouseReleased", lane[0] + lane[2] * 0.5, y)
        self.settle()
        part = self.run("(() => { const style = document.getElementById('map-range').style; return [parseFloat(style.left), parseFloat(style.width)] })()")
        self.check("zooms: a drag chooses a quarter", axis() != before and abs(part[0] - 25) < 0.5 and abs(part[1] - 25) < 0.5, part)
        self.press("0")
        self.check("zooms: all of the time again", axis() == before and self.run("document.getElementById('map-range').hidden"))
        bar = self.run("(() => { const row = [...document.querySelectorAll('.row:not([hidden])')].find(it => it.querySelector('.name')?.textContent === 'request'), box = row.querySelector('.bar').getBoundingClientRect(); return [box.left + 1, box.top + 4] })()")
        self.browser.click(*bar)
        self.settle()
        self.check("zooms: a click on a bar zooms to its span", self.run("document.querySelector('.row.selected .bar').getBoundingClientRect().width") > lane[2] * 0.85)
        self.press("0", "e", "z")
        self.check("zooms: z on an event zooms to its span", self.run("parseFloat(document.getElementById('map-range').style.width)") < 2)
        ticks = self.run("[...document.querySelectorAll('#axis span')].map(it => it.textContent)")
        self.check("zooms: no two ticks read alike", 1 < len(ticks) == len(set(ticks)), ticks)
        self.end_page("zooms")

    def sizes(self):
        data = page_of(lambda take: service(take, 20_000))
        for width, height in ((1280, 800), (2560, 1440), (390, 844), (800, 600), (320, 480)):
            for is_open in (False, True):
                self.show("sizes", data, "#span-9" if is_open else "", width=width, height=height, mobile=width < 700)
                name = f"{width} by {height}{' with details' if is_open else ''}"
                self.check(f"{name}: few rows have elements", self.run("document.querySelectorAll('.row').length") < 100)
                self.check(f"{name}: nothing sticks out", self.run("document.documentElement.scrollWidth <= innerWidth && document.documentElement.scrollHeight <= innerHeight"))
                self.check(f"{name}: rows are in sight", self.run("document.getElementById('scroller').clientHeight") > 90, self.run("document.getElementById('scroller').clientHeight"))
                self.end_page(name)

        self.show("sizes", page_of(lambda take: [take({"call": "new", "name": "a", "mono": 0}), take({"call": "close", "id": 1, "mono": 9000})]), width=900, height=800)
        self.check("900 by 800: without errors, the slowest spans are beside the counts", self.run("document.getElementById('slowest-box').offsetTop - document.querySelector('.verdict').offsetTop") == 0 and self.run("document.getElementById('slowest-box').offsetWidth") > 400)
        self.end_page("900 by 800")
        self.show("sizes", page_of(lambda take: take({"call": "event", "level": "INFO", "fields": [["message", "long " * 40]]})), width=390, height=844, mobile=True)
        self.check("390 by 844: without times, a row has all of the width", self.run("document.querySelector('.row:not([hidden]) .tree').offsetWidth") > 370)
        self.end_page("390 by 844")
        self.show("sizes", page_of(lambda take: take({"call": "event", "level": "ERROR", "fields": [["message", "long " * 40]]})), width=390, height=844, mobile=True)
        self.check("390 by 844: without times, the errors have all of the width", self.run("(box => box.left < 20 && box.right > 370)(document.getElementById('errors-box').getBoundingClientRect())"))
        self.end_page("390 by 844: errors")

    def cut(self):
        with open(os.path.join(self.repo, "examples", "server.jsonl"), encoding="utf-8") as file:
            text = file.read()
        data = page_of(lambda take: pages.take_lines(text, take), "cut →")
        start = len(build.head().encode())
        draw = random.Random(3)
        for at in sorted({start, start + 1, *[draw.randrange(start, len(data)) for _ in range(12)]}):
            self.show("cut", data[:at])
            lines = data[start:at].decode(errors="replace").split("\n")[:-1]
            want = sum(it.startswith(("[1", "[3")) for it in lines)
            self.check(f"cut at {at}: what came before is there", len(self.rows()) == want, (len(self.rows()), want))
            self.check(f"cut at {at}: it is told", self.run("document.querySelector('#counts .cut') !== null") == ("[5]" not in lines))
            self.end_page(f"cut at {at}")
        damaged = data.replace(b'[3,0,0,0,0,"1",2,2,1', b'[3,0,0,"oh,0,"1",2,2,1')
        self.show("damaged", damaged)
        self.check("damaged: the rest is there", len(self.rows()) == 5 and "damaged" in self.run("document.getElementById('counts').innerText"))
        self.end_page("damaged")
        self.show("empty", page_of(lambda take: None))
        self.check("empty: it is told", "No calls" in self.run("document.body.innerText"))
        self.end_page("empty")

    def clocks(self):
        """Checks lines without a time, and closes without one."""
        second = 1_795_832_513
        self.show("clocks", page_of(lambda take: [take({"call": "new", "name": "early"}), take({"call": "event", "level": "INFO", "current": 1}),
            take({"call": "new", "name": "late", "mono": second * SECOND, "wall": second * SECOND}), take({"call": "close", "id": 1, "mono": (second + 2) * SECOND, "wall": (second + 2) * SECOND})]))
        self.check("clocks: lines without a time begin with the first that has one", "in 2.00 s" in self.run("document.getElementById('verdict').innerText"), self.run("document.getElementById('verdict').innerText"))
        self.end_page("clocks")
        self.show("closes", page_of(lambda take: [take({"call": "new", "name": "outer", "mono": 5 * SECOND}), take({"call": "new", "name": "inner", "current": 1, "mono": 6 * SECOND}),
            take({"call": "close", "id": 2, "mono": 8 * SECOND}), take({"call": "close", "id": 1})]))
        times = self.run("[...document.querySelectorAll('.row:not([hidden]) .time')].map(it => it.textContent)")
        self.check("clocks: a span ends after all that is in it", times == ["3.00 s", "2.00 s"], times)
        self.end_page("closes")
        self.show("zero", page_of(lambda take: [take({"call": "new", "name": "trace"}), take({"call": "event", "level": "INFO", "current": 1, "mono": 5000}), take({"call": "close", "id": 1, "mono": 9000})]))
        self.check("clocks: a clock may begin at 0", "in 9.00 µs" in self.run("document.getElementById('verdict').innerText"))
        self.end_page("zero")

    def map(self):
        """Checks the map of spans that don't come in the order of their start."""
        second, spans = SECOND, [(0, 10), (90, 100), (40, 60), (20, 20), (99, 100), (30, 30)]
        calls = []
        for at, (begin, end) in enumerate(spans):
            calls += [{"call": "new", "name": f"span{at}", "mono": begin * second}, {"call": "close", "id": at + 1, "mono": end * second}]
        self.show("map", page_of(lambda take: [take(it) for it in calls]))
        want = [any(begin <= at < max(end, begin + 0.1) for begin, end in spans) for at in range(100)]
        # 0.05 of a hundredth to the right, as the shortest bar is one pixel wide
        got = self.run("(() => { const canvas = document.getElementById('map-picture'), data = canvas.getContext('2d').getImageData(0, 2, canvas.width, 1).data; return Array.from({ length: 100 }, (_, at) => data[4 * Math.floor((at + 0.05) * canvas.width / 100) + 3] > 0) })()")
        self.check("map: each span is painted", got == want, [at for at in range(100) if got[at] != want[at]])
        self.end_page("map")

    def tall(self, events=500_000):
        """Scrolls rows that are taller than their box: 12 million pixels. Small steps leave
        no row out, at the ends of the box and in the middle. A long step moves to the rows there."""
        lines = b"".join(b'[3,0,%d,0,0,"1",0,0,2,"","message","%d"]\n' % (at, at) for at in range(events))
        self.show("tall", build.head().encode() + pages.about("tall") + lines + pages.end() + build.tail().encode(), height=1400)
        top = "(() => { const box = scroller.getBoundingClientRect(), rows = [...document.querySelectorAll('.row:not([hidden])')].map(it => [it.getBoundingClientRect(), it.querySelector('.message').textContent]).sort((a, b) => a[0].top - b[0].top), [at, text] = rows.find(([it]) => it.bottom > box.top); return [Number(text) * 24 + box.top - at.top, Number(rows.findLast(([it]) => it.top < box.bottom)[1]), scroller.scrollTop] })()"

        def steps(pixels, count):
            """Scrolls by steps. Returns the position of the rows before, and after each step."""
            return self.run(f"(async () => {{ const positions = []; for (let at = 0; at <= {count}; at++) {{ positions.push(Math.round({top}[0])); scroller.scrollTop += {pixels}; await new Promise(done => requestAnimationFrame(() => setTimeout(done))); }} return positions; }})()")

        def are_even(positions, pixels):
            return all(abs(after - before - pixels) <= 1 for before, after in zip(positions, positions[1:]))

        height = self.run("scroller.clientHeight")
        most = events * 24 - height
        box = self.run("scroller.scrollHeight - scroller.clientHeight")
        self.check("tall: the box is lower than its rows", box < most)
        for part in (0.02, 0.3, 0.5, 0.9, 0.99):
            self.run(f"scroller.scrollTop = {part} * {box}")
            self.settle()
            for pixels in (7, -240, 300):
                positions = steps(pixels, 12)
                self.check(f"tall: steps of {pixels} at {part}", are_even(positions, pixels), positions)
                time.sleep(0.3)
                after = self.run(top)[0]
                self.check(f"tall: after a pause at {part}", abs(after - positions[-1] - pixels) <= 1, (positions[-1], after))
        # Small steps without a pause to both ends of the box; rows remain behind them.
        for start, pixels in ((510_000, -2000), (box - 510_000, 2000)):
            self.run(f"scroller.scrollTop = {start}")
            self.settle()
            positions = steps(pixels, 260)
            self.check(f"tall: on over the end of the box, from {start}", are_even(positions, pixels) and 0 < positions[-1] < most, [it for it in zip(positions, positions[1:]) if abs(it[1] - it[0] - pixels) > 1][:5])
        self.run("scroller.scrollTop = 0")
        self.settle()
        self.check("tall: the first row", self.run(top)[:2] == [0, (height - 1) // 24], self.run(top))
        self.run(f"scroller.scrollTop = {box}")
        self.settle()
        self.check("tall: the last row", self.run(top)[1] == events - 1 and abs(self.run(top)[0] - most) <= 1, self.run(top))
        positions = steps(-300, 20)
        self.check("tall: up from the end", are_even(positions, -300), positions)
        self.press("Home", "End", "ArrowUp")
        self.check("tall: keys", self.selected() == f"INFO {events - 2}", self.selected())
        self.follow(f"#call-{events // 2}")
        self.check("tall: a link", self.selected() == f"INFO {events // 2 - 1}", self.selected())
        self.end_page("tall")

    def shapes(self):
        self.show("deep", page_of(deep))
        self.press("e")
        self.check("deep: the bottom is reached", self.selected() == "10000 ERROR bottom" or self.selected() == "ERROR bottom", self.selected())
        self.check("deep: it can be read", self.run("document.querySelector('.row.selected .message').getBoundingClientRect().right < innerWidth"))
        self.press("ArrowLeft")
        self.check("deep: the parent", "level9999" in self.selected(), self.selected())
        self.end_page("deep")
        self.show("wide", page_of(wide))
        self.press("End")
        self.check("wide: the last child", self.selected() == "child99999", self.selected())
        self.check("wide: search", self.search("child5000").endswith(" of 11"), self.run("document.getElementById('found').textContent"))
        self.end_page("wide")

    def measures(self, calls):
        name = f"service-{calls}"
        path = os.path.join(self.room, name + ".html")
        begun = time.time()
        with open(path, "wb", 1 << 20) as file:
            pages.write_page(file, name, lambda take: service(take, calls))
        size, head = os.path.getsize(path), len(build.head().encode())
        print(f"{calls} calls: {size} bytes, {(size - head) / calls:.1f} a call, written in {time.time() - begun:.1f} s")
        self.browser.open()
        self.browser.send("Page.addScriptToEvaluateOnNewDocument", {"source": "window.slow = []; new PerformanceObserver(list => list.getEntries().forEach(it => slow.push([Math.round(it.startTime), it.duration]))).observe({entryTypes: ['longtask']}); (function look() { if (document.querySelector('.row:not([hidden])')) window.firstRow = performance.now(); else setTimeout(look, 5); })(); (function look() { if (document.body && document.body.classList.contains('is-read')) window.allRead = performance.now(); else setTimeout(look, 5); })();"})
        self.browser.go("file://" + path)
        self.browser.until("window.allRead")
        self.settle()
        paint = self.run("performance.getEntriesByName('first-contentful-paint')[0].startTime")
        print(f"  first paint {paint:.0f} ms, first row {self.run('firstRow'):.0f} ms, all read {self.run('allRead'):.0f} ms, longest task {self.run('Math.max(0, ...slow.map(it => it[1]))')} ms")
        self.press("+")
        self.run("new Promise(done => setTimeout(done, 200))")
        rows = self.run("document.getElementById('sizer').clientHeight")
        box = self.run("(() => { const box = scroller.getBoundingClientRect(); return [box.left + 300, box.top + 200] })()")
        self.run("window.frames_ = []; window.isMeasuring = true; (function tick(before) { requestAnimationFrame(now => { if (before) frames_.push(now - before); if (isMeasuring) tick(now); }); })()")
        for _ in range(120):
            self.browser.mouse("mouseWheel", *box, deltaX=0, deltaY=400)
        frames = sorted(self.run("isMeasuring = false, frames_"))
        print(f"  all unfolded: box {rows} px; wheel: {len(frames)} frames, median {frames[len(frames) // 2]:.1f} ms, 99 of 100 below {frames[int(len(frames) * 0.99)]:.1f} ms")
        self.check(f"{name}: rows where one scrolled to", self.run("(() => { const box = scroller.getBoundingClientRect(), rows = [...document.querySelectorAll('.row:not([hidden])')].map(it => it.getBoundingClientRect()); return rows.some(it => it.top <= box.top + 1) && rows.some(it => it.bottom >= box.bottom - 1) })()"))
        leaps = self.run("(async () => { const times = []; for (let at = 0; at < 40; at++) { const begun = performance.now(); scroller.scrollTop = (at * 7919 % 40) / 40 * scroller.scrollHeight; await new Promise(done => requestAnimationFrame(() => requestAnimationFrame(done))); times.push(performance.now() - begun); } return times })()")
        print(f"  leaps: longest {max(leaps):.0f} ms to the second frame")
        self.run("scroller.focus()")
        for what, key in (("End", "End"), ("Home", "Home"), ("next error", "e"), ("fold all", "-"), ("unfold all", "+")):
            begun = time.time()
            self.press(key)
            print(f"  {what}: {(time.time() - begun) * 1000:.0f} ms", end="")
        print()
        for query in ("connection lost", "item/77", "e"):
            begun = time.time()
            found = self.search(query)
            print(f"  search {query!r}: {found} in {(time.time() - begun) * 1000 - 120:.0f} ms")
        self.press("Escape")
        self.browser.send("HeapProfiler.collectGarbage")
        heap = self.run("performance.memory.usedJSHeapSize")
        resident = self.resident()
        print(f"  heap {heap / 1e6:.0f} MB, renderer's memory {resident / 1e6:.0f} MB, longest task of all {self.run('Math.max(0, ...slow.map(it => it[1]))')} ms")
        self.end_page(name)

    def resident(self):
        most = 0
        for it in os.listdir("/proc"):
            if it.isdigit():
                try:
                    with open(f"/proc/{it}/cmdline", "rb") as file:
                        words = file.read()
                    if self.browser.profile.encode() in words and b"--type=renderer" in words or (b"--type=renderer" in words and self.is_ours(int(it))):
                        with open(f"/proc/{it}/statm") as file:
                            most = max(most, int(file.read().split()[1]) * 4096)
                except OSError:
                    pass
        return most

    def is_ours(self, process):
        while process > 1:
            if process == self.browser.process.pid:
                return True
            with open(f"/proc/{process}/stat") as file:
                process = int(file.read().rsplit(")", 1)[1].split()[1])
        return False


def main():
    parser = argparse.ArgumentParser()
    parser.add_argument("--repo", default=os.path.dirname(os.path.dirname(os.path.abspath(__file__))))
    parser.add_argument("--measure", action="store_true")
    parser.add_argument("--keep")
    parser.add_argument("ttree", nargs="?", help="the program whose pages of the examples are tried")
    parser.add_argument("--only")
    parser.add_argument("--browser", default="all", choices=["all", "chromium", "firefox"])
    parser.add_argument("--shots", help="a folder for screenshots of the examples' pages")
    words = parser.parse_args()
    if words.measure or words.shots:
        words.browser = "chromium"
    if words.shots:
        os.makedirs(words.shots, exist_ok=True)
    ran, failed = 0, 0
    for name, find, start in (("Chromium", find_browser, Browser), ("Firefox", find_firefox, Firefox)):
        if words.browser.lower() not in ("all", name.lower()):
            continue
        if not find():
            print(f"page_test: {name} isn't installed (apt-get install {name.lower()}{'-esr' * (name == 'Firefox')}), so it opens no page")
            continue
        with tempfile.TemporaryDirectory() as room:
            tests = Tests(start(), words.keep or room, words.repo, words.ttree and os.path.abspath(words.ttree))
            try:
                try_all(tests, words, name)
            finally:
                tests.browser.end()
        ran, failed = ran + tests.count, failed + tests.failed
        print(f"page_test: {name}: {tests.count - tests.failed} of {tests.count}")
    print(f"pages in browsers: {ran - failed} of {ran} runs ended as they must")
    return 1 if failed else 0


def try_all(tests, words, browser):
    if words.shots:
        return tests.take_shots(words.shots)
    if words.measure:
        return [tests.measures(calls) for calls in (10 ** 5, 10 ** 6)]
    for name in IN_CHROMIUM if browser == "Chromium" else IN_FIREFOX:
        if not words.only or name in words.only.split(","):
            getattr(tests, name)()


if __name__ == "__main__":
    sys.exit(main())
