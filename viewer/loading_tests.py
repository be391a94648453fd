"""Tests of pages while they load: a server sends a page part by part (page_test.py)."""
import io, re, time
import pages
import build
from inputs import SECOND, STEP, SlowServer, jobs, page_of, parts_of


class LoadingTests:
    """The part of page_test.py's tests on pages that load."""

    def loading(self):
        """Checks what one does while a page loads: it must stay. The page comes from a server that
        sends its parts when the test says so."""
        parts, write, cut = parts_of("loading")
        jobs(write, range(60))
        cut()
        jobs(write, range(60, 400))
        for at in range(3):
            write({"call": "event", "level": "INFO", "fields": [["message", f"late {at}"]], "current": 2, "mono": 400 * STEP + at})
        cut()
        write({"call": "event", "level": "INFO", "fields": [["message", "last"]], "current": 2, "mono": 400 * STEP + 40})
        write({"call": "close", "id": 2, "mono": 400 * STEP + 50})
        write({"call": "close", "id": 1, "mono": 400 * STEP + 100})
        cut(pages.end() + build.tail().encode())
        axis = lambda: self.run("document.getElementById('axis').innerText")
        row = lambda name: self.run(f"(() => {{ const row = [...document.querySelectorAll('.row:not([hidden])')].find(it => it.querySelector('.name')?.textContent === '{name}'); return row ? Math.round(row.getBoundingClientRect().top) : null; }})()")
        is_read = "document.body.classList.contains('is-read')"

        open_first = lambda fragment="": self.open_first(parts, 62, fragment)

        def end(server, name):
            server.send(2)
            self.browser.until(is_read)
            self.settle()
            self.check(f"loading: {name}: all is read", "402" in self.run("document.getElementById('counts').innerText"), self.run("document.getElementById('counts').innerText"))

        server = open_first()
        self.check("loading: it isn't read yet", not self.run(is_read))
        before = axis()
        self.press("ArrowDown", "ArrowDown", "ArrowDown", "ArrowDown")
        self.check("loading: a row is selected", self.selected() == "INFO first 1", self.selected())
        self.run("scroller.scrollTop = 23 * 24 + 5")
        self.settle()
        place = row("job8")
        lane = self.run("(() => { const box = document.querySelector('#axis').getBoundingClientRect(); return [box.left, box.top + 5, box.width] })()")
        self.browser.mouse("mousePressed", lane[0] + lane[2] * 0.25, lane[1], buttons=1)
        self.browser.mouse("mouseMoved", lane[0] + lane[2] * 0.5, lane[1], buttons=1)
        self.browser.mouse("mouseReleased", lane[0] + lane[2] * 0.5, lane[1])
        self.settle()
        chosen = axis()
        self.check("loading: a drag zooms", chosen != before)
        server.send(1)
        self.browser.until("document.getElementById('counts').innerText.startsWith('402')")
        self.settle()
        self.check("loading: the zoom stays when more has come", axis() == chosen, (chosen, axis()))
        self.check("loading: the first row in sight stays", place is not None and row("job8") == place, (place, row("job8")))
        end(server, "zoomed")
        self.check("loading: the zoom stays when all has come", axis() == chosen, (chosen, axis()))
        self.run("scroller.scrollTop = 0")
        self.settle()
        self.check("loading: the selected row stays", self.selected() == "INFO first 1", self.selected())
        self.press("0")
        self.check("loading: all of the time", axis() != chosen and axis() != before)
        whole = axis()
        self.end_page("loading: zoomed")
        server.end()

        server = open_first()
        server.send(1)
        time.sleep(0.1)
        self.press("-")
        self.check("loading: folds what has come", len(self.rows()) == 1, self.rows()[:9])
        self.check("loading: a search", self.search("note 77") in ("1 of 1", "1", "none"), self.run("document.getElementById('found').textContent"))
        end(server, "folded")
        self.browser.until("!document.getElementById('found').textContent.endsWith('…')")
        self.check("loading: a search goes on", self.run("document.getElementById('found').textContent") == "1 of 1", self.run("document.getElementById('found').textContent"))
        self.check("loading: without a zoom, all of the time", axis() == whole, axis())
        self.end_page("loading: folded")
        server.end()

        server = open_first("#span-5")
        self.check("loading: a link selects as soon as its span has come", self.selected().startswith("job2"), self.selected())
        end(server, "link")
        self.check("loading: the link's span stays", self.selected().startswith("job2"), self.selected())
        self.end_page("loading: link")
        server.end()

        server = open_first("#span-2")
        focused = "[document.activeElement.closest('#slowest, #details')?.id, document.activeElement.textContent]"
        self.check("loading: the details of an open span", "so far" in self.run("document.getElementById('details').innerText"))
        self.run("document.getElementById('details').style.height = '60px', document.getElementById('details').scrollTop = 30")
        self.run("document.querySelector('#details .crumb').focus({ preventScroll: true })")
        self.press("f")
        self.check("loading: only what failed", self.rows() == [], self.rows())
        end(server, "details")
        self.check("loading: the details are those of all calls", "so far" not in self.run("document.getElementById('details').innerText"))
        self.check("loading: the details stay where they are", self.run("document.getElementById('details').scrollTop") == 30, self.run("document.getElementById('details').scrollTop"))
        self.check("loading: a button of the details keeps the focus", self.run(focused) == ["details", "root"], self.run(focused))
        self.check("loading: the filter can be switched off", self.rows() == [] and not self.run("document.getElementById('failed').hidden"))
        self.press("f")
        self.check("loading: all rows again", self.rows()[:1] == ["root"], self.rows()[:3])
        self.end_page("loading: details")
        server.end()

        server = open_first()
        self.run("document.querySelector('#slowest button').focus()")
        self.press("-")
        self.run("document.querySelector('#slowest button').focus()")
        server.send(1)
        self.browser.until("document.getElementById('counts').innerText.startsWith('402')")
        self.settle()
        self.check("loading: a button of the slowest spans keeps the focus", self.run(focused)[0] == "slowest", self.run(focused))
        end(server, "focus")
        self.check("loading: it still has the focus", self.run(focused)[0] == "slowest", self.run(focused))
        self.end_page("loading: focus")
        server.end()

    def loading_selection(self):
        """Checks that a selection stays while a page loads: in one row, over several rows, and
        in the details. Rows come above it, errors and another thread come, and its span closes."""
        parts, write, cut = parts_of("selection")
        jobs(write, range(60))
        cut()
        write({"call": "event", "level": "ERROR", "fields": [["message", "broken"]], "current": 2, "mono": 60 * STEP, "thread": 2})
        jobs(write, range(60, 400))
        cut()
        write({"call": "close", "id": 2, "mono": 400 * STEP + 50})
        write({"call": "close", "id": 1, "mono": 400 * STEP + 100})
        cut(pages.end() + build.tail().encode())
        selection = lambda: self.run("String(getSelection())")
        rows = "[...document.querySelectorAll('.row:not([hidden])')]"
        message = lambda text: f"{rows}.find(it => it.querySelector('.message')?.textContent === '{text}').querySelector('.message')"

        def select_over(first, last):
            self.run(f"getSelection().setBaseAndExtent({message(first)}.firstChild, 0, {message(last)}.lastChild, {len(last)})")

        def more(part):
            server.send(part)
            self.browser.until("document.body.classList.contains('is-read')" if part == 2 else "document.getElementById('counts').innerText.startsWith('402')")
            self.settle()

        for name, select, want in (("a row", lambda: self.drag_over(message("note 8")), "note 8"), ("three rows", lambda: select_over("note 8", "note 10"), "note 8 note 9 note 10")):
            server = self.open_first(parts, 62)
            self.run("scroller.scrollTop = 23 * 24 + 5")
            self.settle()
            self.check(f"selection: {name}: the elements are in the order of the rows", self.run(f"{rows}.every((it, at, all) => !at || it.getBoundingClientRect().top > all[at - 1].getBoundingClientRect().top)"))
            select()
            texts = lambda: " ".join(re.findall(r"note \d+", selection()))
            self.check(f"selection: {name}: it is selected", texts() == want, selection())
            more(1)
            self.check(f"selection: {name}: it stays when more has come", texts() == want, selection())
            more(2)
            self.check(f"selection: {name}: it stays when all has come", texts() == want, selection())
            self.run("scroller.scrollTop += 48")
            self.settle()
            self.check(f"selection: {name}: it stays while its rows are in sight", texts() == want, selection())
            self.end_page(f"selection: {name}")
            server.end()

        server = self.open_first(parts, 62, "#call-4")
        self.run("getSelection().selectAllChildren(document.querySelector('#details .text'))")
        more(1), more(2)
        self.check("selection: in the details, it stays", selection().strip() == "first 1", selection())
        self.end_page("selection: details")
        server.end()

    def loading_search(self):
        """Checks a search while a page loads: its match stays, and those of later lines are
        added."""
        parts, write, cut = parts_of("search")
        jobs(write, range(60))
        cut()
        write({"call": "event", "level": "INFO", "fields": [["message", "an early note"]], "current": 2, "mono": 60 * STEP})
        jobs(write, range(60, 400))
        cut()
        jobs(write, range(400, 20_000))
        cut(pages.end() + build.tail().encode())
        found = "document.getElementById('found').textContent"
        server = self.open_first(parts, 62)
        self.check("search: what has come is found", self.search("note") == "1 of 60", self.run(found))
        self.press("Enter", "Enter")
        self.check("search: the third match", self.run(found) == "3 of 60" and self.selected() == "INFO note 2", (self.run(found), self.selected()))
        server.send(1)
        self.browser.until("document.getElementById('counts').innerText.startsWith('402')")
        self.until_quiet(found)
        self.check("search: later matches are added, also one before it", self.run(found) == "4 of 401", self.run(found))
        self.run(f"window.told = [], new MutationObserver(() => told.push({found})).observe(document.getElementById('found'), {{ childList: true }}), 0")
        server.send(2)
        self.browser.until("document.body.classList.contains('is-read')")
        self.until_quiet(found)
        told = self.run("told")
        self.check("search: it never starts over", told[-1:] == ["4 of 20,001"] and all(it.startswith("4 of ") for it in told), told[-9:])
        self.check("search: its match is selected", self.selected() == "INFO note 2", self.selected())
        self.press("Enter")
        self.check("search: on from there", self.run(found) == "5 of 20,001" and self.selected() == "INFO note 3", (self.run(found), self.selected()))
        self.press("Escape", "5")
        self.check("search: filters leave no match", self.search("note") == "none", self.run(found))
        self.press("Escape", "1")
        self.end_page("search")
        server.end()

    def loading_without_times(self):
        """Checks a page whose first calls have one time: what one does then must stay as well."""
        parts, out, step = [], io.BytesIO(), 1_000_000
        made = pages.Calls(out.write)

        def cut():
            parts.append(out.getvalue())
            out.seek(0), out.truncate()

        def jobs(first, last, time):
            for at in range(first, last):
                made.take({"call": "new", "name": f"job{at}", "mono": time(at)})
                made.take({"call": "new", "name": f"inner{at}", "current": 2 * at + 1, "mono": time(at)})
                made.take({"call": "event", "level": "INFO", "fields": [["message", f"note {at}"]], "current": 2 * at + 2, "mono": time(at)})
                for span in (2 * at + 2, 2 * at + 1):
                    made.take({"call": "close", "id": span, "mono": time(at) + (time(at) != time(0)) * step // 2})

        out.write(build.head().encode() + pages.about("no times"))
        jobs(0, 20, lambda _: SECOND)
        cut()
        jobs(20, 40, lambda at: SECOND + at * step)
        cut()
        jobs(40, 60, lambda at: SECOND + at * step)
        out.write(pages.end() + build.tail().encode())
        cut()
        server = SlowServer(parts)
        counts = lambda count: self.browser.until(f"document.getElementById('counts') && document.getElementById('counts').innerText.startsWith('{count}')")
        axis = lambda: self.run("document.getElementById('axis').innerText")
        is_whole = lambda: self.run("document.getElementById('map-range').hidden")
        rows = lambda: self.run("parseFloat(document.getElementById('sizer').style.height) / 24")

        def drag(part, other, between=None):
            box = self.run("(() => { const box = document.querySelector('#axis').getBoundingClientRect(); return [box.left, box.top + 5, box.width] })()")
            self.browser.mouse("mousePressed", box[0] + box[2] * part, box[1], buttons=1)
            self.browser.mouse("mouseMoved", box[0] + box[2] * other, box[1], buttons=1)
            if between:
                between()
            self.browser.mouse("mouseReleased", box[0] + box[2] * other, box[1])
            self.settle()

        server.send(0)
        self.browser.open()
        self.browser.go(server.url)
        counts(40)
        self.settle()
        calls = axis()
        self.check("no times: the axis counts calls", "call" in calls, calls)
        drag(0.25, 0.5)
        self.check("no times: nothing is chosen, and it says so", axis() == calls and is_whole() and "no times" in self.run("document.getElementById('notice').textContent"), axis())
        self.press("ArrowDown", "z")
        self.check("no times: z chooses nothing", axis() == calls and is_whole())
        self.press("0", "-")
        self.check("no times: all folded", rows() == 20, rows())

        def more():
            server.send(1)
            counts(80)
            self.settle()

        drag(0.25, 0.5, more)
        chosen = axis()
        part = self.run("(() => { const style = document.getElementById('map-range').style; return [parseFloat(style.left), parseFloat(style.width)] })()")
        self.check("no times: a drag during which times come chooses what is below it", "ms" in chosen and not is_whole() and abs(part[0] - 25) < 0.5 and abs(part[1] - 25) < 0.5, (chosen, part))
        self.check("no times: what comes later is folded too", rows() == 40, rows())
        server.send(2)
        self.browser.until("document.body.classList.contains('is-read')")
        self.settle()
        self.check("no times: the zoom stays", axis() == chosen and not is_whole(), (chosen, axis()))
        self.check("no times: still folded", rows() == 60, rows())
        self.check("no times: the selected row stays", self.selected().startswith("job0"), self.selected())
        self.press("0")
        self.check("no times: all of the time", is_whole() and axis() != chosen, axis())
        self.end_page("no times")
        server.end()
        self.show("calls", page_of(lambda take: [take({"call": "event", "level": "INFO"}) for _ in range(40)]))
        whole = axis()
        drag(0.25, 0.5)
        self.check("no times: when all is read, calls can be chosen", axis() != whole and not is_whole(), axis())
        self.end_page("calls")
