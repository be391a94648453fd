"""A headless Chromium, driven over its debugging pipe with only the standard library."""
import base64, json, os, select, shutil, subprocess, tempfile, time


def find_browser():
    """Returns the path of Chromium, if it is installed."""
    names = ("chromium", "chromium-browser", "google-chrome")
    return next((path for path in map(shutil.which, names) if path), None)


class Browser:
    def __init__(self, width=1280, height=800, flags=()):
        to_browser, self.write_end = os.pipe()
        self.read_end, from_browser = os.pipe()
        self.profile = tempfile.mkdtemp(prefix="page-test-")
        program = find_browser()

        def place_pipes():  # the browser reads commands from 3 and answers on 4
            low, high = os.dup(to_browser), os.dup(from_browser)
            os.dup2(low, 3), os.dup2(high, 4)
            os.set_inheritable(3, True), os.set_inheritable(4, True)

        self.process = subprocess.Popen(
            ["nice", program, "--headless=new", "--no-sandbox", "--disable-gpu", "--remote-debugging-pipe", "--hide-scrollbars=false",
             "--no-first-run", "--disable-extensions", "--disable-background-networking", f"--user-data-dir={self.profile}",
             "--force-color-profile=srgb", "--enable-precise-memory-info", f"--window-size={width},{height}", *flags, "about:blank"],
            close_fds=False, preexec_fn=place_pipes, stdout=subprocess.DEVNULL, stderr=subprocess.DEVNULL, start_new_session=True)
        os.close(to_browser), os.close(from_browser)
        self.buffer, self.next, self.session, self.events = b"", 1, None, []

    def open(self, width=1280, height=800, dark=False, mobile=False, scale=1):
        """Opens a new tab."""
        target = self.send("Target.createTarget", {"url": "about:blank"}, None)["targetId"]
        self.session = self.send("Target.attachToTarget", {"targetId": target, "flatten": True}, None)["sessionId"]
        self.target = target
        for domain in ("Page", "Runtime", "Network", "Log", "Performance"):
            self.send(f"{domain}.enable")
        self.size(width, height, mobile, scale)
        self.dark(dark)

    def close(self):
        self.send("Target.closeTarget", {"targetId": self.target}, None)

    def size(self, width, height, mobile=False, scale=1):
        self.send("Emulation.setDeviceMetricsOverride", {"width": width, "height": height, "deviceScaleFactor": scale, "mobile": mobile})
        self.send("Emulation.setTouchEmulationEnabled", {"enabled": mobile})

    def dark(self, is_dark):
        self.send("Emulation.setEmulatedMedia", {"features": [{"name": "prefers-color-scheme", "value": "dark" if is_dark else "light"}]})

    def send(self, method, params=None, session="own", patience=180):
        number, self.next = self.next, self.next + 1
        message = {"id": number, "method": method, "params": params or {}}
        if session == "own" and self.session:
            message["sessionId"] = self.session
        os.write(self.write_end, json.dumps(message).encode() + b"\0")
        end = time.time() + patience
        while True:
            answer = self.receive(end)
            if answer.get("id") == number:
                if "error" in answer:
                    raise RuntimeError(f"{method}: {answer['error']}")
                return answer["result"]
            self.events.append(answer)

    def receive(self, end):
        while b"\0" not in self.buffer:
            if not select.select([self.read_end], [], [], max(0, end - time.time()))[0]:
                raise TimeoutError
            self.buffer += os.read(self.read_end, 1 << 20)
        text, self.buffer = self.buffer.split(b"\0", 1)
        return json.loads(text)

    def go(self, url):
        self.events.clear()
        self.send("Page.navigate", {"url": url})

    def fetched(self):
        """Returns the addresses that the page has fetched, also its own."""
        self.run("0")
        return [it["params"]["request"]["url"] for it in self.events if it.get("method") == "Network.requestWillBeSent"]

    def told(self):
        """Returns what the page has on the console, and its dialogs."""
        kinds = ("Runtime.exceptionThrown", "Runtime.consoleAPICalled", "Log.entryAdded", "Page.javascriptDialogOpening")
        return [it for it in self.events if it.get("method") in kinds]

    def run(self, text, patience=180):
        answer = self.send("Runtime.evaluate", {"expression": text, "awaitPromise": True, "returnByValue": True}, patience=patience)
        if "exceptionDetails" in answer:
            raise RuntimeError(answer["exceptionDetails"].get("exception", {}).get("description", str(answer["exceptionDetails"])))
        return answer["result"].get("value")

    def until(self, condition, patience=120):
        end = time.time() + patience
        while time.time() < end:
            try:
                if self.run(condition):
                    return True
            except RuntimeError:
                pass
            time.sleep(0.02)
        raise TimeoutError(condition)

    KEYS = {"Enter": 13, "Home": 36, "End": 35, "ArrowUp": 38, "ArrowDown": 40, "ArrowLeft": 37, "ArrowRight": 39, "Escape": 27, "Tab": 9, "PageDown": 34, "PageUp": 33}

    def key(self, key, modifiers=0):
        code = self.KEYS.get(key, ord(key[0].upper()))
        text = {} if key in self.KEYS and key != "Enter" else {"text": "\r" if key == "Enter" else key}
        common = {"key": key, "windowsVirtualKeyCode": code, "modifiers": modifiers}
        self.send("Input.dispatchKeyEvent", {"type": "keyDown" if text else "rawKeyDown", **common, **text})
        self.send("Input.dispatchKeyEvent", {"type": "keyUp", **common})

    def type(self, text):
        self.send("Input.insertText", {"text": text})

    def mouse(self, kind, x, y, **more):
        self.send("Input.dispatchMouseEvent", {"type": kind, "x": x, "y": y, "button": "left" if kind != "mouseWheel" else "none", "clickCount": 1 if kind != "mouseWheel" else 0, **more})

    def click(self, x, y):
        self.mouse("mousePressed", x, y, buttons=1)
        self.mouse("mouseReleased", x, y)

    def shot(self, path):
        data = self.send("Page.captureScreenshot", {"format": "png"})["data"]
        with open(path, "wb") as file:
            file.write(base64.b64decode(data))

    def end(self):
        try:
            self.send("Browser.close", {}, None, 5)
        except Exception:
            pass
        try:
            self.process.wait(10)
        except subprocess.TimeoutExpired:
            self.process.kill()
        shutil.rmtree(self.profile, ignore_errors=True)
