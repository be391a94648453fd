"""A headless Firefox, driven over its Marionette protocol with only the standard library. It has
the methods of `Browser`, so that tests can take either."""
import base64, json, os, shutil, socket, subprocess, tempfile, time
from browser import Browser

PREFERENCES = {"browser.shell.checkDefaultBrowser": False, "datareporting.policy.dataSubmissionEnabled": False, "app.normandy.enabled": False,
               "toolkit.telemetry.server": "", "network.captive-portal-service.enabled": False, "network.connectivity-service.enabled": False,
               "services.settings.server": "data:,", "extensions.update.enabled": False, "dom.push.connection.enabled": False}


# The seconds that a script of a test may take.
PATIENCE = 120


def find_firefox():
    """Returns the path of Firefox, if it is installed."""
    return next((path for path in map(shutil.which, ("firefox-esr", "firefox")) if path), None)


class Firefox:
    until = Browser.until
    click = Browser.click
    KEYS = {"Enter": "\ue007", "Home": "\ue011", "End": "\ue010", "ArrowLeft": "\ue012", "ArrowUp": "\ue013", "ArrowRight": "\ue014", "ArrowDown": "\ue015",
            "Escape": "\ue00c", "Tab": "\ue004", "PageDown": "\ue00f", "PageUp": "\ue00e"}

    def __init__(self):
        self.profile, self.buffer, self.number = tempfile.mkdtemp(prefix="page-test-"), b"", 0
        with socket.socket() as free:
            free.bind(("127.0.0.1", 0))
            port = free.getsockname()[1]
        with open(os.path.join(self.profile, "user.js"), "w", encoding="utf-8") as file:
            for name, value in {**PREFERENCES, "marionette.port": port}.items():
                file.write(f"user_pref({json.dumps(name)}, {json.dumps(value)});\n")
        self.process = subprocess.Popen(["nice", find_firefox(), "--headless", "--marionette", "--remote-allow-system-access", "--no-remote", "--profile", self.profile, "about:blank"],
                                        stdout=subprocess.DEVNULL, stderr=subprocess.DEVNULL, start_new_session=True)
        self.socket = self.connect(port)
        self.receive()
        self.send("WebDriver:NewSession", capabilities={"alwaysMatch": {"pageLoadStrategy": "none", "timeouts": {"script": 1000 * PATIENCE}}})
        self.home = self.send("WebDriver:GetWindowHandle")["value"]

    def connect(self, port, patience=60):
        end = time.time() + patience
        while True:
            try:
                connection = socket.create_connection(("127.0.0.1", port), patience)
                connection.settimeout(PATIENCE + patience)
                return connection
            except OSError:
                if time.time() > end:
                    raise
                time.sleep(0.05)

    def send(self, method, **params):
        self.number += 1
        message = json.dumps([0, self.number, method, params]).encode()
        self.socket.sendall(b"%d:%s" % (len(message), message))
        _, _, error, result = self.receive()
        if error:
            raise RuntimeError(f"{method}: {error['message']}")
        return result

    def receive(self):
        while b":" not in self.buffer:
            self.read()
        length, self.buffer = self.buffer.split(b":", 1)
        while len(self.buffer) < int(length):
            self.read()
        message, self.buffer = self.buffer[:int(length)], self.buffer[int(length):]
        return json.loads(message)

    def read(self):
        data = self.socket.recv(1 << 20)
        if not data:
            raise RuntimeError("Firefox has ended")
        self.buffer += data

    def open(self, width=1280, height=800, dark=False, mobile=False, scale=1):
        """Opens a new tab."""
        handle = self.send("WebDriver:NewWindow", type="tab", focus=True)["handle"]
        self.send("WebDriver:SwitchToWindow", handle=handle, focus=True)
        self.size(width, height)
        self.dark(dark)

    def close(self):
        self.send("WebDriver:CloseWindow")
        self.send("WebDriver:SwitchToWindow", handle=self.home, focus=True)

    def size(self, width, height):
        """Sets the size of what a page has. The window is larger."""
        self.send("WebDriver:SetWindowRect", width=width, height=height)
        inner = self.run("[innerWidth, innerHeight]")
        self.send("WebDriver:SetWindowRect", width=2 * width - inner[0], height=2 * height - inner[1])

    def dark(self, is_dark):
        self.run_inside(f"Services.prefs.setIntPref('layout.css.prefers-color-scheme.content-override', {0 if is_dark else 1})")

    def go(self, url):
        self.run_inside("Services.console.reset()")
        if url.startswith("http:"):  # Navigate would wait for the end of the page
            self.run(f"void setTimeout(() => location.href = {json.dumps(url)})")
        else:
            self.send("WebDriver:Navigate", url=url)

    def run(self, text):
        return self.send("WebDriver:ExecuteScript", script=f"return ({text})", args=[])["value"]

    def run_inside(self, text):
        """Runs a script of the browser itself."""
        self.send("Marionette:SetContext", value="chrome")
        try:
            return self.send("WebDriver:ExecuteScript", script=text, args=[])["value"]
        finally:
            self.send("Marionette:SetContext", value="content")

    def fetched(self):
        """Returns the addresses that the page has fetched."""
        return self.run("[location.href, ...performance.getEntriesByType('resource').map(it => it.name)]")

    def told(self):
        """Returns what the page has on the console."""
        return self.run_inside("return Services.console.getMessageArray().filter(it => it instanceof Ci.nsIScriptError && it.innerWindowID && !/^(resource|chrome|moz)/.test(it.sourceName)).map(it => it.toString())")

    def act(self, kind, *actions, **more):
        self.send("WebDriver:PerformActions", actions=[{"type": kind, "id": kind, "actions": list(actions), **more}])

    def key(self, key):
        value = self.KEYS.get(key, key)
        self.act("key", {"type": "keyDown", "value": value}, {"type": "keyUp", "value": value})

    def type(self, text):
        self.act("key", *[{"type": kind, "value": it} for it in text for kind in ("keyDown", "keyUp")])

    def mouse(self, kind, x, y, **_):
        steps = [{"type": "pointerMove", "x": round(x), "y": round(y), "duration": 0}]
        if kind != "mouseMoved":
            steps.append({"type": "pointerDown" if kind == "mousePressed" else "pointerUp", "button": 0})
        self.act("pointer", *steps, parameters={"pointerType": "mouse"})

    def shot(self, path):
        with open(path, "wb") as file:
            file.write(base64.b64decode(self.send("WebDriver:TakeScreenshot", full=False)["value"]))

    def end(self):
        try:
            self.send("Marionette:Quit", flags=["eForceQuit"])
        except (OSError, RuntimeError):
            pass
        try:
            self.process.wait(20)
        except subprocess.TimeoutExpired:
            self.process.kill()
        shutil.rmtree(self.profile, ignore_errors=True)
