"""A Chromium without a window, driven over its debugging pipe: the protocol's messages are JSON texts that end with a
zero byte."""
import json
import os
import select
import shutil
import subprocess
import tempfile
import time

LONGEST = 60  # seconds for an answer of the browser
FLAGS = ["--headless", "--no-sandbox", "--hide-scrollbars", "--no-first-run", "--disable-extensions",
         "--disable-background-networking", "--remote-debugging-pipe"]
OTHER_KEYS = {"Enter": {"text": "\r", "windowsVirtualKeyCode": 13}, "Escape": {"windowsVirtualKeyCode": 27}}
COMPLAINTS = ("Runtime.exceptionThrown", "Runtime.consoleAPICalled", "Log.entryAdded", "Audits.issueAdded")


def find_chromium():
    """The path of a Chromium, which the variable CHROMIUM may name, or None where there is none."""
    names = [os.environ.get("CHROMIUM", ""), "chromium", "chromium-browser", "google-chrome"]
    return next(filter(None, map(shutil.which, names)), None)


class Browser:
    def __init__(self, program):
        self.folder = tempfile.mkdtemp()
        to_read, self.out = os.pipe()
        self.into, to_write = os.pipe()

        def pipes():  # the browser reads commands from 3, and writes answers to 4
            first, second = os.dup(to_read), os.dup(to_write)
            os.dup2(first, 3)
            os.dup2(second, 4)

        self.process = subprocess.Popen([program, *FLAGS, f"--user-data-dir={self.folder}", "about:blank"],
                                        preexec_fn=pipes, close_fds=False, stdout=subprocess.DEVNULL,
                                        stderr=subprocess.DEVNULL)
        os.close(to_read)
        os.close(to_write)
        self.count, self.buffer, self.events, self.session, self.answers = 0, b"", [], None, {}
        target = next(it for it in self.call("Target.getTargets")["targetInfos"] if it["type"] == "page")
        self.session = self.call("Target.attachToTarget", targetId=target["targetId"], flatten=True)["sessionId"]
        for domain in ("Page", "Runtime", "Log", "Network"):
            self.call(f"{domain}.enable")
        self.call("Performance.enable", timeDomain="threadTicks")  # of the processor, and not of the clock
        self.call("Page.setLifecycleEventsEnabled", enabled=True)

    # ---- messages

    def read(self):
        """Reads a message: an answer, which is kept by its number, or an event."""
        end = time.monotonic() + LONGEST
        while b"\0" not in self.buffer:
            if not select.select([self.into], [], [], max(0, end - time.monotonic()))[0]:
                raise TimeoutError("the browser is silent")
            more = os.read(self.into, 1 << 20)
            if not more:
                raise TimeoutError("the browser has ended")
            self.buffer += more
        message, self.buffer = self.buffer.split(b"\0", 1)
        message = json.loads(message)
        if "id" in message:
            self.answers[message["id"]] = message
        else:
            self.events.append(message)

    def send(self, method, **params):
        """Sends a command; the number that its answer will have."""
        self.count += 1
        message = {"id": self.count, "method": method, "params": params}
        if self.session:
            message["sessionId"] = self.session
        os.write(self.out, json.dumps(message).encode() + b"\0")
        return self.count

    def answer(self, number):
        while number not in self.answers:
            self.read()
        answer = self.answers.pop(number)
        assert "error" not in answer, answer
        return answer["result"]

    def call(self, method, **params):
        return self.answer(self.send(method, **params))

    # ---- pages

    def size(self, width, height, **media):
        """Sets the size of the window, and what the user prefers, as `prefers-color-scheme`."""
        self.call("Emulation.setDeviceMetricsOverride", width=width, height=height, deviceScaleFactor=1,
                  mobile=width < 500)
        features = [{"name": name.replace("_", "-"), "value": value} for name, value in media.items()]
        self.call("Emulation.setEmulatedMedia", features=features)

    def open(self, path, part=""):
        """Opens a page anew: from elsewhere, since an address that differs in its last part alone doesn't load."""
        for url in ("about:blank", f"file://{path}{part}"):
            self.events = []
            loader = self.call("Page.navigate", url=url).get("loaderId")
            while not any(self.is_loaded(it, loader) for it in self.events):
                self.read()

    @staticmethod
    def is_loaded(event, loader):
        told = event.get("params", {})
        return event.get("method") == "Page.lifecycleEvent" and told["name"] == "load" and told["loaderId"] == loader

    def run(self, script):
        """The value of an expression; that of a promise is waited for."""
        answer = self.call("Runtime.evaluate", expression=script, returnByValue=True, awaitPromise=True)
        assert "exceptionDetails" not in answer, answer
        return answer["result"].get("value")

    def press(self, *keys):
        """Presses keys, one after another, which are taken in this order."""
        sent = []
        for key in keys:
            more = {"text": key} if len(key) == 1 else OTHER_KEYS.get(key, {})
            sent += [self.send("Input.dispatchKeyEvent", type="keyDown", key=key, **more),
                     self.send("Input.dispatchKeyEvent", type="keyUp", key=key)]
        for number in sent:
            self.answer(number)

    def text(self, name):
        return self.run(f"document.getElementById('{name}').textContent")

    def complaints(self):
        """What the page threw, and what stands on the console."""
        return [json.dumps(it["params"])[:300] for it in self.events if it["method"] in COMPLAINTS]

    def asked(self):
        """All that was asked for since the page was opened."""
        sent = (it["params"] for it in self.events if it["method"] == "Network.requestWillBeSent")
        return {it["request"]["url"].split("#")[0] for it in sent}

    def end(self):
        """Ends the browser, by force where it doesn't answer."""
        self.session = None
        try:
            self.call("Browser.close")
            self.process.wait(10)
        except (AssertionError, OSError, TimeoutError, subprocess.TimeoutExpired):
            self.process.kill()
            self.process.wait()
        shutil.rmtree(self.folder, ignore_errors=True)


class Browsers:
    """A browser, and another one in its place where it was silent."""

    def __init__(self, program):
        self.program, self.browser = program, None

    def __enter__(self):
        self.browser = Browser(self.program)
        return self

    def __exit__(self, *_):
        self.browser.end()

    def run(self, part, *args):
        """What a part gives that is passed the browser. It is begun once more where the browser was silent, for which
        a machine without memory or time may be the reason."""
        try:
            return part(self.browser, *args)
        except TimeoutError:
            self.browser.end()
            self.browser = Browser(self.program)
            return part(self.browser, *args)
