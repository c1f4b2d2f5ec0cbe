"""A headless browser that is driven by the DevTools protocol over two pipes, with the standard library alone."""
import fcntl
import json
import os
import shutil
import subprocess
import tempfile

WORDS = ["--headless", "--no-sandbox", "--disable-gpu", "--hide-scrollbars", "--no-first-run", "--remote-debugging-pipe", "about:blank"]
# The keys of a keyboard that have no character.
NAMED = {"\ue007": ("Enter", "\r"), "\ue00c": ("Escape", "")}


def is_there():
    return bool(shutil.which("chromium"))


class Browser:
    """A page of Chromium; `with Browser() as it:` ends it."""

    def __enter__(self):
        self.profile = tempfile.TemporaryDirectory(prefix="tapa-chromium-", ignore_cleanup_errors=True)
        (theirs, self.to), (self.back, ours) = os.pipe(), os.pipe()
        high = [fcntl.fcntl(end, fcntl.F_DUPFD_CLOEXEC, 10) for end in (theirs, ours)]
        command = [shutil.which("chromium"), f"--user-data-dir={self.profile.name}", *WORDS]

        def join():
            # the browser reads from its descriptor 3 and writes to its descriptor 4
            os.dup2(high[0], 3)
            os.dup2(high[1], 4)

        self.process = subprocess.Popen(command, preexec_fn=join, close_fds=False, stdin=subprocess.DEVNULL, stdout=subprocess.DEVNULL, stderr=subprocess.DEVNULL)
        for end in (theirs, ours, *high):
            os.close(end)
        self.number, self.rest, self.events, self.session = 0, b"", [], None
        page = self.devtools("Target.createTarget", {"url": "about:blank"})["targetId"]
        self.session = self.devtools("Target.attachToTarget", {"targetId": page, "flatten": True})["sessionId"]
        for domain in ("Page", "Runtime", "Log"):
            self.devtools(f"{domain}.enable")
        self.resize(1400)
        return self

    def __exit__(self, *_):
        self.session = None
        self.devtools("Browser.close")
        self.process.wait()
        os.close(self.to)
        os.close(self.back)
        self.profile.cleanup()

    def devtools(self, command, words=None):
        """What the browser answers; events that come before that are kept."""
        self.number += 1
        session = {"sessionId": self.session} if self.session else {}
        os.write(self.to, json.dumps({"id": self.number, "method": command, "params": words or {}, **session}).encode() + b"\0")
        while True:
            message = self.message()
            if message.get("id") == self.number:
                if "error" in message:
                    raise RuntimeError(f"{command}: {message['error']}")
                return message["result"]
            self.events.append(message)

    def message(self):
        while b"\0" not in self.rest:
            more = os.read(self.back, 1 << 20)
            if not more:
                raise RuntimeError("Chromium has ended")
            self.rest += more
        message, _, self.rest = self.rest.partition(b"\0")
        return json.loads(message)

    def resize(self, width, height=1000):
        self.devtools("Emulation.setDeviceMetricsOverride", {"width": width, "height": height, "deviceScaleFactor": 1, "mobile": False})

    def open(self, path):
        """Shows a file, and returns what its scripts complained of."""
        self.events = []
        self.devtools("Page.navigate", {"url": f"file://{path}"})
        while all(it["method"] != "Page.loadEventFired" for it in self.events):
            self.events.append(self.message())
        return self.complaints()

    def complaints(self):
        self.run("return 0")
        thrown = [str(it["params"]["exceptionDetails"]) for it in self.events if it["method"] == "Runtime.exceptionThrown"]
        return thrown + [it["params"]["entry"]["text"] for it in self.events if it["method"] == "Log.entryAdded" and it["params"]["entry"]["level"] == "error"]

    def begin_counting(self):
        """Counts what the page's own thread computes from here on."""
        self.devtools("Performance.disable")
        self.devtools("Performance.enable", {"timeDomain": "threadTicks"})

    def seconds(self):
        """The seconds of processor that the page took since then, whatever else the machine does."""
        return {it["name"]: it["value"] for it in self.devtools("Performance.getMetrics")["metrics"]}["TaskDuration"]

    def run(self, script):
        """What a function's body returns in the page."""
        said = self.devtools("Runtime.evaluate", {"expression": f"(() => {{{script}\n}})()", "returnByValue": True})
        if "exceptionDetails" in said:
            raise RuntimeError(said["exceptionDetails"]["exception"].get("description", ""))
        return said["result"].get("value")

    def press(self, keys):
        for key in keys:
            name, text = NAMED.get(key, (key, key))
            self.devtools("Input.dispatchKeyEvent", {"type": "keyDown", "key": name, "text": text})
            self.devtools("Input.dispatchKeyEvent", {"type": "keyUp", "key": name})
