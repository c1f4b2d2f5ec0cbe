"""Clients of the Language Server Protocol, as an editor is one: one by pipes, and one of a server within this process."""
import json
import os
import select
import subprocess
import time

from vechaqir.editor import server
from vechaqir.host.program import Program

URI = "file:///none/network.cpp"
END = b"\r\n\r\n"


def framed(message):
    body = json.dumps({"jsonrpc": "2.0", **message}).encode()
    return b"Content-Length: %d\r\n\r\n%b" % (len(body), body)


def messages(held):
    """The messages that are whole in some bytes, and the bytes after them."""
    found = []
    while END in held:
        head, _, rest = held.partition(END)
        length = int(head.split(b":")[1])
        if len(rest) < length:
            break
        found.append(json.loads(rest[:length]))
        held = rest[length:]
    return found, held


class Client:
    """A server that is started by these words, and what it has sent; `with Client(words) as it:` ends it."""

    def __init__(self, words, environment=None):
        self.running = subprocess.Popen(words, stdin=subprocess.PIPE, stdout=subprocess.PIPE, stderr=subprocess.PIPE, env=environment)
        self.held, self.waiting, self.number = b"", [], 0

    def __enter__(self):
        return self

    def __exit__(self, *_):
        if self.running.poll() is None:
            self.running.kill()
        self.running.communicate()

    def raw(self, data):
        self.running.stdin.write(data)
        self.running.stdin.flush()

    def note(self, method, params=None):
        self.raw(framed({"method": method, "params": params}))

    def next(self, seconds=30):
        """The next message; None if there is none in time, or if the server has ended."""
        end = time.monotonic() + seconds
        while not self.waiting:
            left = end - time.monotonic()
            if left <= 0 or not select.select([self.running.stdout], [], [], left)[0]:
                return None
            piece = os.read(self.running.stdout.fileno(), 1 << 16)
            if not piece:
                return None
            found, self.held = messages(self.held + piece)
            self.waiting += found
        return self.waiting.pop(0)

    def ask(self, method, params=None):
        """The answer to a request; what comes before it is passed over."""
        self.number += 1
        self.raw(framed({"id": self.number, "method": method, "params": params}))
        return self.until(lambda it: it.get("id") == self.number and "method" not in it)

    def until(self, is_wanted):
        while True:
            found = self.next()
            if found is None or is_wanted(found):
                return found

    def begin(self, capabilities=None):
        answer = self.ask("initialize", {"processId": None, "rootUri": None, "capabilities": capabilities or {}})
        self.note("initialized", {})
        return answer

    def open(self, uri, text, version=1):
        self.note("textDocument/didOpen", {"textDocument": {"uri": uri, "languageId": "cpp", "version": version, "text": text}})

    def diagnostics(self, uri, version=None):
        """The next diagnostics of a text, or of a version of it."""
        found = self.until(lambda it: it.get("method") == "textDocument/publishDiagnostics" and it["params"]["uri"] == uri and version in (None, it["params"].get("version")))
        return found["params"]["diagnostics"] if found else None

    def end(self):
        """The status after `shutdown` and `exit`, and what the server wrote to standard error."""
        self.ask("shutdown")
        self.note("exit")
        _, err = self.running.communicate(timeout=30)
        return self.running.returncode, err


class Inside:
    """A server within this process, and the messages that it has sent."""

    def __init__(self, program):
        self.sent = []
        self.server = server.Server(self.told, Program(program, False))
        self.number = 0

    def told(self, data):
        found, rest = messages(data)
        assert not rest
        self.sent += found

    def note(self, method, params):
        self.server.take(framed({"method": method, "params": params}))

    def ask(self, method, params):
        self.number += 1
        self.server.take(framed({"id": self.number, "method": method, "params": params}))
        return next(it for it in reversed(self.sent) if it.get("id") == self.number)

    def begin(self, text, uri=URI):
        self.ask("initialize", {"capabilities": {}})
        self.note("textDocument/didOpen", {"textDocument": {"uri": uri, "languageId": "cpp", "version": 1, "text": text}})
        return self.settle()

    def settle(self):
        """Does all that is due; the diagnostics that were sent last."""
        while self.server.due or self.server.searches:
            time.sleep(self.server.wait() or 0)
            self.server.idle()
        found = [it for it in self.sent if it.get("method") == "textDocument/publishDiagnostics"]
        return found[-1]["params"]["diagnostics"] if found else None

    def change(self, text, uri=URI):
        self.note("textDocument/didChange", {"textDocument": {"uri": uri, "version": 2}, "contentChanges": [{"text": text}]})
        return self.settle()
