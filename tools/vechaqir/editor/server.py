"""The server: it takes messages one after another, answers requests, and checks each text once its editor has been still for a moment."""
import os
import select
import time
from typing import Any, Callable, Dict, Iterator, List, Mapping, Optional

from ..host import program
from ..host.program import NoProgram, Program, TimedOut
from . import protocol
from .answers import ANSWERS, Context
from .diagnose import Found, diagnostic, faults, is_source
from .document import UNITS, Document
from .protocol import INTERNAL, INVALID_PARAMS, INVALID_REQUEST, NO_METHOD, NOT_INITIALIZED, PARSE_ERROR, Bad, Wrong, list_at, optional, text_at

# Seconds after the last key until a text is checked, the most if keys go on, and after which a message that does not end was cut.
STILL, AT_MOST, CUT = 0.04, 1.0, 5.0
PIECE = 1 << 16
MOST_DOCUMENTS = 1_000
WARNING = 2

CAPABILITIES: Dict[str, Any] = {
    "textDocumentSync": {"openClose": True, "change": 2, "save": {"includeText": False}},
    "hoverProvider": True,
    "definitionProvider": True,
    "referencesProvider": True,
    "documentHighlightProvider": True,
    "documentSymbolProvider": True,
    "renameProvider": {"prepareProvider": True},
    "completionProvider": {"triggerCharacters": [".", ":", "(", ","]},
}


class Server:
    """One session. `send` gets the bytes of each message; `asked` is the program, found at the first check if none is given."""

    def __init__(self, send: Callable[[bytes], None], asked: Optional[Program] = None) -> None:
        self.send_bytes, self.asked = send, asked
        self.frames = protocol.Frames()
        self.context = Context(self.program)
        self.state, self.status = "new", 0
        self.due: Dict[str, float] = {}
        self.latest: Dict[str, float] = {}
        self.searches: Dict[str, Iterator[Found]] = {}
        self.found: Dict[str, List[Found]] = {}
        self.is_warned = False

    def send(self, message: Mapping[str, Any]) -> None:
        self.send_bytes(protocol.framed(message))

    # ---- messages

    def take(self, piece: bytes) -> None:
        """Takes bytes, and answers all messages that are whole."""
        self.frames.add(piece)
        while self.state != "ended":
            message = self.frames.next()
            if message is None:
                return
            if isinstance(message, Bad):
                self.send(protocol.error(None, PARSE_ERROR, message.text))
            else:
                self.message(message[0])

    def message(self, message: Any) -> None:
        if not isinstance(message, dict) or message.get("jsonrpc") != "2.0":
            self.send(protocol.error(None, INVALID_REQUEST, "not an object with `jsonrpc` 2.0"))
            return
        number, method = message.get("id"), message.get("method")
        if isinstance(number, bool) or not isinstance(number, (int, str, type(None))):
            self.send(protocol.error(None, INVALID_REQUEST, "`id` is neither a whole number nor a string"))
        elif isinstance(method, str):
            self.called(number, "id" in message, method, message.get("params"))
        elif "result" not in message and "error" not in message:
            self.send(protocol.error(number, INVALID_REQUEST, "no `method`"))

    def called(self, number: Any, is_request: bool, method: str, params: Any) -> None:
        """A request, which is answered, or a notification, which never is."""
        try:
            if is_request:
                self.send(protocol.answer(number, self.request(method, params)))
            else:
                self.notified(method, params)
        except Wrong as why:
            if is_request:
                self.send(protocol.error(number, why.code, why.text))
        except (OSError, MemoryError):
            raise
        except Exception as why:  # pylint: disable=broad-except
            if is_request:
                self.send(protocol.error(number, INTERNAL, f"{type(why).__name__} in tools/lsp.py"))
            else:
                self.warn(f"{method[:100]}: {type(why).__name__} in tools/lsp.py")

    def request(self, method: str, params: Any) -> Any:
        if method == "initialize":
            return self.initialize(params)
        if self.state == "new":
            raise Wrong(NOT_INITIALIZED, "`initialize` comes first")
        if self.state == "shut down":
            raise Wrong(INVALID_REQUEST, "the server is shut down")
        if method == "shutdown":
            self.state = "shut down"
            return None
        if method not in ANSWERS:
            raise Wrong(NO_METHOD, f"no method {method[:100]}")
        return ANSWERS[method](self.context, params)

    def notified(self, method: str, params: Any) -> None:
        if method == "exit":
            self.status, self.state = 0 if self.state == "shut down" else 1, "ended"
        elif self.state == "ready" and method in NOTIFIED:
            NOTIFIED[method](self, params)

    def initialize(self, params: Any) -> Any:
        if self.state != "new":
            raise Wrong(INVALID_REQUEST, "`initialize` comes once")
        offered = optional(params, "capabilities", "general", "positionEncodings")
        units = next((it for it in UNITS if isinstance(offered, list) and it in offered), "utf-16")
        formats = optional(params, "capabilities", "textDocument", "hover", "contentFormat")
        top = optional(params, "initializationOptions", "top")
        self.context.units = units
        self.context.is_markdown = isinstance(formats, list) and "markdown" in formats
        self.context.top = top if isinstance(top, str) else None
        self.state = "ready"
        return {"capabilities": {**CAPABILITIES, "positionEncoding": units}, "serverInfo": {"name": "tapa"}}

    # ---- texts

    def opened(self, params: Any) -> None:
        uri = text_at(params, "textDocument", "uri")
        if len(self.context.documents) >= MOST_DOCUMENTS and uri not in self.context.documents:
            raise Wrong(INVALID_PARAMS, f"more than {MOST_DOCUMENTS} documents are open")
        version = optional(params, "textDocument", "version")
        document = Document(uri, version if isinstance(version, int) else 0, text_at(params, "textDocument", "text"), self.context.units)
        self.context.documents[uri] = document
        self.context.saved[uri] = document.text
        self.is_due(uri)

    def changed(self, params: Any) -> None:
        document = self.context.document(params)
        for change in list_at(params, "contentChanges"):
            document.put(document.changed(change))
        version = optional(params, "textDocument", "version")
        document.version = version if isinstance(version, int) else document.version + 1
        self.is_due(document.uri)

    def saved(self, params: Any) -> None:
        document = self.context.document(params)
        self.context.saved[document.uri] = document.text
        self.is_due(document.uri)

    def closed(self, params: Any) -> None:
        document = self.context.document(params)
        for kept in (self.context.documents, self.context.saved, self.due, self.latest, self.searches, self.found):
            kept.pop(document.uri, None)  # type: ignore[attr-defined]
        self.send(protocol.notification("textDocument/publishDiagnostics", {"uri": document.uri, "diagnostics": []}))

    # ---- checks

    def is_due(self, uri: str) -> None:
        """Has a text checked once its editor is still."""
        now = time.monotonic()
        self.context.forget(uri)
        self.searches.pop(uri, None)
        self.latest.setdefault(uri, now + AT_MOST)
        self.due[uri] = min(now + STILL, self.latest[uri])

    def wait(self) -> Optional[float]:
        """Seconds until something is to be done; None if nothing is."""
        if self.searches:
            return 0.0
        return max(min(self.due.values()) - time.monotonic(), 0.0) if self.due else CUT if self.frames.held else None

    def idle(self) -> None:
        """Does what is due: the first check of a text, or a further step of one."""
        now = time.monotonic()
        for uri in [it for it, at in self.due.items() if at <= now]:
            del self.due[uri]
            self.latest.pop(uri, None)
            self.begin(uri)
            return
        for uri in list(self.searches):
            self.step(uri)
            return

    def begin(self, uri: str) -> None:
        """Begins to check a text, and publishes the first refusal, or that there is none."""
        document = self.context.documents[uri]
        self.found[uri] = []
        asked = self.program() if is_source(document.bytes) else None
        if asked:
            self.searches[uri] = faults(asked, document.bytes, self.context.analysis(document), self.context.top)
            self.step(uri)
        else:
            self.publish(document)

    def step(self, uri: str) -> None:
        document = self.context.documents[uri]
        try:
            more = next(self.searches[uri], None)
        except (NoProgram, TimedOut) as why:
            self.warn(str(why))
            self.asked, more = None, None
        except (LookupError, ValueError, TypeError, AttributeError, RecursionError) as why:
            self.warn(f"no diagnostics: {type(why).__name__} in tools/lsp.py")
            more = None
        if more is None:
            self.searches.pop(uri, None)
        else:
            self.found[uri].append(more)
        if more is not None or not self.found[uri]:
            self.publish(document)

    def publish(self, document: Document) -> None:
        told = [diagnostic(document, it) for it in sorted(self.found.get(document.uri, []), key=lambda it: it.begin)]
        self.send(protocol.notification("textDocument/publishDiagnostics", {"uri": document.uri, "version": document.version, "diagnostics": told}))

    def program(self) -> Optional[Program]:
        """The program, if it is built; the client is told once that it is not."""
        if self.asked is None:
            try:
                self.asked = program.find(build=False)
            except NoProgram as why:
                self.warn(f"{why}: there are no diagnostics until then")
        return self.asked

    def warn(self, text: str) -> None:
        if not self.is_warned:
            self.send(protocol.notification("window/showMessage", {"type": WARNING, "message": f"tapa: {text}"}))
        self.is_warned = True


def serve(given: int = 0, told: int = 1) -> int:
    """Serves one session on two file descriptors; the status is 0 after `shutdown` and `exit`, and 1 if the session ended otherwise."""
    server = Server(lambda data: written(told, data))
    while server.state != "ended":
        wait = server.wait()
        if select.select([given], [], [], wait)[0]:
            piece = os.read(given, PIECE)
            if not piece:
                return 0 if server.state == "shut down" else 1
            server.take(piece)
        elif server.due or server.searches:
            server.idle()
        elif server.frames.skip_cut():
            server.take(b"")
        else:
            server.frames.held.clear()
    return server.status


def written(number: int, data: bytes) -> None:
    while data:
        data = data[os.write(number, data):]


NOTIFIED: Dict[str, Callable[[Server, Any], None]] = {
    "textDocument/didOpen": Server.opened,
    "textDocument/didChange": Server.changed,
    "textDocument/didSave": Server.saved,
    "textDocument/didClose": Server.closed,
}
