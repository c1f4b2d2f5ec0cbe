"""Bytes for a language server, made at random: right requests, wrong ones, cut ones, and what is no message."""
import json

from runner.trial import read

NOTES = ["textDocument/didOpen", "textDocument/didOpen", "textDocument/didChange", "textDocument/didChange", "textDocument/didChange", "textDocument/didSave", "textDocument/didClose"]
REQUESTS = ["textDocument/hover", "textDocument/definition", "textDocument/references", "textDocument/documentHighlight", "textDocument/prepareRename", "textDocument/rename", "textDocument/completion",
            "textDocument/documentSymbol"]
METHODS = ["initialize", "initialized", "shutdown", "textDocument/didOpen", "textDocument/didChange", "textDocument/didSave", "textDocument/didClose", "textDocument/hover", "textDocument/definition",
           "textDocument/references", "textDocument/documentHighlight", "textDocument/prepareRename", "textDocument/rename", "textDocument/completion", "textDocument/documentSymbol", "$/cancelRequest",
           "$/setTrace", "workspace/didChangeConfiguration", "textDocument/nothing", "", "\ud800", "x" * 500]
VALUES = [None, True, False, 0, 1, -1, 3, 2**31, 2**64, 1.5, "", "x", "file:///t.cpp", "file:///%00", "file://", "untitled:1", "\x00", "\ud800", "é𝄞", [], {}, [[]], [{}], {"x": 1}, "tapa::stream<int> q;"]
URIS = ["file:///none/a.cpp", "untitled:a"]
PIECES = ["void T(", "tapa::istream<int>& q", ") {", "}", "{", "tapa::task()", ".invoke(", "T, q", ")", ";", "int x = ", "1", "q.", "read()", "/*", "\"", "\n", "\r", "\r\n", "é", "𝄞", "\x00", "\ud800", "[[", "]]", "streams<int, 3>", "tapa::", " "]
HEADERS = [b"", b"Content-Length: 5\r\n\r\n", b"Content-Length: -1\r\n\r\n", b"Content-Length: x\r\n\r\n", b"Content-Length: 99999999999\r\n\r\n", b"content-length:3\r\n\r\n{}\n", b"\r\n\r\n", b"\x00" * 40, b"Content-Type: x\r\n\r\n",
           b"Content-Length: 2\r\n\r\n{", b"Content-Length: 2\r\nContent-Type: x\r\n\r\n{}", b"Content-Length: 0\r\n\r\n", b"Content-Length: 6\r\n\r\n[1, 2]", b"Content-Length: 4\r\n\r\nnull"]


SOURCE = read("tests/cases/files/messages.cpp")


def text(some):
    """Pieces of a source, or a source that is cut or has some of them in it."""
    if some.random() < 0.5:
        begin, end = sorted(some.randrange(len(SOURCE)) for _ in range(2))
        return SOURCE[:begin] + some.choice(["", "", some.choice(PIECES)]) + (SOURCE[begin:] if some.random() < 0.7 else SOURCE[end:])
    return "".join(some.choice(PIECES) for _ in range(some.randrange(60)))


def position(some):
    if some.random() < 0.1:
        return some.choice(VALUES)
    wild = some.random() < 0.1
    return {"line": some.choice(VALUES) if wild else some.randrange(6), "character": some.choice(VALUES) if wild and some.random() < 0.5 else some.randrange(170)}


def change(some):
    found = {"text": text(some)}
    if some.random() < 0.8:
        found["range"] = {"start": position(some), "end": position(some)} if some.random() < 0.9 else some.choice(VALUES)
    return found


def params(some):
    """Parameters that are right, or not."""
    if some.random() < 0.15:
        return some.choice(VALUES)
    named = {"uri": some.choice(URIS), "version": some.randrange(9), "text": text(some), "languageId": "cpp"}
    found = {"textDocument": named if some.random() < 0.95 else some.choice(VALUES), "position": position(some), "newName": some.choice(["x", "q", "int", "", "9", "é"]), "context": {"includeDeclaration": some.random() < 0.5}}
    found["contentChanges"] = [change(some) for _ in range(some.randrange(3))] if some.random() < 0.95 else some.choice(VALUES)
    if some.random() < 0.2:
        found.pop(some.choice(list(found)))
    return found


def message(some):
    """The bytes of a message, or of something else; never of `exit`, and seldom of `shutdown`."""
    roll = some.random()
    if roll < 0.08:
        return some.choice(HEADERS)
    method = some.choice(METHODS if some.random() < 0.1 else NOTES if some.random() < 0.4 else REQUESTS)
    value = {"jsonrpc": "2.0", "method": "initialized" if method == "shutdown" else method, "params": params(some)}
    if method in REQUESTS or some.random() < 0.1:
        value["id"] = some.choice([1, 2, "a", 7, some.choice(VALUES)])
    if some.random() < 0.05:
        value.pop(some.choice(list(value)))
    body = json.dumps(value if some.random() < 0.97 else some.choice(VALUES)).encode()
    if roll < 0.12:
        at = some.randrange(len(body))
        body = body[:at] + bytes([some.randrange(256)]) + body[at + 1:]
    whole = b"Content-Length: %d\r\n\r\n%b" % (len(body), body)
    return whole[:some.randrange(len(whole))] if roll < 0.16 else whole
