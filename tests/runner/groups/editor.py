"""The language server `tools/lsp.py`, by a client that speaks its protocol: what it reports while a source is written, its answers, and bytes that are not messages. Neovim and
the extension for Visual Studio Code are tested if Neovim and node are installed. `tests/stress/more.py PROGRAM editor` sends 10,000 messages made at random."""
import os
import random
import re
import resource
import shutil
import subprocess
import sys
import time
from unittest import mock

from runner.client import URI, Client, Inside, framed
from runner.made import messages as made
from runner.groups.explanations import quoted
from runner.trial import ROOT, read
from vechaqir.editor import server

# The lines of a long source, and the most seconds of a processor from a change of it to its diagnostics. A machine of a quarter of the speed keeps it.
LINES, MOST_SECONDS = 2_000, 1.0
STAGE = """void Stage%d(tapa::istream<int>& in, tapa::ostream<int>& out, int n) {
  int total = 0;
  int window[16];
  for (int i = 0; i < n; ++i) {
    const int next = in.read();
    window[i %% 16] = next;
    if (total > 100) {
      total = total - 100;
    } else {
      total = total + window[(i + 1) %% 16];
    }
    out.write(total);
  }
}
"""


# ---- answers


def marks(text):
    """The positions, in UTF-16, behind the comments that name them."""
    found = {}
    for it in re.finditer(r"/\*(?!odd)([^*]+)\*/", text):
        before = text[:it.end()]
        line = before.rpartition("\n")[2]
        found[it[1]] = {"line": before.count("\n"), "character": len(line.encode("utf-16-le")) // 2}
    return found


def names_of(places, known):
    """The names of positions, `..` for one that has none."""
    by_place = {(it["line"], it["character"]): name for name, it in known.items()}
    return ", ".join(by_place.get((it["line"], it["character"]), "..") for it in places)


def answered(inside, row, known):
    """The text of an answer, and what is wanted of it."""
    request, *_ = row.split(" ")
    place, *more = quoted(row)
    params = {"textDocument": {"uri": URI}, "position": known[place], "context": {"includeDeclaration": True}, "newName": more[0]}
    answer = inside.ask(f"textDocument/{request}", params)
    result = answer.get("result")
    if request == "hover":
        return result["contents"]["value"] if result else "", more[0]
    if request == "completion":
        items = result["items"]
        first = ", ".join(it["label"] for it in items if it["sortText"][0] == "0")
        return [it.get("detail") or it["label"] for it in items] + [it["label"] for it in items] + [f"first {first}"], more[0]
    if "error" in answer:
        return answer["error"]["message"], more[-1]
    ranges = [it["range"] for it in (result if isinstance(result, list) else [result])] if request != "rename" else [it["range"] for it in result["changes"][URI]]
    return names_of([it["start"] for it in ranges], known), more[-1]


def holds(got, wanted):
    if isinstance(got, str):
        return wanted in got
    if wanted.startswith("no "):
        return wanted[3:] not in got
    return wanted in got if wanted.startswith("first ") or "(" in wanted and wanted in got else all(it in got for it in wanted.split(", "))


def try_answers(trial):
    """The rows of tests/cases/editor: hover, definition, references, rename and completion at named places of a source."""
    text = read("tests/cases/editor/network.cpp")
    inside = Inside(trial.program)
    trial.check_equal("a legal source has no diagnostics", inside.begin(text), [])
    known = marks(text)
    rows = [row for row in read("tests/cases/editor/questions.rows").splitlines() if row and not row.startswith("#")]
    for row in rows:
        got, wanted = answered(inside, row, known)
        trial.check(f"the server at {row}", holds(got, wanted), f"   {got}")
    trial.check("each name of the source is asked for", len(rows) >= 60, f"   {len(rows)}")


def try_edits(trial):
    """What is renamed is legal still, and gives the same report by other names."""
    text = read("tests/cases/editor/network.cpp")
    inside = Inside(trial.program)
    inside.begin(text)
    known = marks(text)
    for place, word in (("q of Pair", "data"), ("total", "all"), ("N", "FOUR"), ("Load", "Fetch"), ("sums", "results")):
        answer = inside.ask("textDocument/rename", {"textDocument": {"uri": URI}, "position": known[place], "newName": word})
        for it in sorted(answer["result"]["changes"][URI], key=lambda it: (it["range"]["start"]["line"], it["range"]["start"]["character"]), reverse=True):
            inside.note("textDocument/didChange", {"textDocument": {"uri": URI, "version": 2}, "contentChanges": [{"range": it["range"], "text": word}]})
        after = inside.server.context.documents[URI].text
        trial.check_equal(f"{place} renamed to {word} is legal", (inside.settle(), after != text), ([], True))
        inside.change(text)


def try_symbols(trial):
    """The constants and tasks of a source, each task with its streams."""
    inside = Inside(trial.program)
    inside.begin(read("tests/cases/editor/network.cpp"))
    found = inside.ask("textDocument/documentSymbol", {"textDocument": {"uri": URI}})["result"]
    trial.check_equal("symbols", [(it["name"], [inner["name"] for inner in it["children"]]) for it in found],
                      [("N", []), ("WIDE", []), ("Load", []), ("Sum", []), ("Pair", ["q"]), ("Store", []), ("Top", ["sums"])])


# ---- diagnostics


def try_diagnostics(trial):
    """What is reported of a source while it is changed, with its explanation, at the place in the client's columns."""
    text = read("tests/cases/editor/network.cpp")
    inside = Inside(trial.program)
    inside.begin(text)
    found = inside.change(text.replace("q./*read*/read()", "q./*read*/raed()"))
    is_told = [(it["code"], it["range"]["start"]["line"]) for it in found] == [("C6", 14)] and "a stream has no method `raed`" in found[0]["message"] and "instead: " in found[0]["message"]
    trial.check("a method that is not there", is_told, f"   {found}")
    found = inside.change(text.replace("void /*Load*/Load(", "void /*Load*/Load(float x, "))
    trial.check_equal("columns are counted in UTF-16", [it["range"] for it in found], [{"start": {"line": 3, "character": 30}, "end": {"line": 3, "character": 35}}])
    found = inside.change(text.replace("a[/*i in an index*/i]", "a[j]").replace("= q./*read*/read()", "= r.read()").replace("one.read()", "one.take()"))
    trial.check_equal("several tasks are refused at once", [(it["code"], it["range"]["start"]["line"]) for it in found], [("C1", 5), ("C1", 14), ("C6", 34)])
    for name, wrong in (("no task", "// tapa::\nconst int a = b;\n"), ("no top task", "void F(tapa::istream<int>& q) { x = 1; }\n")):
        found = inside.change(wrong)
        trial.check(f"a source with {name}", [it["code"] for it in found] == ["C1"], f"   {found}")
    for name, right in (("no task", "// tapa::\nconst int a = 3;\n"), ("no top task", "void F(tapa::istream<int>& q) { q.read(); }\n"), ("nothing of TAPA", "int main() { return 0; }\n"), ("nothing", "")):
        trial.check_equal(f"a text with {name} is left alone", inside.change(right), [])
    for end in range(0, len(text), 41):
        inside.change(text[:end])
    trial.check_equal("a source that was cut at many places is whole again", inside.change(text), [])
    trial.check("no check failed", not any(it.get("method") == "window/showMessage" for it in inside.sent), f"   {inside.sent[-3:]}")


def long_source():
    stages = [STAGE % number for number in range(LINES // STAGE.count("\n"))]
    last = len(stages)
    head = "void Source(tapa::ostream<int>& out, int n) { for (int i = 0; i < n; ++i) { out << i; } }\nvoid Sink(tapa::istream<int>& in, int n) { for (int i = 0; i < n; ++i) { in.read(); } }\n"
    streams = "".join(f"  tapa::stream<int, 4> q{number};\n" for number in range(last + 1))
    chain = "".join(f"      .invoke(Stage{number}, q{number}, q{number + 1}, n)\n" for number in range(last))
    return head + "".join(stages) + f"void Top(int n) {{\n{streams}  tapa::task()\n      .invoke(Source, q0, n)\n{chain}      .invoke(Sink, q{last}, n);\n}}\n"


def used():
    return sum(it.ru_utime + it.ru_stime for it in (resource.getrusage(resource.RUSAGE_SELF), resource.getrusage(resource.RUSAGE_CHILDREN)))


def try_speed(trial):
    """The diagnostics of a change of a long source: the processor's seconds of the server and the program, of which each is at work while the other waits."""
    text = long_source()
    inside = Inside(trial.program)
    trial.check_equal("a long source has no diagnostics", (inside.begin(text), text.count("\n") >= LINES), ([], True))
    wrong = text.replace("out.write(total);", "out.write(totl);", 1)
    least = 99.0
    for _ in range(5):
        inside.note("textDocument/didChange", {"textDocument": {"uri": URI, "version": 2}, "contentChanges": [{"text": wrong}]})
        time.sleep(server.STILL)
        before, count = used(), len(inside.sent)
        inside.server.idle()
        least = min(least, used() - before)
        trial.check("the first diagnostics come by one step", len(inside.sent) == count + 1 and "`totl` is not declared" in str(inside.sent[-1]), f"   {inside.sent[count:]}")
        inside.change(text)
    trial.check(f"diagnostics of {LINES} lines within {MOST_SECONDS} seconds of the last key", least + server.STILL <= MOST_SECONDS, f"   {least:.2f} + {server.STILL}")


# ---- the protocol


def try_session(trial):
    """A session by pipes: what comes before `initialize`, after `shutdown`, twice and never, and the status at the end."""
    words = [sys.executable, os.path.join(ROOT, "tools", "lsp.py")]
    environment = {**os.environ, "TAPA": trial.program}
    with Client(words, environment) as it:
        trial.check_equal("a request before `initialize`", it.ask("textDocument/hover")["error"]["code"], -32002)
        begun = it.begin({"general": {"positionEncodings": ["utf-32", "utf-8"]}})["result"]["capabilities"]
        trial.check("what the server can", begun["positionEncoding"] == "utf-8" and all(begun[name] for name in ("hoverProvider", "definitionProvider", "referencesProvider", "renameProvider", "completionProvider")), f"   {begun}")
        trial.check_equal("a second `initialize`", it.ask("initialize", {})["error"]["code"], -32600)
        it.open(URI, "void F(tapa::istream<int>& q) { /* é */ q.raed(); }\n")
        found = it.diagnostics(URI)
        trial.check("diagnostics in UTF-8", [one["range"]["start"]["character"] for one in found] == [43], f"   {found}")
        it.note("textDocument/didClose", {"textDocument": {"uri": URI}})
        trial.check_equal("a closed text has no diagnostics", it.diagnostics(URI), [])
        trial.check_equal("a text that is not open", it.ask("textDocument/hover", {"textDocument": {"uri": URI}, "position": {"line": 0, "character": 0}})["error"]["code"], -32602)
        trial.check_equal("a method that is not there", it.ask("textDocument/nothing")["error"]["code"], -32601)
        trial.check_equal("the end", it.end(), (0, b""))
    for name, data, status in (("`exit` without `shutdown`", framed({"method": "exit"}), 1), ("the end of the input", b"", 1), ("half a header", b"Content-Le", 1)):
        ran = subprocess.run(words, input=data, capture_output=True, env=environment, timeout=60, check=False)
        trial.check_equal(f"the status at {name}", (ran.returncode, ran.stderr), (status, b""))


def try_pieces(trial):
    """Messages byte by byte, cut, and between other bytes: each that is whole is answered."""
    inside = Inside(trial.program)
    ask = framed({"id": "x", "method": "textDocument/nothing"})
    whole = framed({"id": 0, "method": "initialize", "params": {}}) + framed({"id": 1, "method": "textDocument/nothing"})
    for at in range(len(whole)):
        inside.server.take(whole[at:at + 1])
    trial.check_equal("byte by byte", [it.get("id") for it in inside.sent], [0, 1])
    for junk in made.HEADERS + [ask[:at] for at in range(1, len(ask), 7)] + [b"\xff" * 100_000, framed({"id": 1})[:-1], b"[" * 100_000, b"Content-Length: 100000\r\n\r\n" + b"[" * 100_000]:
        inside.sent.clear()
        inside.server.take(junk + ask)
        inside.server.frames.skip_cut()
        inside.server.take(ask + b"\r\n\r\n")
        trial.check(f"after {junk[:60]!r} the next message is answered", any(it.get("id") == "x" for it in inside.sent), f"   {inside.sent}")


def try_fault(trial):
    """A notification whose handling fails is reported to the client, and the server works on."""
    inside = Inside(trial.program)
    inside.begin(read("tests/cases/editor/network.cpp"))
    with mock.patch.dict(server.NOTIFIED, {"textDocument/didSave": lambda *_: [][0]}):
        inside.note("textDocument/didSave", {"textDocument": {"uri": URI}})
    told = [it["params"]["message"] for it in inside.sent if it.get("method") == "window/showMessage"]
    trial.check_equal("a fault of the server's own in a notification", told, ["tapa: textDocument/didSave: IndexError in tools/lsp.py"])
    trial.check_equal("after it a text is still checked", inside.change("void F(tapa::istream<int>& q) { q.raed(); }\n")[0]["code"], "C6")


def flood(trial, seed, count):
    """So many messages at random, within this process; then the server still answers."""
    some = random.Random(f"editor {seed}")
    inside = Inside(trial.program)
    inside.begin(read("tests/cases/editor/network.cpp"), made.URIS[0])
    faults = []
    for number in range(count):
        data = made.message(some)
        inside.server.take(data)
        if number % 50 == 0:
            inside.settle()
        faults += [it for it in inside.sent if it.get("error", {}).get("code") == -32603 or it.get("method") == "window/showMessage"]
        inside.sent.clear()
    inside.server.take(b"\r\n\r\n" * 3)
    inside.server.frames.held.clear()
    trial.check(f"{count} messages at random: no fault of the server's own", not faults, f"   {faults[:3]}")
    inside.note("textDocument/didOpen", {"textDocument": {"uri": URI, "version": 1, "text": "void F(tapa::istream<int>& q) { q.raed(); }\n"}})
    found = inside.settle()
    trial.check(f"after {count} messages at random the server still works", bool(found) and found[0]["code"] == "C6", f"   {found}")


# ---- editors


def try_neovim(trial):
    """What docs/EDITORS.md has for Neovim: diagnostics, hover, a definition and a rename in Neovim itself."""
    nvim = shutil.which("nvim")
    if not nvim:
        trial.note("there is no Neovim here, so the server was not tried in an editor")
        return
    page = re.search(r"^```lua\n(.*?)^```$", read("docs/EDITORS.md"), re.M | re.S)
    source = trial.put("network.cpp", read("tests/cases/editor/network.cpp").replace("q./*read*/read()", "q./*read*/raed()"))
    setup = trial.put("tapa.lua", page[1].replace("/path/to/tapa", ROOT) if page else "")
    words = [nvim, "--headless", "-u", "NONE", "-i", "NONE", "-n", "-c", f"luafile {setup}", "-c", f"edit {source}", "-c", "set filetype=cpp", "-c", f"luafile {os.path.join(ROOT, 'tests/cases/editor/neovim.lua')}"]
    environment = {**os.environ, "TAPA": trial.program, "XDG_STATE_HOME": trial.folder.name, "XDG_CACHE_HOME": trial.folder.name}
    ran = subprocess.run(words, capture_output=True, text=True, timeout=120, env=environment, cwd=trial.folder.name, check=False)
    told = (ran.stdout + ran.stderr).replace("\r", "")
    for wanted in ("diagnostic 14 C6: nonblocking operation: a stream has no method `raed`", "hover `q`: a stream of `int` of depth 4, in `Pair`", "definition 3", "renamed 3 lines"):
        trial.check(f"in Neovim: {wanted}", wanted in told, f"   {told[-2000:]}")


def try_extension(trial):
    """The extension of tools/editors/vscode in a stand-in for its editor: diagnostics, hover, a definition, references and a rename."""
    node = shutil.which("node")
    if not node:
        trial.note("there is no node here, so the extension for Visual Studio Code was not tried")
        return
    source = trial.put("network.cpp", read("tests/cases/editor/network.cpp").replace("q./*read*/read()", "q./*read*/raed()"))
    words = [node, os.path.join(ROOT, "tests/cases/editor/vscode.js"), os.path.join(ROOT, "tools/editors/vscode/extension.js"), source]
    ran = subprocess.run(words, capture_output=True, text=True, timeout=120, env={**os.environ, "TAPA": trial.program}, check=False)
    for wanted in ("diagnostic 14 C6: nonblocking operation: a stream has no method `raed`", "hover `q`: a stream of `int` of depth 4, in `Pair`", "definition 27", "references 3", "edits 3", "refused `n` has", "items true"):
        trial.check(f"in the extension: {wanted}", wanted in ran.stdout and ran.returncode == 0, f"   {ran.stdout[-2000:]}{ran.stderr[-2000:]}")


def try_all(trial):
    try_answers(trial)
    try_edits(trial)
    try_symbols(trial)
    try_diagnostics(trial)
    try_speed(trial)
    try_session(trial)
    try_pieces(trial)
    try_fault(trial)
    flood(trial, 1, 1_000)
    try_neovim(trial)
    try_extension(trial)
