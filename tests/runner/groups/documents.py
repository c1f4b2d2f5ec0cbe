"""What the pages show: tables of refusals, refused texts with what to write instead, data files, sessions, and messages."""
import os
import re
import shlex
import sys

from runner import prose
from runner.groups import data as inputs
from runner.groups.sources import context
from runner.trial import ROOT, answer, read
from vechaqir.explain import pages

# A file that a page has its reader save, and the block that it is.
SAVED = re.compile(r"[Ss]ave (?:this|it)\s+as\s+`([\w./]+)`[^\n]*:\n\n```\w*\n(.*?)^```$", re.M | re.S)


def sections(page):
    """Each section of a page with a code as its heading: the code, the whole heading, and its text."""
    for text in re.split(r"^##+ ", read(page), flags=re.M)[1:]:
        heading, _, body = text.partition("\n")
        found = re.match(r"([LAPCJ]\d+)\b", heading)
        if found:
            yield found[1], heading, body


def code_of(told):
    return told.split(" ")[0]


def try_language(trial):
    """The rows `| in | `refused` | column | `accepted` |` of docs/LANGUAGE.md, below the code's heading."""
    count = 0
    for code, _, body in sections("docs/LANGUAGE.md"):
        for row in re.findall(r"^\| (file|leaf|tasks) \| `(.*)` \| (\d+) \| `(.*)` \|$", body, re.M):
            name, refused, col, accepted = row
            before, after = context(name)
            told = trial.told(before + refused + after)
            trial.check(refused, (code_of(told), told.split(" ")[-1]) == (code, f"3:{col}"), f"   {told}")
            trial.check_equal(accepted, trial.told(before + accepted + after), "accepted")
            count += 1
    trial.check("docs/LANGUAGE.md has rows", count >= 70, f"   {count}")
    for name in ("file", "leaf", "tasks"):
        shown = "\n".join(part.strip("\n") for part in context(name)).strip("\n")
        trial.check(f"docs/LANGUAGE.md shows what stands around a row in {name}", has_lines(read("docs/LANGUAGE.md"), shown))


def has_lines(page, text):
    return all(line in page for line in text.splitlines() if line)


def place_of(text, word):
    """The line and column at which a word begins, lines counted from that of a row in its context."""
    before = text[: text.index(word)]
    return 3 + before.count("\n"), len(before) - before.rfind("\n")


def try_refusals(trial):
    """The blocks of docs/REFUSALS.md: `// CONTEXT: CODE at WORD`, or `// CONTEXT: instead`, and a text below."""
    shown = set()
    for code, _, body in sections("docs/REFUSALS.md"):
        for name, what, text in re.findall(r"^```cpp\n// (\w+): (.*)\n([^`]*)^```$", body, re.M):
            before, after = context(name)
            told = trial.told(before + text.rstrip("\n") + after)
            if what == "instead":
                trial.check_equal(f"{code}: {text}", told, "accepted")
                continue
            wanted, _, word = what.partition(" at ")
            line, col = place_of(text, word)
            trial.check(f"{code}: {text}", (code_of(told), told.split(" ")[-1]) == (wanted, f"{line}:{col}"), f"   {told}")
            trial.check(f"the section {code} shows {code}", wanted == code)
            shown.add(code)
    rules = {f"{letter}{number}" for letter, most in (("L", 4), ("A", 3), ("P", 1), ("C", 12)) for number in range(1, most + 1)}
    trial.check("each code has a text that is refused", shown == rules, f"   {sorted(rules ^ shown)}")
    headings = {heading for _, heading, _ in sections("docs/REFUSALS.md")}
    same = {heading for _, heading, _ in sections("docs/LANGUAGE.md")}
    trial.check("docs/REFUSALS.md and docs/LANGUAGE.md have the same codes", same == {h for h in headings if h[0] != "J"})


def try_from_tapa(trial):
    """Each row of docs/FROM_TAPA.md: its code, and what is accepted instead. That its construct is found by `tools/explain.py` is tried by the group `explanations`."""
    rows = pages.rows()
    for row in rows.values():
        before, after = context(row.context)
        trial.check_equal(row.refused, code_of(trial.told(before + row.refused + after)), row.code)
        trial.check_equal(row.accepted, trial.told(before + row.accepted + after), "accepted")
    trial.check("each row of docs/FROM_TAPA.md is tried", len(rows) == len(re.findall(r"^\|.* \| [PCLA]\d+ \| ", read("docs/FROM_TAPA.md"), re.M)) >= 100, f"   {len(rows)}")


def try_texts(trial):
    """The Verilog texts of docs/REFUSALS.md: `// text: V1 at LINE:COL`, `// text: CODE NAME`, or `// text: instead`."""
    shown = set()
    for what, text in re.findall(r"^```verilog\n// text: (.*)\n([^`]*)^```$", read("docs/REFUSALS.md"), re.M):
        trial.put("x.v", text)
        said = trial.run(["cosim", "x.v", "--cycles", "9"])
        if what == "instead":
            trial.check(text, said.status in (0, 7) or said.err.startswith(b"tapa: {}: J2 "), f"   {said}")
            continue
        code, _, place = what.partition(" at ")
        wanted = f"tapa: x.v:{place}: V1 no text of the subset\n" if place else f"tapa: x.v: {what}\n"
        trial.check(text, (said.status, said.err.decode()) == (1, wanted), f"   {said}")
        shown.add(code.split(" ")[0])
    trial.check("each rule on Verilog texts has one that is refused", shown == {f"V{number}" for number in range(1, 7)}, f"   {shown}")


# The programs around the data and device files of docs/REFUSALS.md.
OF_DATA = read("tests/cases/files/page_data.cpp")
OF_DEVICE = read("tests/cases/files/page_device.cpp")


def command_of(trial, sort, what, text):
    """The words of a command that reads a file of docs/REFUSALS.md, and the file's name in messages."""
    if sort == "dump":
        trial.put("x.vcd", text)
        return ["vcd", "x.vcd", what[3:] if what.startswith("X2 ") else "done"], "x.vcd"
    trial.put("x.cpp", OF_DATA if sort == "data" else OF_DEVICE)
    trial.put("x.json", text)
    return ["run" if sort == "data" else "plan", "x.cpp", "T", "x.json"], "x.json"


def try_files(trial):
    """The data files, device files and dumps of docs/REFUSALS.md: `// data: J2 KEY`, `// dump: X1 at LINE:COL`, or `// device: instead`."""
    shown = set()
    for sort, what, text in re.findall(r"^```(?:json)?\n// (data|device|dump): (.*)\n([^`]*)^```$", read("docs/REFUSALS.md"), re.M):
        words, name = command_of(trial, sort, what, text)
        said = trial.run(words)
        code, _, place = what.partition(" at ")
        wanted = "" if what == "instead" else f"tapa: {name}:{place}: X1 no dump\n" if place else f"tapa: {name}: {what}\n"
        trial.check(f"{what}: {text}", said.err.decode() == wanted, f"   {said}")
        shown.add(code.split(" ")[0])
    rules = {"J1", "J2", "J3", "K1", "K2", "K3", "K4", "X1", "X2", "instead"}
    trial.check("each rule on files has one that is refused", shown == rules, f"   {sorted(rules ^ shown)}")


RIGHT = {"scalars": '"scalars":{"n":3}', "memories": '"memories":{"a":[1],"b":[1],"c":[1]}'}
VECTORS = read("tests/cases/files/page_vectors.cpp")


def data_of(shown):
    """A data file of the table in docs/DATA.md, with what is right in place of `..`."""
    text = shown.replace("[0, 0, ..]", "[" + ",".join(["0"] * 65_537) + "]")
    text = re.sub(r'("memories":\{"a":\[[^\]]*\]), \.\.', r'\1,"b":[1],"c":[1]', text)
    missing = [group for name, group in RIGHT.items() if f'"{name}"' not in text]
    return text.replace("..", ", ".join(missing), 1) if missing else text.replace(", ..", "")


def try_data(trial):
    """The rows `| `data` | `told` |` of docs/DATA.md."""
    rows = re.findall(r"^\| `([{\[].*)`(?: with 65,537 cells)? \| `(J\d.*)` \|$", read("docs/DATA.md"), re.M)
    trial.check("docs/DATA.md has rows", len(rows) >= 15, f"   {len(rows)}")
    for shown, told in rows:
        inputs.check_fault(trial, shown, inputs.run_on(trial, VECTORS, data_of(shown)), told)


def sessions(page):
    """The steps of a page's sessions in order: each file that the reader saves, with its text, and each command, with the lines below it; a block is indented by four
    blanks or fenced."""
    for at, piece in enumerate(SAVED.sub(lambda it: f"\0{it[1]}\0{it[2]}\0", read(page)).split("\0")):
        if at % 3 == 1:
            name = piece
        elif at % 3 == 2:
            yield name, piece
        else:
            yield from commands(re.sub(r"^```\w*$", "", piece, flags=re.M))


def commands(text):
    """The commands of a text, each with the lines below it."""
    command = None
    for line in [*text.split("\n"), ""]:
        line = line[4:] if line.startswith("    ") else line
        if command and (line.startswith("$ ") or not line):
            yield command
            command = None
        if line.startswith(("$ ./tapa ", "$ tools/")):
            command = (line, [])
        elif command:
            command[1].append(line)


def shown_by(trial, command, made):
    """What a command of a session shows. A file behind `>` is made in the trial's own folder, and read there by later commands; `| tail -1` shows
    the last line alone."""
    words, _, asks = command.partition(";")
    words, _, behind = words.partition(" | ")
    words, _, target = words.partition(" > ")
    words = [made.get(word, word) for word in shlex.split(words)]
    if words[:2] == ["./tapa", "--explain"]:
        words = ["tools/explain.py", "--run", trial.program, *words[2:]]
    said = trial.run(words[1:], ROOT) if words[0] == "./tapa" else answer([sys.executable, *words], cwd=ROOT, env={**os.environ, "TAPA": trial.program})
    out = said.out
    if target:
        made[target.strip()] = trial.put(os.path.basename(target.strip()), out)
        out = b""
    if behind:
        out = b"".join(out.splitlines(keepends=True)[-1:]) if behind == "tail -1" else behind.encode()
    return (out + said.err + (f"{said.status}\n".encode() if asks else b"")).decode()


def is_shown(command, lines, out):
    """Whether a page shows what a command answers. Of a tool it may show less: `..` stands for any lines, and a blank line of the answer ends what is shown."""
    if not command.startswith("tools/"):
        return out == "".join(line + "\n" for line in lines)
    if not lines:
        return not out
    shown = "".join(r"(?:.*\n)*" if line == ".." else re.escape(line) + r"\n" for line in lines)
    return re.fullmatch(shown + r"(?:\n(?:.*\n)*)?", out) is not None


def try_sessions(trial):
    count = 0
    for page in prose.pages():
        made = {}
        for step, lines in sessions(page):
            if not step.startswith("$ "):
                made[step] = trial.put(os.path.basename(step), lines)
                continue
            command = step[2:]
            out = shown_by(trial, command, made)
            trial.check(f"{page}: {command}", is_shown(command, lines, out), f"   {lines}   {out}")
            count += 1
    trial.check("documents show sessions", count >= 6, f"   {count}")


def try_prose(trial):
    prose.try_all(trial)
