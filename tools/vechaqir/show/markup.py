"""The pages of this repository, whose Markdown is a small part of it, as HTML and as a page of `man`."""
import html
import posixpath
import re
from dataclasses import dataclass, field
from typing import List, Optional

INLINE = re.compile(r"``(?P<wide>.+?)``|`(?P<code>[^`]+)`|\*\*(?P<bold>.+?)\*\*|\*(?P<slanted>[^*\s][^*]*)\*|!\[(?P<alt>[^\[\]]*)\]\((?P<image>[^()]+)\)|\[(?P<text>[^\[\]]+)\]\((?P<link>[^()]+)\)", re.S)
ITEM = re.compile(r"(?:- |\d+\. )")


@dataclass
class Block:
    """A part of a page: a `heading` of a level, a `text`, a `list` (numbered or not) or a `table` of rows, or `code`."""

    sort: str
    text: str = ""
    level: int = 0
    rows: List[List[str]] = field(default_factory=list)


def cells(line: str) -> List[str]:
    """The cells of a table's row; `\\|` is no border."""
    return [cell.strip().replace("\\|", "|") for cell in re.split(r"(?<!\\)\|", line.strip()[1:-1])]


class Reader:
    """Reads the blocks of a page, line by line."""

    def __init__(self, text: str) -> None:
        self.lines = [line for line in text.split("\n") if not line.startswith("<!--")]
        self.at = 0

    def while_lines(self, pattern: str) -> List[str]:
        begin = self.at
        while self.at < len(self.lines) and re.match(pattern, self.lines[self.at]):
            self.at += 1
        return self.lines[begin:self.at]

    def blocks(self) -> List[Block]:
        found = []
        while self.at < len(self.lines):
            if self.lines[self.at].strip():
                found.append(self.block())
            else:
                self.at += 1
        return found

    def block(self) -> Block:
        line = self.lines[self.at]
        heading = re.match(r"(#{1,6}) (.*)", line)
        if heading:
            self.at += 1
            return Block("heading", heading[2], len(heading[1]))
        if line.startswith("```"):
            self.at += 1
            text = "\n".join(self.while_lines(r"(?!```)"))
            self.at += 1
            return Block("code", text)
        if line.startswith("    "):
            return Block("code", "\n".join(it[4:] for it in self.while_lines(r"    |$")).rstrip())
        if line.startswith("|"):
            rows = [cells(it) for it in self.while_lines(r"\|")]
            return Block("table", rows=[row for row in rows if not all(re.fullmatch(r":?-+:?", cell) for cell in row)])
        if ITEM.match(line):
            return self.items()
        self.at += 1
        return Block("text", "\n".join([line, *self.while_lines(r"(?!    |\||#|```|- |\d+\. )\S")]))

    def items(self) -> Block:
        is_numbered = self.lines[self.at][0].isdigit()
        rows: List[List[str]] = []
        for line in self.while_lines(r"- |\d+\. |  +\S"):
            found = ITEM.match(line)
            if found:
                rows.append([line[found.end():]])
            else:
                rows[-1][0] += "\n" + line.strip()
        return Block("list", rows=rows, level=int(is_numbered))


def blocks(text: str) -> List[Block]:
    """The blocks of a page of Markdown."""
    return Reader(text).blocks()


# ---- HTML

STYLE = "body{font:16px/1.5 sans-serif;max-width:60em;margin:2em auto;padding:0 1em}pre,code{font:14px monospace;background:#f4f4f4}pre{padding:.7em;overflow-x:auto}table{border-collapse:collapse}td,th{border:1px solid #ccc;padding:.2em .5em;vertical-align:top;text-align:left}img{max-width:100%}"


# The folders and files of the top that a release has.
SHIPPED = ("docs/", "examples/", "tools/")
TOP = ("README.md", "CHANGELOG.md", "SECURITY.md", "VERSION", "tapa", "docs", "examples", "tools")


def anchor(heading: str) -> str:
    """The name by which a heading is linked, as GitHub makes it."""
    return re.sub(r"[^\w\- ]", "", re.sub(r"\[([^\[\]]*)\]\([^()]*\)", r"\1", heading).lower()).replace(" ", "-")


def html_path(page: str) -> str:
    """The HTML file of a page below docs/, by the page's path from the top: a page of the top or of docs/ keeps its name, another one has its folder's."""
    folder, name = posixpath.split(page)
    return f"{name[:-len('.md')] if folder in ('', 'docs') else folder.upper()}.html"


def reference(page: str, target: str) -> Optional[str]:
    """Where a link of a page leads in its HTML file; None for what a release does not have."""
    if re.match(r"[a-z]+:|#", target):
        return target
    path, sign, name = target.partition("#")
    path = posixpath.normpath(posixpath.join(posixpath.dirname(page), path))
    if not path.startswith(SHIPPED) and path not in TOP:
        return None
    return (html_path(path) if path.endswith(".md") else posixpath.relpath(path, "docs")) + sign + name


def inline_html(text: str, page: str) -> str:
    """The words of a block of a page as HTML."""
    out, at = "", 0
    for found in INLINE.finditer(text):
        out += html.escape(text[at:found.start()], quote=False)
        at = found.end()
        if found["code"] or found["wide"]:
            out += f"<code>{html.escape(found['code'] or found['wide'].strip())}</code>"
        elif found["bold"]:
            out += f"<b>{inline_html(found['bold'], page)}</b>"
        elif found["slanted"]:
            out += f"<i>{inline_html(found['slanted'], page)}</i>"
        elif found["image"]:
            out += f'<img src="{html.escape(reference(page, found["image"]) or "")}" alt="{html.escape(found["alt"])}">'
        else:
            target, inner = reference(page, found["link"]), inline_html(found["text"], page)
            out += inner if target is None else f'<a href="{html.escape(target)}">{inner}</a>'
    return out + html.escape(text[at:], quote=False)


def html_of(block: Block, page: str) -> str:
    if block.sort == "heading":
        return f'<h{block.level} id="{anchor(block.text)}">{inline_html(block.text, page)}</h{block.level}>'
    if block.sort == "code":
        return f"<pre>{html.escape(block.text)}</pre>"
    if block.sort == "list":
        word = "ol" if block.level else "ul"
        return f"<{word}>\n" + "\n".join(f"<li>{inline_html(row[0], page)}</li>" for row in block.rows) + f"\n</{word}>"
    if block.sort == "table":
        rows = [[inline_html(cell, page) for cell in row] for row in block.rows]
        head = "<tr>" + "".join(f"<th>{cell}</th>" for cell in rows[0]) + "</tr>\n" if rows and any(rows[0]) else ""
        return f"<table>\n{head}" + "\n".join("<tr>" + "".join(f"<td>{cell}</td>" for cell in row) + "</tr>" for row in rows[1:]) + "\n</table>"
    return f"<p>{inline_html(block.text, page)}</p>"


def page_html(text: str, page: str) -> str:
    """A page, by its path from the top, as one HTML file that is whole except for its pictures."""
    found = blocks(text)
    title = next((it.text for it in found if it.sort == "heading"), "")
    body = "\n".join(html_of(block, page) for block in found)
    return f'<!DOCTYPE html>\n<html lang="en"><head><meta charset="utf-8"><title>{html.escape(title)}</title><style>{STYLE}</style></head>\n<body>\n{body}\n</body></html>\n'


# ---- man

def plain_man(text: str) -> str:
    return text.replace("\\", "\\e").replace("-", "\\-").replace("'", "\\(aq").replace("`", "\\(ga")


def inline_man(text: str) -> str:
    """The words of a block for `man`: code is bold, and pictures are left out."""
    out, at = "", 0
    for found in INLINE.finditer(text):
        out += plain_man(text[at:found.start()])
        at = found.end()
        inside = found["code"] or found["wide"] or found["bold"]
        if inside:
            out += f"\\fB{plain_man(inside)}\\fR"
        elif not found["image"]:
            out += plain_man(found["slanted"] or found["text"])
    out = " ".join((out + plain_man(text[at:])).split())
    return "\\&" + out if out[:1] == "." else out


def told_cells(heads: List[str], row: List[str]) -> List[str]:
    """The cells of a row but the first, each behind its head where there are several."""
    told = [f"{head}: {cell}" if head and len(row) > 2 else cell for head, cell in zip(heads[1:], row[1:]) if cell]
    return [inline_man(cell) + ("" if cell[-1:] in ".;:" else ".") for cell in told]


def man_of(block: Block) -> List[str]:
    if block.sort == "heading":
        return [f".SH {inline_man(block.text).upper()}"]
    if block.sort == "code":
        return [".PP", ".nf", ".RS 4", *("\\&" + plain_man(line) for line in block.text.split("\n")), ".RE", ".fi"]
    if block.sort == "list":
        return [line for at, row in enumerate(block.rows, 1) for line in (f".IP {f'{at}.' if block.level else chr(92) + '(bu'} 3", inline_man(row[0]))]
    if block.sort == "table":
        return [line for row in block.rows[1:] for line in (".TP", inline_man(row[0]) or "\\&", *told_cells(block.rows[0], row))]
    text = inline_man(block.text)
    return [".PP", text] if text else []
