#!/usr/bin/env python3
"""Prints a page of docs/ in another form: the page of `man` for the command, made from docs/COMMAND.md, or a page as HTML.

    tools/manual.py man [NAME] > tapa.1
    tools/manual.py html PAGE.md > PAGE.html
"""
import os
import re
import sys
from pathlib import Path

sys.dont_write_bytecode = True
from vechaqir import script  # noqa: E402
from vechaqir.host import files  # noqa: E402
from vechaqir.show import markup  # noqa: E402

SEE = "The pages that are installed with the command, in the folder docs: TUTORIAL.md, LANGUAGE.md, REFUSALS.md, TROUBLESHOOTING.md, DATA.md, DEVICE.md, CIRCUIT.md and others. TAPA\\(aqs own command, which compiles for FPGAs of a vendor, is called \\fBtapa\\fR too."


def version():
    """The version of the program, from the file VERSION."""
    return Path(script.ROOT, "VERSION").read_text(encoding="utf-8").strip()


def manual(text, name):
    """The page of `man`, from the text of docs/COMMAND.md."""
    found = markup.blocks(text)[1:]
    synopsis = next(it for it in found if it.sort == "code")
    lines = [f'.TH {name.upper()} 1 "" "tapa {version()}"', ".SH NAME", f"{name} \\- run, plan, build and simulate TAPA designs", ".SH SYNOPSIS", ".nf"]
    lines += [markup.plain_man(line.replace("./tapa", name)) for line in synopsis.text.split("\n")]
    lines += [".fi", ".SH DESCRIPTION"]
    for block in found:
        if block is not synopsis:
            lines += [line.replace(".\\/tapa", name).replace("./tapa", name) for line in markup.man_of(block)]
    return "\n".join([*lines, ".SH SEE ALSO", SEE, ""])


@script.word("form", metavar="FORM", choices=("man", "html"), help="man or html")
@script.word("what", metavar="NAME|PAGE.md", nargs="?", help="what the command is called, `tapa` if not given; or a page")
def main(asked):
    if asked.form == "man":
        name = asked.what or "tapa"
        if not re.fullmatch(r"[A-Za-z][\w.+-]*", name):
            raise script.Usage(f"{name} is no name of a command")
    elif not asked.what:
        raise script.Usage("html needs a page")
    path = asked.what if asked.form == "html" else os.path.join(script.ROOT, "docs", "COMMAND.md")
    text = files.text(path)
    sys.stdout.write(markup.page_html(text, os.path.relpath(os.path.realpath(path), script.ROOT)) if asked.form == "html" else manual(text, name))


if __name__ == "__main__":
    script.call(main)
