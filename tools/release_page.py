#!/usr/bin/env python3
"""Prints the page of a release, RELEASE.md: what was proved by which kit, what the program needs, and how to check the sums.

    tools/release_page.py FOLDER STATE COMMIT KIT
"""
import hashlib
import os
import re
import sys
from pathlib import Path

sys.dont_write_bytecode = True
from vechaqir import script, tables  # noqa: E402
from vechaqir.host import files  # noqa: E402

PAGE = Path(script.ROOT, "tools", "release.text").read_text(encoding="utf-8")
# What is said of the program, by its state.
STATES = dict(tables.rows(os.path.join(script.ROOT, "tools", "release.rows")))


@script.word("folder", metavar="FOLDER", help="the folder of the release")
@script.word("state", metavar="STATE", choices=STATES, help="proved or unproved")
@script.word("commit", metavar="COMMIT", help="the commit of the repository")
@script.word("kit", metavar="KIT", help="what `rt version` says")
def main(asked):
    program = Path(asked.folder, "program", "tapa").read_bytes()
    versions = [tuple(map(int, it.split(b"."))) for it in re.findall(rb"GLIBC_([0-9]{1,4}\.[0-9]{1,4})", program)]
    version = files.text(os.path.join(asked.folder, "VERSION")).strip()
    glibc = ".".join(map(str, max(versions, default=(2, 2))))
    print(PAGE.format(state=STATES[asked.state], version=version, commit=asked.commit, kit=asked.kit, sum=hashlib.sha256(program).hexdigest(), glibc=glibc), end="")


if __name__ == "__main__":
    script.call(main)
