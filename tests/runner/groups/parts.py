"""How `tools/in_parts.py` cuts a module for the unproved build: each function that is needed is in one part, or copied into each part that calls it, and the kit joins the parts."""
import os
import re
import shutil
import subprocess

import in_parts
from runner.trial import read

LONG = "".join(f"  %r{at} = add i64 %a0, {at}\n" for at in range(1, 100))
MODULE = read("tests/cases/files/module.ll").replace("; LONG\n", LONG)


def texts():
    cut = in_parts.Cut(in_parts.Module(MODULE.encode()), 2)
    return [in_parts.text_of(cut, part).decode() for part in range(2)]


def try_cut(trial):
    made = texts()
    defined = [sorted(re.findall(r"^define .*?@\"?(?:x::)?(\w+)", text, re.M)) for text in made]
    every = sorted(defined[0] + defined[1])
    trial.check("each part has functions", all(set(names) - {"small"} for names in defined), f"   {defined}")
    trial.check_equal("each function once, what is small in both parts, what nobody needs in none", every, ["bound", "inner", "main", "one", "small", "small", "two"])
    trial.check("what only one calls stays in its part", any({"one", "inner"} <= set(names) for names in defined), f"   {defined}")
    trial.check("a global that changes is in one part", sum("@static.0 = hidden global" in text for text in made) == 1)
    trial.check("and is declared in the other one", sum("@static.0 = external hidden global [1 x i8]" in text for text in made) == 1)
    trial.check("what is not stored is not filled", not any("i8 -86" in text for text in made))


def try_object(trial):
    """The kit's compiler takes the parts, and its linker joins them."""
    tool = shutil.which("rt")
    kit = os.path.dirname(os.path.dirname(os.path.realpath(tool))) if tool else ""
    if not os.path.exists(f"{kit}/toolchain/bin/clang"):
        trial.note("the Rattle kit is not here, so its compiler was not tried on the parts")
        return
    objects = []
    for part, text in enumerate(texts()):
        source = trial.put(f"part{part}.ll", text)
        objects.append(f"{source}.o")
        words = [f"{kit}/toolchain/bin/clang", "--no-default-config", "-c", "-O1", "-fPIE", "-x", "ir", source, "-o", objects[-1]]
        ran = subprocess.run(words, capture_output=True, text=True, check=False)
        trial.check(f"part {part} is compiled", ran.returncode == 0, ran.stderr[:800])
    made = os.path.join(trial.folder.name, "whole.o")
    ran = subprocess.run([f"{kit}/toolchain/bin/ld.lld", "-r", "-o", made, *objects], capture_output=True, text=True, check=False)
    trial.check("the parts are joined", ran.returncode == 0, ran.stderr[:800])
