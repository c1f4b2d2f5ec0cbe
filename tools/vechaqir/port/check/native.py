"""The original as a native program: its text, with the name of each stream where it is declared, and a `main` that fills the memories and prints what streams and memories had."""
import os
import re
import shutil
import subprocess
import tempfile
from typing import Any, Dict, List, Optional, Sequence, Tuple

from ..faults import Unusable
from ..passes.layout import Layout
from ..source.clang import without_includes
from ..source.mapped import Edit
from ..tree.kinds import Floating
from ..tree.program import Argument, Program, Variable

HEADERS = os.path.join(os.path.dirname(os.path.dirname(os.path.dirname(os.path.dirname(os.path.abspath(__file__))))), "include", "tapa_native")
NAMED = re.compile(r"\s*(?:\(\s*\"[^\"]*\"\s*\)|\{\s*\"[^\"]*\"\s*\})")
# What the header brings of `std`, and the headers of all else, which take four times as long to compile.
BROUGHT = {"abs", "max", "min", "clamp", "swap", "move", "array", "numeric_limits", "is_same", "is_same_v", "conditional", "conditional_t", "size_t", "ptrdiff_t", "nullptr_t", "integer_sequence",
           *(f"{sign}int{bits}_t" for sign in ("", "u") for bits in (8, 16, 32, 64))}
OF_STD = re.compile(r"\bstd\s*::\s*(\w+)|\b(using\s+namespace\s+std|cout|cerr|clog|sqrt\w?|fabs\w?|floor\w?|ceil\w?|round\w?|pow\w?|exp\w?|log\w?)\b")
MORE = "".join(f"#include <{name}>\n" for name in ("cassert", "cmath", "functional", "iostream", "map", "memory", "string", "tuple", "type_traits", "vector"))
SECONDS = 60
Data = Dict[str, Dict[str, Any]]


def named(program: Program) -> str:
    """The text with the name of each stream at its declaration, and without what Clang refuses."""
    text = without_includes(program.source.text)
    edits: List[Edit] = []
    for it in program.streams:
        end = it.spot + len(it.name)
        old = NAMED.match(text, end)
        edits.append(Edit(end, old.end() if old else end, f'("{it.name}")'))
    edits = [it for it in edits if not any(begin <= it.begin < end for begin, end in program.left_out)]
    edits += [Edit(begin, end, "") for begin, end in program.left_out]
    return program.source.applied(sorted(set(edits))).text.replace("\0", "") if text == program.source.text else applied(text, sorted(set(edits)))


def applied(text: str, edits: List[Edit]) -> str:
    out, at = [], 0
    for it in edits:
        if it.begin >= at:
            out += [text[at:it.begin], it.text]
            at = it.end
    return "".join(out) + text[at:]


def floats(program: Program) -> str:
    """Where the structs of the source have floats."""
    out: List[str] = []
    for it in program.records:
        layout = Layout(it)
        places = [f"{{{leaf.word * 8 + leaf.shift // 8}, {leaf.bits // 8}}}" for leaf in layout.leaves if isinstance(leaf.kind, Floating)]
        if places and not layout.why and "(" not in it.name:
            out.append(f"template <> struct tapa::sim::floats<{it.name}> {{ static constexpr int count = {len(places)}; static constexpr place places[] = {{{', '.join(places)}}}; }};\n")
    return "".join(out)


def words_of(program: Program, it: Variable, element: Optional[int]) -> List[str]:
    """The names of the ported memories that hold a memory's words, in their order."""
    found: List[Tuple[int, str]] = []
    for each in program.top.parameters:
        origin = each.origin if each.origin is not None else (each, None, None)
        old = origin[0]
        if (old is it or program.renamed.get(old) is each and old is it or each is it or program.renamed.get(it) is each) and origin[1] == element:
            found.append((origin[2] or 0, each.name))
    return [name for _, name in sorted(found)]


def cells(program: Program, it: Argument, element: Optional[int]) -> str:
    """The cells of a memory, from those of its words."""
    names = words_of(program, it.variable, element)
    if not names:
        raise Unusable(f"the ported source has no memory for `{it.variable.name}`")
    words = ", ".join(f'tapa::sim::data("{name}")' for name in names)
    return f"tapa::sim::cells<{it.element}>(std::array<tapa::sim::list<uint64_t>, {len(names)}>{{{words}}}.data())"


def scalar(it: Argument) -> str:
    value = f'tapa::sim::scalar("{it.variable.name}")'
    if it.kind in ("float", "double"):
        return f"({it.kind}) __builtin_ldexp((double) {value}, -TAPA_FIXED)"
    return f"({it.kind}) {value}"


def driver(program: Program) -> str:
    """A `main` that runs the top task on the data of a file, and prints the report."""
    made, given, shown = "", [], ""
    for it in program.arguments:
        name = it.variable.name
        if it.sort in ("mmaps", "async_mmaps"):
            for at in range(it.length):
                made += f"  auto cells_{name}_{at} = {cells(program, it, at)};\n"
                shown += f'  tapa::sim::memory("{name}", {at}, cells_{name}_{at});\n'
            made += f"  {it.kind.replace('async_', '')} all_{name}{{{{{', '.join(f'{{cells_{name}_{at}.data(), cells_{name}_{at}.size()}}' for at in range(it.length))}}}}};\n"
            given.append(f"all_{name}")
        elif it.sort in ("mmap", "async_mmap"):
            made += f"  auto cells_{name} = {cells(program, it, None)};\n"
            made += f"  tapa::mmap<{'const ' if 'const' in it.kind else ''}{it.element}> all_{name}{{cells_{name}.data(), cells_{name}.size()}};\n"
            shown += f'  tapa::sim::memory("{name}", -1, cells_{name});\n'
            given.append(f"all_{name}" if it.sort == "mmap" else f"*tapa::sim::served<{it.element}>(all_{name})")
        else:
            given.append(scalar(it))
    return f"""
int main(int, char** argv) {{
  tapa::sim::read(argv[1]);
{made}  auto whole = [&] {{ {program.top.name}({', '.join(given)}); }};
  auto* top = tapa::sim::spawn(new tapa::sim::calling<decltype(whole)>(whole), nullptr, false);
  bool is_done = tapa::sim::run(top);
  tapa::sim::report();
{shown}  std::printf(is_done ? "done\\n" : "stopped\\n");
  std::fflush(stdout);
  std::_Exit(0);
}}
"""


def compiler() -> str:
    found = shutil.which("g++")
    if found is None:
        raise Unusable("the check compiles the original by g++, which is not here: apt-get install g++")
    return found


def data_text(data: Data) -> str:
    """The numbers of a data file, each by its bits."""
    none: Dict[str, Any] = {}
    lists: Dict[str, List[int]] = {name: [value] for name, value in data.get("scalars", none).items()}
    memories: Dict[str, List[int]] = data.get("memories", none)
    lists.update(memories)
    return "".join(f"{name} {len(values)} {' '.join(str(int(value) & (1 << 64) - 1) for value in values)}\n" for name, values in lists.items())


def text_of(program: Program) -> str:
    """The whole native program."""
    text = named(program)
    more = MORE if {it[1] or it[2] for it in OF_STD.finditer(text)} - BROUGHT else ""
    return f"{more}#include <tapa.h>\n#include <ap_int.h>\n{text}\n{floats(program)}{driver(program)}"


class Native:
    """The native program of a source, which is compiled once and runs on any number of data files."""

    def __init__(self, program: Program, bits: Optional[int], flags: Sequence[str] = ()) -> None:
        self.folder = tempfile.TemporaryDirectory(prefix="tapa-port-")
        self.path = os.path.join(self.folder.name, "native")
        source = self.path + ".cpp"
        with open(source, "w", encoding="latin-1") as file:
            file.write(text_of(program))
        words = [compiler(), "-std=c++17", "-O0", "-w", "-fwrapv", *flags, *([f"-DTAPA_FIXED={bits}"] if bits is not None else []), "-I", HEADERS, "-o", self.path, source]
        made = subprocess.run(words, capture_output=True, text=True, check=False)
        if made.returncode != 0:
            first = next((line for line in made.stderr.splitlines() if "error" in line), made.stderr[:200])
            raise Unusable(f"g++ refuses the original: {first.replace(self.folder.name + '/', '')}")

    def run(self, data: Data) -> List[str]:
        """The report on some data, line by line."""
        path = self.path + ".data"
        with open(path, "w", encoding="ascii") as file:
            file.write(data_text(data))
        try:
            ran = subprocess.run([self.path, path], capture_output=True, text=True, timeout=SECONDS, check=False)
        except subprocess.TimeoutExpired:
            raise Unusable(f"the original had not ended after {SECONDS} seconds") from None
        if ran.returncode != 0:
            raise Unusable(f"the original: {ran.stderr.strip() or f'ended with the status {ran.returncode}'}")
        return ran.stdout.splitlines()
