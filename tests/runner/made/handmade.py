"""A leaf task's printed module next to the same task in RTL by hand: a testbench that gives both the same random inputs and compares their outputs in every cycle."""
import os
import re
import subprocess
from pathlib import Path

from runner.trial import ROOT, read

# The leaf tasks that are written by hand, each with the example whose circuit has its module, and the example's top task.
TASKS = {"Mmap2Stream": ("vector_add", "VecAdd"), "Add": ("vector_add", "VecAdd"), "Tap": ("fir", "Fir")}
FOLDER = os.path.join(ROOT, "tests", "measure", "rtl")
PORT = re.compile(r"(input|output) (?:\[ (\d+) : 0 \] )?(\w+)")

# How an input is chosen: a scalar is small, one of eight tokens is an end of transaction.
TEMPLATE = read("tests/measure/rtl/bench.template")


def module_of(text, name):
    """The text of a module of a circuit."""
    found = re.search(rf"^module {re.escape(name)} .*?^endmodule$", text, re.M | re.S)
    return found.group(0) + "\n" if found else ""


def ports_of(text):
    """The ports of a printed module: which way, how many bits, and the name."""
    head = text[:text.index(";")]
    return [(way, int(most or 0) + 1, name) for way, most, name in PORT.findall(head)]


def hand_text(name):
    """The RTL by hand of a leaf task."""
    return Path(FOLDER, f"{name}.v").read_text(encoding="utf-8")


def choice(bits, name):
    """The line that chooses an input of a cycle."""
    if name.startswith("v_"):
        return f"      if ( rst ) {name} = $random ( seed ) & 15 ;"
    if name.startswith("dout_"):
        return f"      bits = $random ( seed ) ; {name} = {{ $random ( seed ) , $random ( seed ) }} ; {name} [ {bits - 1} ] = bits % 8 == 0 ;"
    return f"      {name} = {{ $random ( seed ) , $random ( seed ) }} ;"


def differs(name):
    """The test whether an output differs where its value counts."""
    number = name.rsplit("_", 1)[-1]
    counts = {"din": f"p_wr_{number}", "wdata": f"p_we_{number}"}.get(name.split("_")[0])
    test = f"p_{name} !== h_{name}"
    return f"( {counts} && {test} )" if counts else f"( {test} )"


def bench(ports, name, cycles, seed):
    """The testbench of a task."""
    inputs = [(bits, port) for way, bits, port in ports if way == "input" and port not in ("clk", "rst")]
    outputs = [(bits, port) for way, bits, port in ports if way == "output"]

    def instance(module, side):
        links = [f".{port}( {port} )" for way, _, port in ports if way == "input"] + [f".{port}( {side}_{port} )" for _, port in outputs]
        return f"  {module} {side} ( {' , '.join(links)} ) ;"

    return TEMPLATE.format(
        seed=seed, cycles=cycles,
        registers="\n".join(f"  reg [ {bits - 1} : 0 ] {port} = 0 ;" for bits, port in inputs),
        wires="\n".join(f"  wire [ {bits - 1} : 0 ] {side}_{port} ;" for bits, port in outputs for side in "ph"),
        instances="\n".join([instance(f"t_{name}", "p"), instance(f"hand_{name}", "h")]),
        choices="\n".join(choice(bits, port) for bits, port in inputs),
        differs=" || ".join(differs(port) for _, port in outputs),
    )


def compare(circuit, name, folder, cycles, seed=1):
    """What Icarus Verilog says of a task's printed module, out of the text of a circuit, next to its RTL by hand."""
    printed = module_of(circuit, f"t_{name}")
    path, program = os.path.join(folder, f"{name}_bench.v"), os.path.join(folder, f"{name}_bench")
    Path(path).write_text(printed + hand_text(name) + bench(ports_of(printed), name, cycles, seed), encoding="utf-8")
    built = subprocess.run(["iverilog", "-g2005", "-o", program, path], capture_output=True, text=True, check=False)
    return built.stderr if built.returncode else subprocess.run(["vvp", "-n", program], capture_output=True, text=True, check=False).stdout.strip()
