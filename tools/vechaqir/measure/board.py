"""A circuit on a board with open tools: a wrapper that folds the ports of its top module to three pins, and what Yosys and nextpnr make of the two.

The wrapper shifts one input pin through a register for every input bit, and folds every output bit into one output pin by xors with a register after each,
so every path of the whole starts and ends at a register and the clock that nextpnr reports is that of the circuit itself.
"""
import json
import re
import shutil
import statistics
import subprocess
from pathlib import Path
from typing import Dict, List, Sequence, Tuple

from .. import tables
from ..host.faults import Fault

PORT = re.compile(r"(input|output)\s+(?:\[\s*(\d+)\s*:\s*0\s*\]\s*)?(\w+)")
TOOLS = {"yosys": "yosys", "nextpnr-ice40": "nextpnr-ice40"}
SECONDS = 1_800
TEXTS = tables.texts("measure/board.texts")
XILINX = "synth_xilinx -family xc7 -flatten -noiopad -noclkbuf"
# How many LUTs a cell of distributed RAM stands for.
LUT_RAM = {"RAM32M": 4, "RAM64M": 4, "RAM32X1D": 2, "RAM64X1D": 2, "RAM128X1D": 4}


Port = Tuple[str, int, str]


def missing() -> List[str]:
    """The Debian packages of the tools that are not installed."""
    return [package for command, package in TOOLS.items() if not shutil.which(command)]


def top_of(text: str) -> str:
    """The top module of a circuit: the last one of its text, as `build` prints them."""
    names: List[str] = re.findall(r"^module (\w+)", text, re.M)
    if not names:
        raise Fault("the text has no module")
    return names[-1]


def ports_of(text: str, top: str) -> List[Port]:
    """The ports of a module: which way, how many bits, and the name."""
    found = re.search(rf"^module {re.escape(top)} \((.*?)\) ;", text, re.M | re.S)
    if not found:
        raise Fault(f"the text has no module {top}")
    ports = PORT.findall(found.group(1))
    if any(len(most) > 6 for _, most, _ in ports):
        raise Fault(f"a port of the module {top} has too many bits")
    return [(way, int(most or 0) + 1, name) for way, most, name in ports]


def folds(bits: int) -> Tuple[str, int]:
    """The lines that fold so many bits, in `all_0`, into one, four at a time with a register after each; and the number of the last level."""
    text, level = "", 0
    while bits > 1:
        fewer, before, level = (bits + 3) // 4, level, level + 1
        sums = [{"level": level, "before": before, "at": at, "most": min(4 * at + 3, bits - 1), "least": 4 * at} for at in range(fewer)]
        text += tables.filled(TEXTS["fold"], high=fewer - 1, level=level, sums=tables.repeated(TEXTS["sum"], sums))
        bits = fewer
    return text, level


def linked(ports: Sequence[Tuple[int, str]], net: str) -> Tuple[List[str], int]:
    """The connections of ports to the bits of a net, one after another, and how many bits they have."""
    links, at = [], 0
    for bits, port in ports:
        links.append(f".{port}({net}[{at + bits - 1}:{at}])")
        at += bits
    return links, at


def wrapper(text: str, top: str, name: str = "board") -> str:
    """The wrapper of a circuit's top module, as Verilog."""
    ports = ports_of(text, top)
    links, wide = linked([(bits, port) for way, bits, port in ports if way == "input" and port != "clk"], "given")
    shown, many = linked([(bits, port) for way, bits, port in ports if way == "output"], "shown")
    links += shown + ([".clk(clk)"] if ("input", 1, "clk") in ports else [])
    lines, last = folds(many)
    return tables.filled(TEXTS["wrapper"], name=name, top=top, given=max(wide, 1) - 1, shown=max(many, 1) - 1, links=", ".join(links), folds=lines, last=last)


def call(words: Sequence[str], folder: str) -> str:
    """Runs a tool in a folder; what it printed."""
    try:
        ran = subprocess.run(words, cwd=folder, capture_output=True, text=True, errors="replace", timeout=SECONDS, check=False)
    except subprocess.TimeoutExpired as late:
        raise Fault(f"{words[0]} had not ended after {SECONDS} seconds") from late
    if ran.returncode:
        told = (ran.stderr + ran.stdout).strip().splitlines()
        raise Fault(f"{words[0]}: {told[-1] if told else f'status {ran.returncode}'}")
    return ran.stdout + ran.stderr


def cells_of(folder: str, text: str, top: str, synthesis: str) -> Dict[str, int]:
    """How many cells of each type Yosys makes of a module by a synthesis command."""
    Path(folder, "design.v").write_text(text, encoding="utf-8")
    call(["yosys", "-q", "-p", f"read_verilog design.v; {synthesis} -top {top}; tee -q -o stat.json stat -json"], folder)
    told = json.loads(Path(folder, "stat.json").read_text(encoding="utf-8"))
    modules = told["modules"]
    module = modules.get(f"\\{top}") or next(iter(modules.values()), {})
    found: Dict[str, int] = module.get("num_cells_by_type", {})
    return found


def xilinx(folder: str, text: str, top: str) -> Dict[str, int]:
    """What a module takes of a Xilinx 7 series device by Yosys: LUTs, LUTs of distributed RAM, flip-flops, shift registers, DSPs and block RAMs."""
    cells = cells_of(folder, text, top, XILINX)

    def some(pattern: str) -> int:
        return sum(number for name, number in cells.items() if re.fullmatch(pattern, name))
    return {
        "lut": some(r"LUT[1-6]|INV"), "lutram": sum(number * LUT_RAM.get(name, 0) for name, number in cells.items()), "ff": some(r"FD[RSCP]E.*"),
        "srl": some(r"SRL.*"), "dsp": some(r"DSP48E1"), "ram": some(r"RAMB.*"),
    }


def ice40(folder: str, text: str, top: str) -> Dict[str, int]:
    """What a module takes of an iCE40 device by Yosys: LUTs, flip-flops and block RAMs."""
    cells = cells_of(folder, text, top, "synth_ice40")
    return {"lut": cells.get("SB_LUT4", 0), "ff": sum(number for name, number in cells.items() if name.startswith("SB_DFF")), "ram": cells.get("SB_RAM40_4K", 0)}


def netlist(folder: str, text: str, top: str) -> None:
    """Makes the netlist of a circuit in its wrapper, `board.json`."""
    Path(folder, "board.v").write_text(text + wrapper(text, top), encoding="utf-8")
    call(["yosys", "-q", "-p", "read_verilog board.v; synth_ice40 -top board -json board.json"], folder)


def placed(folder: str, seed: int) -> Tuple[float, int]:
    """Places and routes `board.json`: the clock in MHz, and the logic cells of the whole."""
    told = call(["nextpnr-ice40", "--hx8k", "--package", "ct256", "--json", "board.json", "--asc", f"board_{seed}.asc", "--seed", str(seed), "--freq", "50", "--timing-allow-fail"], folder)
    clocks = re.findall(r"Max frequency for clock\s+'[^']*': ([\d.]+) MHz", told)
    cells = re.findall(r"ICESTORM_LC:\s+(\d+)/", told)
    if not clocks or not cells:
        raise Fault("nextpnr-ice40 reports no clock")
    return float(clocks[-1]), int(cells[-1])


def clock(folder: str, text: str, top: str, seeds: int) -> float:
    """The median of the clocks, in MHz, that nextpnr reports for a circuit by so many seeds."""
    netlist(folder, text, top)
    return float(statistics.median(placed(folder, seed)[0] for seed in range(1, seeds + 1)))
