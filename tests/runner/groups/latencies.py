"""What registers on wires change and what they do not change: two plans of `examples/too_shallow.cpp`, a circuit that is done although `run` stops, and the bounds on `done`. The
bound on `done` is reached by late answers, with detached readers; if Yosys is installed, synthesis keeps the registers of each latency from 1 to 16."""
import json
import re
import shutil
import subprocess

from runner.trial import ROOT, read

SHALLOW = ["examples/too_shallow.cpp", "TooShallow"]
STOPS = read("tests/cases/files/stops.cpp")
READER = "void Reader(tapa::mmap<const int> m) { while (true) { int x = m[0]; } }\n"
MOST = 16


def device_of(levels, pins):
    """A device of two rows with so many registers between them, the instances pinned to these rows."""
    tasks = {label.partition("$")[0]: {"LUT": 1} for label in pins}
    return json.dumps({"rows": 2, "cols": 1, "levels": levels, "slots": [{"LUT": 1000}] * 2, "tasks": tasks, "pins": {label: [row, 0] for label, row in pins.items()}})


def planned(trial, source, top, levels, pins, *words):
    """The circuit of a source on such a device, as a file."""
    trial.put("dev.json", device_of(levels, pins))
    return trial.put("x.v", trial.run(["build", source, top, "--device", trial.folder.name + "/dev.json", *words], ROOT).out)


def try_plans(trial):
    """A program that stops at its declared depths may be done with the registers of one plan, and go on for ever on another."""
    ran = trial.run(["run", *SHALLOW], ROOT)
    trial.check_equal("too_shallow stops", (ran.status, ran.out), (8, b"stream data: 1\nstream ready:\nstopped 1\n"))
    for rows, wanted in (((0, 0), (7, b"stream data: 1\nstream ready:\nrunning 1000\n")), ((0, 1), (0, b"stream data: 1 2\nstream ready: 3\ndone 12\n"))):
        text = planned(trial, *SHALLOW, 2, dict(zip(("Producer$0", "Consumer$1"), rows)))
        said = trial.run(["cosim", text, "--cycles", "1000"])
        trial.check_equal(f"too_shallow with its tasks in rows {rows}", (said.status, said.out), wanted)


def try_cells(trial):
    """Cells at `done` are the same with every added latency, though `run` stops and a circuit without it goes on for ever."""
    source, data = trial.put("stops.cpp", STOPS), trial.put("d.json", '{"memories": {"m": [0, 0, 0]}}')
    trial.check_that("a run that stops stores nothing", trial.run(["run", source, "T", data]), lambda ran: ran.status == 8 and b"memory m: 0 0 0\n" in ran.out)
    for levels in (0, 1, 3, 8, MOST):
        text = planned(trial, source, "T", levels, {"Producer$0": 0, "Consumer$1": 1})
        said = trial.run(["cosim", text, data, "--cycles", "1000"])
        wanted = (7, b"memory m: 0 0 0\nrunning 1000\n") if levels == 0 else (0, b"stream ready: 3\nmemory m: 3 1 2\ndone ")
        trial.check(f"cells with {levels} registers on the wires", said.status == wanted[0] and wanted[1] in said.out, f"   {said}")


def stores(count, readers):
    """A task that stores in so many cells, and detached readers of other memories that never end."""
    names = [f"b{at}" for at in range(readers)]
    body = " ".join(f"m[{at}] = {at + 1};" for at in range(count))
    top = ", ".join(["tapa::mmap<int> a", *(f"tapa::mmap<const int> {name}" for name in names)])
    chain = "".join(f".invoke<tapa::detach>(Reader, {name})" for name in names)
    return f"void Store(tapa::mmap<int> m) {{ {body} }}\n{READER if readers else ''}void T({top}) {{ tapa::task().invoke(Store, a){chain}; }}\n"


def try_bound(trial):
    """`done` comes in the last cycle that late answers allow: each store waits as long as it may, and the end of the task for nothing. Detached readers are beside, and from one late cycle on no cycle has all memories ready."""
    count, cycles = 6, 100
    data = {"memories": {"a": [0] * count}}
    ran = trial.run(["run", trial.put("alone.cpp", stores(count, 0)), "T", trial.put("d.json", json.dumps(data))])
    ticks = int(ran.out.split()[-1])
    trial.check_equal("the ticks of a task that stores", ticks, count + 1)
    text = trial.put("x.v", trial.run(["build", trial.put("readers.cpp", stores(count, 2)), "T"]).out)
    for late in range(5):
        waits = {"a": [int((n + 1) % (late + 1) == 0) for n in range(cycles)], "b0": [int(late == 0 or n % 2 == 0) for n in range(cycles)], "b1": [int(late == 0 or n % 2 == 1) for n in range(cycles)]}
        trial.check(f"no cycle has all memories ready, {late} late", late == 0 or not any(map(all, zip(*waits.values()))))
        cells = {**data["memories"], "b0": [5], "b1": [7]}
        said = trial.run(["cosim", text, trial.put("d.json", json.dumps({"memories": cells, "waits": waits}))])
        done, bound = int(said.out.split()[-1]), 1 + ticks * (late + 1)
        trial.check_equal(f"the cycle of done with answers {late} cycles late", (said.status, done, bound - done), (0, 2 + count * (late + 1), late))
        trial.check(f"the cells with answers {late} cycles late", f"memory a: {' '.join(map(str, range(1, count + 1)))}\n".encode() in said.out, f"   {said}")


def every_latency(trial):
    """The channels of a circuit with a stream of each latency from 1 to the most, and a top that has them all."""
    numbers = range(1, MOST + 1)
    parameters, writes = ", ".join(f"tapa::ostream<uint8_t>& s{at}" for at in numbers), " ".join(f"s{at} << 1;" for at in numbers)
    declared, given = " ".join(f"tapa::stream<uint8_t, 2> q{at};" for at in numbers), ", ".join(f"q{at}" for at in numbers)
    chain = "".join(f".invoke(Read, q{at})" for at in numbers)
    source = f"void Write({parameters}) {{ {writes} }}\nvoid Read(tapa::istream<uint8_t>& s) {{ s.read(); }}\nvoid T() {{ {declared} tapa::task().invoke(Write, {given}){chain}; }}\n"
    pins = {"Write$0": [0, 0], **{f"Read${at}": [at // 4, at % 4] for at in numbers}}
    device = {"version": 2, "rows": 5, "cols": 4, "levels_rows": [4] * 4, "levels_cols": [1] * 3, "slots": [{"LUT": 1000}] * 20, "tasks": {task: {"LUT": 1} for task in ("Write", "Read")}, "pins": pins}
    trial.put("dev.json", json.dumps(device))
    trial.put("every.cpp", source)
    text = trial.run(["build", "every.cpp", "T", "--device", "dev.json", "--no-balance"]).out.decode()
    channels = re.findall(r"\bmodule (channel_9_2_\d+)", text)
    ports = "".join(f"{name} c{at} (.clk(clk), .rst(rst), .din(din), .wr(wr[{at}]), .take(take[{at}]), .rdy(rdy[{at}]), .has(has[{at}]), .dout(dout[{9 * at + 8}:{9 * at}]));\n" for at, name in enumerate(channels))
    high = len(channels) - 1
    top = f"module every (input clk, input rst, input [8:0] din, input [{high}:0] wr, input [{high}:0] take, output [{high}:0] rdy, output [{high}:0] has, output [{9 * high + 8}:0] dout);\n{ports}endmodule\n"
    return text[: text.index("module t_")] + top


def try_registers(trial):
    """Synthesis keeps the registers of added latency: none becomes a shift register."""
    if not shutil.which("yosys"):
        trial.note("there is no Yosys here, so the registers of added latency were not counted")
        return
    trial.put("every.v", every_latency(trial))
    script = "read_verilog every.v; setattr -mod -set keep_hierarchy 1 channel_*; synth_xilinx -family xc7 -flatten -noiopad -noclkbuf -top every; tee -q -o every.json stat -json"
    ran = subprocess.run(["yosys", "-q", "-p", script], cwd=trial.folder.name, stdin=subprocess.DEVNULL, capture_output=True, text=True, check=False)
    if ran.returncode != 0:
        trial.check("yosys reads channels of each latency", False, f"   {ran.stderr}")
        return
    modules = json.loads(read(f"{trial.folder.name}/every.json"))["modules"]
    for late in range(1, MOST + 1):
        cells = modules.get(f"\\channel_9_2_{late}", {}).get("num_cells_by_type", {})
        registers = sum(count for name, count in cells.items() if name.startswith("FD"))
        shifts = sum(count for name, count in cells.items() if name.startswith("SRL"))
        trial.check(f"the registers of a channel with latency {late}", (registers >= 11 * late, shifts) == (True, 0), f"   {cells}")
