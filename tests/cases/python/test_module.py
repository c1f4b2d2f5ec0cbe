"""What the module `vechaqir` answers: results with signed values, memories changed in place, exceptions with code, place and explanation, plans."""
import array
import os
import unittest
from pathlib import Path

from gallery import ROOT
from vechaqir import Design, EOT, Failure, NoProgram, NotDone, Refused, Stopped, find
from vechaqir.host import report
from vechaqir.host.data import BadData, Data, parse, template, text_of
from vechaqir.language.source import read


def example(name, top):
    return Design(os.path.join(ROOT, "examples", f"{name}.cpp"), top)


ADD = example("vector_add", "VecAdd")
DEVICE = os.path.join(ROOT, "examples", "devices", "two_slots.json")


class Results(unittest.TestCase):
    def test_kernel(self):
        for circuit in (None, ADD.build(), ADD.build(device=DEVICE)):
            a, b, c = [1, 2, -3], (10, 2**31 - 1, -50), array.array("i", [7, 7, 7])
            result = ADD.kernel(a, b, c, 3, circuit=circuit)
            self.assertEqual(list(c), [11, -(2**31) + 1, -53])
            self.assertEqual(result.streams["b_q"], [10, 2**31 - 1, -50])
            self.assertEqual(a, [1, 2, -3])
            self.assertEqual((result.ticks is None, result.cycles is None), (circuit is not None, circuit is None))

    def test_signs_and_ends(self):
        result = example("run_length", "RunLength").run(*parts("run_length"))
        self.assertIn(EOT, result.streams["pairs"] if "pairs" in result.streams else [EOT for carried in result.streams.values() if EOT in carried])
        self.assertEqual(str(EOT), "eot")

    def test_workers_and_device(self):
        inputs = {"n": 2}, {"a": [1, 2], "b": [3, 4], "c": [0, 0]}
        self.assertEqual(ADD.run(*inputs, workers=3).memories, ADD.run(*inputs).memories)
        plan = ADD.plan(DEVICE, "exact")
        self.assertEqual((plan.tasks["Stream2Mmap$3"], plan.cost, plan.registers), ((0, 1), 33, 0))
        device = {"rows": 1, "cols": 1, "slots": [{"LUT": 2000, "FF": 2000}]}
        self.assertEqual(ADD.plan(device).cost, 0)
        self.assertEqual(ADD.build().text, ADD.build(device=device).text)


def parts(name):
    found = parse(Path(ROOT, "examples", f"{name}.json").read_text(encoding="utf-8"))
    return found.scalars, found.memories


class Exceptions(unittest.TestCase):
    def test_refused_source(self):
        with self.assertRaises(Refused) as told:
            example("refused/wrong_kind", "Top").check()
        self.assertEqual((told.exception.code, told.exception.place, told.exception.status), ("C3", (11, 31), 1))
        self.assertIn("^", told.exception.explanation)
        with self.assertRaises(Refused) as told:
            example("vector_add", "Nobody").run()
        self.assertEqual((told.exception.code, told.exception.place), ("C1", (1, 1)))
        self.assertIsNone(ADD.check())

    def test_refused_data_and_device(self):
        with self.assertRaises(Refused) as told:
            ADD.run({"n": 1}, {"a": [1], "b": [2**32], "c": [0]})
        self.assertEqual((told.exception.code, told.exception.key, told.exception.place), ("J3", "memories.b", None))
        with self.assertRaises(Refused) as told:
            ADD.plan({"rows": 1, "cols": 1, "slots": [{"LUT": 1}]})
        self.assertEqual((told.exception.code, told.exception.status), ("", 4))
        with self.assertRaises(TypeError):
            ADD.kernel([1], [2], 3)
        with self.assertRaises(TypeError):
            ADD.kernel([1.5], [2], [0], 1)
        with self.assertRaises(TypeError):
            ADD.kernel([1], [2], (0,), 1)

    def test_texts_explain(self):
        """The text of an exception has what is wrong, why, and what to write instead; data and devices are arguments of the call, and no files."""
        lengths = {"a": [1], "b": [2], "c": [0]}
        for call, wanted in (
            (lambda: example("refused/wrong_kind", "Top").check(), ["C3 wrong kind", "   11 | ", "argument 1 of `Source` is `q`", "why: ", "instead: ", "docs/REFUSALS.md, C3"]),
            (lambda: ADD.run({"n": 1}, {"a": [1], "b": [2], "d": [0]}), ["J2 memories.c", "`memories` has `d`, which `VecAdd` has not", 'instead: give `memories={"c": [0, 0, 0, 0], ..}`']),
            (lambda: ADD.run({"n": 1}, {**lengths, "b": [2**32]}), ["J3 memories.b", "cell 0 of `memories.b` is 4294967296"]),
            (lambda: ADD.plan({"rows": 1, "cols": 3, "slots": [{}] * 8}), ["K1 slots", "`slots` has 8 of the 3 slots"]),
            (lambda: ADD.plan({"rows": 1, "cols": 1, "slots": [{"LUT": 1}]}), ["no room for", "instead: take `--plan exact`", "tools/place.py"]),
            (lambda: example("too_shallow", "TooShallow").run(), ["Producer$0 waits in line 9 for room in `data`", "circle", "instead: "]),
            (lambda: ADD.cosim({"n": 1}, lengths, cycles=3), ["not done after 3 cycles", "instead: give `cycles=30`"]),
            (lambda: example("vector_add", "Nobody").run(), ["the source has no task `Nobody`: its tasks are", "give `VecAdd` as `TOP`"]),
        ):
            with self.assertRaises(Failure) as told:
                call()
            for part in wanted:
                self.assertIn(part, str(told.exception))
            self.assertNotIn("no explanation", str(told.exception))
            self.assertEqual(type(told.exception).__module__, "vechaqir")
            self.assertTrue(str(told.exception).startswith(told.exception.lines[0]))

    def test_arguments_are_named(self):
        lengths = {"a": [1], "b": [2], "c": [0]}
        for call, error, wanted in (
            (lambda: ADD.run({"n": 1.5}, lengths), TypeError, "scalars['n'] is 1.5"),
            (lambda: ADD.run({"n": 1}, {**lengths, "b": [2, "x"]}), TypeError, "memories['b'][1] is 'x'"),
            (lambda: ADD.run({"n": 1}, {**lengths, "b": 2}), TypeError, "memories['b'] is 2"),
            (lambda: ADD.run([1]), TypeError, "scalars is of type list"),
            (lambda: ADD.cosim({"n": 1}, lengths, ready={"c": [None]}), TypeError, "ready['c'][0] is None"),
            (lambda: ADD.run({"n": 1}, lengths, workers=0), ValueError, "workers is 0, and has to be a whole number from 1 to 64"),
            (lambda: ADD.run({"n": 1}, lengths, steps="9"), ValueError, "steps is '9'"),
            (lambda: ADD.plan(DEVICE, "exct"), ValueError, "plan is 'exct', and has to be 'fit', 'exact' or 'split'"),
            (lambda: ADD.plan(3), TypeError, "device is of type int"),
            (lambda: ADD.plan({"rows": {1}}), TypeError, "device: "),
            (lambda: ADD.kernel([1], [2], [0]), TypeError, "VecAdd takes 4 arguments (a, b, c, n), and gets 3"),
            (lambda: ADD.kernel([1], ["y"], [0], 1), TypeError, "memories['b'][0] is 'y'"),
        ):
            with self.assertRaises(error) as told:
                call()
            self.assertIn(wanted, str(told.exception))

    def test_stopped_and_not_done(self):
        with self.assertRaises(Stopped) as told:
            example("too_shallow", "TooShallow").run()
        self.assertEqual([str(it) for it in told.exception.waiting], ["Producer$0 waits to write data", "Consumer$1 waits to read ready"])
        self.assertEqual(told.exception.result.streams, {"data": [1], "ready": []})
        with self.assertRaises(NotDone) as told:
            ADD.cosim({"n": 1}, {"a": [1], "b": [2], "c": [0]}, cycles=3)
        self.assertEqual(told.exception.result.cycles, 3)
        with self.assertRaises(NotDone):
            ADD.run({"n": 1}, {"a": [1], "b": [2], "c": [0]}, steps=3)

    def test_files_and_programs(self):
        with self.assertRaises(OSError):
            Design("none.cpp", "T")
        before = os.environ.get("TAPA")
        try:
            os.environ["TAPA"] = "/no/such/program"
            with self.assertRaises(NoProgram):
                find()
        finally:
            if before is None:
                del os.environ["TAPA"]
            else:
                os.environ["TAPA"] = before


class Notebooks(unittest.TestCase):
    def test_design(self):
        design = Design(os.path.join(ROOT, "examples", "vector_add.cpp"), "VecAdd")
        self.assertTrue(design._repr_svg_().startswith("<svg ") and "a_q" in design._repr_svg_())
        self.assertIn("<td style=\"text-align:left\">Mmap2Stream$0</td>", design._repr_html_())
        self.assertIn("does not have this task", Design(design.src, "Nobody")._repr_html_())

    def test_result(self):
        design = Design(os.path.join(ROOT, "examples", "vector_add.cpp"), "VecAdd")
        given = {"n": 2}, {"a": [1, 2], "b": [3, -4], "c": [0, 0]}
        for result in (design.run(*given), design.build().cosim(*given)):
            self.assertTrue(result._repr_svg_().startswith("<svg ") and "Add$2" in result._repr_svg_())
            self.assertIn("<td style=\"text-align:left\">4 -2</td>", result._repr_html_())


class Texts(unittest.TestCase):
    def test_report(self):
        text = "stream q: 1 eot 255\nstream r:\nmemory m: 128\nstopped 7\n"
        self.assertEqual(report.text_of(report.parse(text)), text)
        shown = report.with_signs(report.parse(text), {"q": (8, True)}, {"m": (8, True)})
        self.assertEqual((shown.streams["q"], shown.memories["m"], shown.end, shown.count), ([1, EOT, -1], [-128], "stopped", 7))

    def test_data(self):
        made = template(read(os.path.join(ROOT, "examples", "vector_add.cpp")).tasks["VecAdd"], 2)
        self.assertEqual(made, Data({"n": 0}, {"a": [0, 0], "b": [0, 0], "c": [0, 0]}))
        self.assertEqual(parse(text_of(made)), made)
        self.assertEqual(parse(text_of(Data())), Data())
        for text in ("{", "[]", '{"wait": {}}', '{"scalars": 3}', "1" * 5000, "[" * 100000):
            with self.assertRaises(BadData):
                parse(text)


if __name__ == "__main__":
    unittest.main()
