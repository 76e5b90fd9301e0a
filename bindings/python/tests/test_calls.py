"""The calls, each once, and what they say where something is wrong."""
import unittest
from pathlib import Path

import kaolinsilk
from common import CONFLICT, EXAMPLES, GALLERY, MISTAKEN, PREFIX, SUMS, TINY, answer_beside
from kaolinsilk import _library, answers, calling


class Calls(unittest.TestCase):
    def test_answers_stand_beside_the_examples(self):
        for file in GALLERY:
            with self.subTest(file=file.name):
                self.assertEqual(kaolinsilk.plain(file).text, answer_beside(file))

    def test_values_by_names(self):
        answer = kaolinsilk.plain(PREFIX)
        self.assertEqual((answer.status, answer.step, answer.values), ("done", 72, {"A": SUMS}))
        self.assertEqual(kaolinsilk.plain(EXAMPLES / "maximum.pardo")["greatest"], 47)
        self.assertEqual(kaolinsilk.plain(EXAMPLES / "sum.pram")[0], 31)

    def test_an_answer_is_a_mapping(self):
        answer = kaolinsilk.plain(PREFIX)
        self.assertTrue("A" in answer and "B" not in answer and 0 not in answer)
        self.assertEqual((list(answer), len(answer), dict(answer)), (["A"], 1, {"A": SUMS}))
        self.assertEqual((dict(**answer), list(answer.items())), ({"A": SUMS}, [("A", SUMS)]))
        self.assertEqual((answer.get("A"), answer.get("B", 7)), (SUMS, 7))
        for name in (0, "B"):
            with self.assertRaises(KeyError):
                answer[name]
        nothing = kaolinsilk.plain("pardo 1\nrule crew\nprocs i < 1\nprivate x\ncode\nx := 1\n")
        self.assertEqual((bool(nothing), list(nothing)), (True, []))
        cells = kaolinsilk.plain(TINY)
        self.assertEqual((list(cells), cells[0]), (["cells"], 0))
        failed = kaolinsilk.plain(CONFLICT)
        self.assertTrue(failed)
        for ask in (list, len, dict, lambda it: "sum" in it, lambda it: it.get("sum")):
            with self.assertRaises(kaolinsilk.Conflict):
                ask(failed)

    def test_arrays_of_two_indices(self):
        text = "pardo 1\nrule crew\nconst n = 2\nprocs i < 1\nshared G[n,3]\nshared A[6]\n"
        text += "code\nA[1] := G[n - 1,1]\n"
        rows = [[1, 2, 3], [4, 5, 6]]
        answer = kaolinsilk.plain(text, settings={"G": rows})
        self.assertEqual((answer["G"], answer["A"][1]), (rows, 5))
        self.assertEqual(kaolinsilk.plain(text, settings={"G": range(1, 7)}), answer)
        self.assertEqual(kaolinsilk.plain(text, settings={"G": (tuple(it) for it in rows)}), answer)
        self.assertEqual(kaolinsilk.run(text, 2, settings={"G": rows}), answer)
        three = kaolinsilk.plain(text, settings={"n": 3, "G": [*rows, [7, 8, 9]]})
        self.assertEqual((three["G"][2], three["A"][1]), ([7, 8, 9], 8))
        self.assertEqual(kaolinsilk.plain(text, settings={"G": "1,2,3,4,5,6"}), answer)
        for settings, sentence in (
            ({"G": [[1, 2], [3, 4], [5, 6]]}, "the array is 2 by 3, and not 3 by 2"),
            ({"G": [[1, 2, 3], [4, 5]]}, "the rows have not all one length"),
            ({"A": rows}, "the array is 6, and not 2 by 3"),
            ({"n": 3, "G": rows}, "as many values as places"),
        ):
            with self.assertRaises(kaolinsilk.Refused) as caught:
                kaolinsilk.plain(text, settings=settings)
            refused = caught.exception
            told = (refused.subject, refused.name, refused.kind)
            self.assertEqual(told, ("set", "A" if "A" in settings else "G", "WrongLength"))
            self.assertIn(sentence, refused.sentence)
        for wrong in ([[1.5, 2, 3]] * 2, [rows, rows], 1.5, [None]):
            with self.assertRaises(TypeError):
                kaolinsilk.plain(text, settings={"G": wrong})

    def test_long_arrays(self):
        text = "pardo 1\nrule crew\nconst n = 4\nprocs i < 4\nshared A[n]\nshared s\ncode\n"
        text += "A[i] := A[i] + 1\n"
        given = [0, 7, 10**9, 2**32 - 2, *range(300_000)]
        settings, wanted = {"n": len(given), "A": given}, [1, 8, 10**9 + 1, 2**32 - 1, *given[4:]]
        answer = kaolinsilk.plain(text, settings=settings)
        self.assertEqual((answer["A"], answer["s"]), (wanted, 0))
        self.assertEqual(kaolinsilk.run(text, 1, settings=settings), answer)
        self.assertEqual(kaolinsilk.cells(text, settings=settings)[: len(given)], wanted)

    def test_a_text_is_run_once_where_its_answer_is_long(self):
        counted, library = [], _library.library

        class Counted:
            def __getattr__(self, name):
                counted.append(name)
                return getattr(library, name)

        text = b"pram 1\ncells 65536\nprocs 1\nsteps 1\ncode\nst r0 r0\n"
        request = bytes(_library.Request(size=88))
        given = calling.call(Counted(), calling.Asked("ks_plain", (text,), request))
        self.assertEqual((counted, given.output.count(b"\n")), (["ks_plain"], 65537))

    def test_numpy_arrays_as_settings(self):
        try:
            import numpy
        except ImportError:
            self.skipTest("numpy is not there")
        text = "pardo 1\nrule crew\nprocs i < 1\nshared G[2,3]\nshared s\ncode\ns := s + G[1,2]\n"
        for kind in ("uint8", "uint32", "int64", ">u4"):
            rows = numpy.arange(6, dtype=kind).reshape(2, 3)
            for array in (rows, rows.T.copy().T, rows.flatten()):
                answer = kaolinsilk.plain(text, settings={"G": array, "s": array.dtype.type(7)})
                self.assertEqual((answer["G"], answer["s"]), ([[0, 1, 2], [3, 4, 5]], 12))
            self.assertEqual(answer.array("G").shape, (2, 3))
        with self.assertRaises(kaolinsilk.Refused):
            kaolinsilk.plain(text, settings={"G": rows.T})
        with self.assertRaises(TypeError):
            kaolinsilk.plain(text, settings={"G": rows / 2})

    def test_a_scalar_is_a_number_and_an_array_of_one_place_is_a_list(self):
        header = "pardo 1\nrule crew\nprocs i < 1\nshared A[1] = 7\nshared sum ; A[\ncode\n"
        self.assertEqual(kaolinsilk.plain(header + "sum := A[0]\n").values, {"A": [7], "sum": 7})

    def test_bytes_and_paths_are_texts(self):
        file = EXAMPLES / "prefix.pardo"
        for text in (PREFIX, PREFIX.encode(), bytearray(PREFIX.encode()), file, Path(str(file))):
            self.assertEqual(kaolinsilk.plain(text)["A"], SUMS)

    def test_settings(self):
        settings = {"n": 4, "A": [5, 6, 7, 8]}
        answer = kaolinsilk.plain(PREFIX, settings=settings)
        self.assertEqual(answer.values, {"A": [5, 11, 18, 26]})
        self.assertEqual(kaolinsilk.run(PREFIX, 3, settings=settings), answer)
        self.assertEqual(kaolinsilk.cells(PREFIX, settings=settings)[:4], answer["A"])
        self.assertEqual(kaolinsilk.check(PREFIX, settings=settings)["procs"], 4)
        for call in (kaolinsilk.steps, kaolinsilk.replay):
            self.assertEqual(call(PREFIX, settings=settings).answer, answer)
        text = kaolinsilk.text_as_set(PREFIX, settings)
        self.assertEqual(kaolinsilk.compile(text), kaolinsilk.compile(PREFIX, settings=settings))
        self.assertEqual(kaolinsilk.cost(text), kaolinsilk.cost(PREFIX, settings=settings))
        self.assertEqual(kaolinsilk.plain(PREFIX, settings={})["A"], SUMS)

    def test_check(self):
        facts = {"cells": 8, "procs": 4, "steps": 40, "code": 15, "rule": "common"}
        self.assertEqual(kaolinsilk.check(EXAMPLES / "sum.pram"), facts)
        self.assertEqual(kaolinsilk.check(EXAMPLES / "sum.pardo")["rule"], "crew")

    def test_a_compiled_text_is_its_own(self):
        text = kaolinsilk.compile(kaolinsilk.compile(PREFIX))
        self.assertEqual(kaolinsilk.compile(text), text)
        self.assertEqual(kaolinsilk.cells(text), kaolinsilk.cells(PREFIX))
        self.assertEqual(kaolinsilk.cells(PREFIX)[:8], SUMS)

    def test_why(self):
        self.assertEqual(kaolinsilk.plain(PREFIX, why=True).why, ["stopped step=72"])
        self.assertEqual(kaolinsilk.plain(PREFIX).why, [])

    def test_lines_of_why(self):
        text = "pardo 1\nrule crew\nprocs i < 1\nshared lost = 5\ncode\nlost := 6\n"
        self.assertEqual(kaolinsilk.plain(text, why=True).why, ["stopped step=3"])
        said = b"conflict line=12 place=sum processors=0,1\nwrote values=4,10\n"
        told = answers.answer_of(CONFLICT.encode(), _library.Told(_library.CONFLICT, said))
        self.assertEqual((told.conflict.values, told.why), ((4, 10), ["wrote values=4,10"]))
        self.assertIn("write 4 and 10 to sum in line 12", str(told.conflict))
        said = b"done steps=2\nlost = 6\nlost processor=2 step=1 line=6\n"
        said += b"outside array=A index=2 length=2\nround step=2 line=5 value=1\n"
        told = answers.answer_of(text.encode(), _library.Told(_library.DONE, said))
        self.assertEqual((told["lost"], len(told.why)), (6, 3))

    def test_gone(self):
        text = "pardo 1\nrule crew\nprocs i < 3\nshared A[2]\ncode\nA[i] := 1\n"
        self.assertEqual(kaolinsilk.plain(text).gone, [kaolinsilk.Gone(2, 6)])

    def test_cost(self):
        cost = kaolinsilk.cost(EXAMPLES / "maximum.pram")
        self.assertEqual([cost[it] for it in ("steps", "work", "needs")], [20, 312, "CRCW common"])
        self.assertEqual(cost["same_read"], {"step": 4, "cell": 0, "processors": (0, 1)})
        self.assertEqual(list(cost)[-1], "other_value")
        self.assertIsNone(cost["other_value"])

    def test_cost_by_lines(self):
        rows, cost = kaolinsilk.cost_by_lines(PREFIX), kaolinsilk.cost(PREFIX)
        self.assertEqual((sum(rows["time"]), sum(rows["operations"])), (3, 17))
        self.assertEqual((cost["time"], cost["operations"], cost["rounds"]), (3, 17, 3))
        self.assertEqual(list(cost)[-1], "rounds")
        row = {"line": 12, "times": 3, "time": 3, "operations": 17, "most": 7}
        self.assertEqual(rows[-1], {**row, "text": "      A[i] := A[i] + A[i - 1 << h]"})
        quoted = PREFIX.replace("1 << h]", '1 << h] ; a "comment", and more\r')
        self.assertIn('"comment", and more\r', kaolinsilk.cost_by_lines(quoted)[-1]["text"])
        self.assertEqual(len(kaolinsilk.cost_by_lines(TINY)), 0)
        smaller = kaolinsilk.cost_by_lines(PREFIX, settings={"n": 2, "A": [5, 6]})
        self.assertEqual(smaller["operations"], [1])

    def test_steps(self):
        rows = kaolinsilk.steps(PREFIX, 3, 5)
        self.assertEqual((len(rows), rows[0]["line"], rows.answer["A"]), (24, 10, SUMS))
        self.assertEqual(set(rows["step"]), {3, 4, 5})
        self.assertEqual(len(kaolinsilk.steps(TINY)), 1)

    def test_replay(self):
        rows = kaolinsilk.replay(PREFIX, 3, [(0, "stop"), (1, "go", 40), (1, "stop")])
        self.assertEqual(rows["tick"], list(range(1, len(rows) + 1)))
        self.assertEqual(rows["worker"][:41], [1] * 40 + [2])
        self.assertEqual(rows.answer["A"], SUMS)


class Faults(unittest.TestCase):
    def test_a_refused_text(self):
        with self.assertRaises(kaolinsilk.Refused) as caught:
            kaolinsilk.plain(MISTAKEN)
        refused = caught.exception
        self.assertEqual((refused.subject, refused.line, refused.kind), ("text", 12, "BadLine"))
        self.assertEqual((refused.column, MISTAKEN.splitlines()[11][4]), (5, "="))
        self.assertIn("line 12, column 5: an assignment is `:=`", str(refused))
        self.assertIn(refused.sentence, str(refused))
        self.assertIsInstance(refused, ValueError)

    def test_a_refused_plan(self):
        for rows, line, kind in (([(9, "go", 1)], 2, "BadWorker"), ("worker\n", 1, "BadRow")):
            for call in (kaolinsilk.replay, kaolinsilk.run):
                with self.assertRaises(kaolinsilk.Refused) as caught:
                    call(PREFIX, 2, rows)
                refused = caught.exception
                told = (refused.subject, refused.line, refused.kind)
                self.assertEqual(told, ("plan", line, kind))

    def test_a_refused_setting(self):
        for settings, name, kind in (
            ({"n": 4, "A": [1, 2, 3]}, "A", "WrongLength"),
            ({"n": [4, 5]}, "n", "WrongLength"),
            ({"n": 4, "B": 1, "A": [1, 2, 3, 4]}, "B", "UnknownName"),
            ({"i": 4}, "i", "WrongKind"),
            ({"n": 2**32}, "n", "OutOfLimits"),
            ({"n": -1}, "n", "BadNumber"),
            ({"2n": 1}, "2n", "BadSetting"),
        ):
            with self.assertRaises(kaolinsilk.Refused) as caught:
                kaolinsilk.plain(PREFIX, settings=settings)
            refused = caught.exception
            told = (refused.subject, refused.name, refused.kind)
            self.assertEqual(told, ("set", name, kind))
            self.assertIn(f"set {name}: ", str(refused))
        with self.assertRaises(kaolinsilk.Refused) as caught:
            kaolinsilk.plain(TINY, settings={"n": 1})
        self.assertEqual(caught.exception.kind, "UnknownName")
        with self.assertRaises(kaolinsilk.BadRequest):
            kaolinsilk.plain(PREFIX, settings={"n=4\nA": 1})

    def test_a_step_that_there_is_not(self):
        with self.assertRaises(kaolinsilk.Refused) as caught:
            kaolinsilk.steps(PREFIX, 400)
        self.assertEqual(caught.exception.subject, "step")

    def test_numbers_outside_their_limits(self):
        for workers in (0, 65, -1, 2**32 + 1):
            for call in (kaolinsilk.replay, kaolinsilk.run, kaolinsilk.Board):
                with self.assertRaises(kaolinsilk.BadRequest):
                    call(PREFIX, workers)
        for first, last in ((-1, None), (0, 4), (1, 0), (5, 4), (1, 2**32)):
            with self.assertRaises(kaolinsilk.BadRequest):
                kaolinsilk.steps(PREFIX, first, last)
        with self.assertRaises(kaolinsilk.BadRequest):
            kaolinsilk.Board(PREFIX, grain=3)

    def test_a_text_that_is_too_long(self):
        with self.assertRaises(kaolinsilk.Refused) as caught:
            kaolinsilk.check(b" " * 67_108_865)
        self.assertEqual(caught.exception.subject, "size")

    def test_a_conflict(self):
        answer = kaolinsilk.plain(CONFLICT)
        self.assertEqual((answer.status, answer.conflict.processors), ("conflict", (0, 1)))
        self.assertEqual((answer.conflict.line, answer.conflict.place), (12, "sum"))
        with self.assertRaises(kaolinsilk.Conflict):
            answer["sum"]
        with self.assertRaises(kaolinsilk.Conflict):
            kaolinsilk.cells(CONFLICT)
        told = kaolinsilk.plain(EXAMPLES / "conflict.pram").conflict
        self.assertEqual((told.step, told.cell, told.line), (4, 0, None))

    def test_texts_without_a_letter(self):
        for text in ("", "\n", ";", "\0", "pardo", "é", b"\xff"):
            with self.assertRaises(kaolinsilk.Refused):
                kaolinsilk.check(text)


class Rows(unittest.TestCase):
    def test_slices_and_columns(self):
        rows = kaolinsilk.steps(PREFIX)
        self.assertEqual(rows[:3][2], rows[2])
        self.assertEqual(list(rows)[-1], rows[-1])
        self.assertEqual(rows["step"][5], rows[5]["step"])
        with self.assertRaises(KeyError):
            rows["nothing"]

    def test_pandas(self):
        try:
            import pandas
        except ImportError:
            self.skipTest("pandas is not there")
        rows = kaolinsilk.steps(PREFIX)
        frame = rows.frame()
        self.assertTrue(frame.equals(pandas.DataFrame(rows)))
        self.assertEqual(list(frame.columns), list(rows.names))
        self.assertEqual(frame[frame.writes.astype(str).str.startswith("cell")].step.min(), 5)

    def test_numpy(self):
        try:
            import numpy
        except ImportError:
            self.skipTest("numpy is not there")
        array = kaolinsilk.plain(PREFIX).array("A")
        self.assertEqual((array.dtype, array.sum()), (numpy.uint32, sum(SUMS)))
        self.assertEqual(kaolinsilk.plain(TINY).array().tolist(), [0])


if __name__ == "__main__":
    unittest.main()
