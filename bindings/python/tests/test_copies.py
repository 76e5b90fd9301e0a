"""What is given to the user goes from process to process, and is copied."""
import copy
import pickle
import subprocess
import sys
import tempfile
import unittest
from pathlib import Path

import kaolinsilk
from common import CONFLICT, EXAMPLES, MISTAKEN, PREFIX, SUMS, TINY

# Four programs over two processes, one of them refused, and then without that one.
POOL = """
import multiprocessing
import pathlib
import warnings
import kaolinsilk

# A process that forks has no thread left of a call.
warnings.simplefilter("error")

def runs(text):
    return kaolinsilk.run(text, 2)

if __name__ == "__main__":
    good = pathlib.Path({good!r}).read_text()
    bad = pathlib.Path({conflict!r}).read_text()
    kaolinsilk.plain(good)
    context = multiprocessing.get_context({way!r})
    with context.Pool(2) as pool:
        try:
            pool.map(kaolinsilk.plain, [good, good.replace(":=", "="), bad, good])
        except kaolinsilk.Refused as refused:
            print(refused.subject, refused.line, refused.column, refused.kind)
        for call in (kaolinsilk.plain, runs):
            answers = pool.map(call, [good, bad, good])
            print([it.status for it in answers], answers[2]["A"], answers[1].conflict.place)
        [rows] = pool.map(kaolinsilk.steps, [good])
        print(len(rows), rows.answer["A"])
"""


def copies(it):
    """The copies of a thing."""
    yield copy.copy(it)
    yield copy.deepcopy(it)
    for protocol in range(2, pickle.HIGHEST_PROTOCOL + 1):
        yield pickle.loads(pickle.dumps(it, protocol))


class Copies(unittest.TestCase):
    def test_exceptions(self):
        refusals = (
            lambda: kaolinsilk.plain(MISTAKEN),
            lambda: kaolinsilk.plain(PREFIX, settings={"n": 4}),
            lambda: kaolinsilk.replay(PREFIX, 2, [(9, "stop")]),
            lambda: kaolinsilk.plain(CONFLICT)["sum"],
            lambda: kaolinsilk.run(PREFIX, 1, [(0, "stop")])["A"],
            lambda: kaolinsilk.run(PREFIX, 65),
        )
        for refused in refusals:
            with self.assertRaises(kaolinsilk.KaolinsilkError) as caught:
                refused()
            for other in copies(caught.exception):
                self.assertIs(type(other), type(caught.exception))
                self.assertEqual(str(other), str(caught.exception))
                self.assertEqual(vars(other), vars(caught.exception))

    def test_answers(self):
        for text in (PREFIX, CONFLICT, TINY):
            for answer in (kaolinsilk.plain(text), kaolinsilk.run(text, 2)):
                for other in copies(answer):
                    self.assertEqual(other, answer)
                    self.assertEqual((other.text, other.gone), (answer.text, answer.gone))
        for other in copies(kaolinsilk.run(PREFIX, 1, [(0, "stop")])):
            self.assertEqual((other.status, other.text), ("unfinished", "unfinished step=0\n"))

    def test_rows_and_what_else_is_told(self):
        exercise = "exercise 1\ntitle t\nwant A\ngiven\n  pardo 1\n  rule crew\n  procs i < 1\n"
        exercise += "  shared A[1]\nstart\n  code\ninput -> A=1\n"
        told = (
            kaolinsilk.steps(PREFIX),
            kaolinsilk.replay(TINY, 1),
            kaolinsilk.cost_by_lines(PREFIX),
            kaolinsilk.sweep(EXAMPLES / "radix.pardo", bits=[4, 5]),
            kaolinsilk.cost(PREFIX),
            kaolinsilk.moment(TINY, 1),
            kaolinsilk.judge(exercise, "pardo 1\nrule crew\nprocs i < 1\nshared A[1]\ncode\n"),
            kaolinsilk.Board(TINY, 1).seat().progress(),
        )
        for it in told:
            for other in copies(it):
                self.assertIs(type(other), type(it))
                self.assertEqual(other, it)
                self.assertEqual(getattr(other, "__dict__", None), getattr(it, "__dict__", None))
        for other in copies(kaolinsilk.draw_work(PREFIX)):
            self.assertEqual(other.svg, kaolinsilk.draw_work(PREFIX).svg)

    def test_what_stays_in_its_process(self):
        board = kaolinsilk.Board(TINY, 1)
        for it in (board, board.worker(0), board.seat()):
            for way in (copy.copy, copy.deepcopy, pickle.dumps):
                with self.assertRaisesRegex(TypeError, "stays in its process"):
                    way(it)
        self.assertEqual(board.worker(0).work(), "done")

    def test_pools_of_processes(self):
        files = {
            "good": str(EXAMPLES / "prefix.pardo"),
            "conflict": str(EXAMPLES / "conflict.pardo"),
        }
        answers = f"['done', 'conflict', 'done'] {SUMS} sum"
        wanted = f"text 12 12 BadLine\n{answers}\n{answers}\n576 {SUMS}\n"
        for way in ("fork", "spawn", "forkserver"):
            with self.subTest(way=way), tempfile.TemporaryDirectory() as room:
                script = Path(room, "pool.py")
                script.write_text(POOL.format(way=way, **files))
                words = [sys.executable, script]
                ran = subprocess.run(words, capture_output=True, text=True, timeout=60)
                self.assertEqual(ran.stdout, wanted, ran.stderr)


if __name__ == "__main__":
    unittest.main()
