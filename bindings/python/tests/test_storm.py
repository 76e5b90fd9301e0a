"""Storms: threads of Python on a board, all but one lost at random, beside the plain machine.

The variable KAOLINSILK_STORMS says how many there are (60 without it, 2,000 in the long form), and
KAOLINSILK_SEED from which seed.
"""
import bisect
import collections
import os
import random
import threading
import unittest

import kaolinsilk
from common import GALLERY
from kaolinsilk.moments import accesses_in, made_of

STORMS = int(os.environ.get("KAOLINSILK_STORMS", "60"))
SEED = int(os.environ.get("KAOLINSILK_SEED", "7"))


class Course:
    """What the plain machine says of a text: its answer, and each cell after each step."""

    def __init__(self, file):
        self.text = file.read_bytes()
        self.answer = kaolinsilk.plain(self.text)
        board = kaolinsilk.Board(self.text, workers=1)
        seat, self.cells = board.seat(), board.cells
        self.held = {cell: [(0, seat.read(cell).value)] for cell in range(self.cells)}
        last = made_of(self.text)
        for it in accesses_in(self.text):
            if it.writes is not None and it.step <= last:
                held = self.held[it.writes]
                # Of several who write, the first one's value counts, or all write the same.
                if held[-1][0] != it.step:
                    held.append((it.step, it.value))

    def value(self, cell, step):
        held = self.held[cell]
        return held[bisect.bisect_right(held, (step, 2**32)) - 1][1]


class Storm:
    """One storm: a board, its threads, and a reader beside them."""

    def __init__(self, course, chosen):
        self.course, self.random = course, chosen
        self.workers = chosen.choice((1, 2, 3, 4, 8))
        self.grain = chosen.choice((0, 1, 4, 64))
        self.limit = chosen.choice((1, 300, 2_000, 5_000, 100_000))
        self.stays = chosen.randrange(self.workers)
        self.ends = {}
        self.wrong = []
        self.looks = 0

    def work(self, board, number, seed):
        """A worker's life: it is lost at random, or comes back, and one goes on to the end."""
        chosen, worker = random.Random(seed), board.worker(number)
        said = "unfinished"
        while said == "unfinished":
            # One who comes back forgets its rank, so it needs room for a whole block.
            said = worker.work(self.limit if number != self.stays else max(self.limit, 2_000))
            if number != self.stays and chosen.random() < 0.2:
                return
            if chosen.random() < 0.02:
                worker.back()
        self.ends[number] = said

    def read(self, board, over):
        seat, last = board.seat(), 0
        while not over.is_set():
            cell = self.random.randrange(self.course.cells)
            step, value = seat.read(cell)
            if step < last or value != self.course.value(cell, step):
                self.wrong.append(("read", cell, step, value, last))
            last = max(step, seat.progress().step)
            self.looks += 1

    def go(self):
        board = kaolinsilk.Board(self.course.text, self.workers, self.grain)
        over = threading.Event()
        reader = threading.Thread(target=self.read, args=(board, over))
        seeds = [self.random.random() for _ in range(self.workers)]
        threads = [
            threading.Thread(target=self.work, args=(board, number, seed))
            for number, seed in enumerate(seeds)
        ]
        for thread in (reader, *threads):
            thread.start()
        for thread in threads:
            thread.join()
        over.set()
        reader.join()
        return board.seat().answer()


class Storms(unittest.TestCase):
    def test_all_but_one_are_lost(self):
        chosen = random.Random(SEED)
        courses = [Course(file) for file in GALLERY]
        told = collections.Counter()
        for number in range(STORMS):
            storm = Storm(chosen.choice(courses), chosen)
            answer = storm.go()
            with self.subTest(seed=SEED, storm=number):
                self.assertEqual(answer, storm.course.answer)
                self.assertEqual(set(storm.ends.values()), {answer.status})
                self.assertIn(storm.stays, storm.ends)
                self.assertEqual(storm.wrong, [])
            told.update(storms=1, looks=storm.looks, lost=storm.workers - len(storm.ends))
        if "KAOLINSILK_STORMS" in os.environ:
            print(dict(told))

    def test_runs_by_plans(self):
        chosen = random.Random(SEED + 1)
        courses = [Course(file) for file in GALLERY]
        for number in range(STORMS):
            course, workers = chosen.choice(courses), chosen.choice((1, 2, 3, 4, 8))
            plan = plan_of(chosen, workers)
            with self.subTest(seed=SEED, run=number, plan=plan):
                self.assertEqual(kaolinsilk.run(course.text, workers, plan), course.answer)


def plan_of(chosen, workers):
    """Rows that stop all workers but one, and have them sleep and come back before."""
    rows, stays = [], chosen.randrange(workers)
    for worker in range(workers):
        for _ in range(chosen.randrange(4)):
            act = chosen.choice(("go", "sleep", "back"))
            rows.append((worker, act, 0 if act == "back" else chosen.randrange(3_000)))
        if worker != stays:
            rows.append((worker, "stop"))
    return rows


if __name__ == "__main__":
    unittest.main()
