"""Boards, workers and seats, and runs on threads by plans."""
import gc
import signal
import subprocess
import sys
import threading
import time
import unittest
from subprocess import PIPE

import kaolinsilk
from common import CONFLICT, EXAMPLES, GALLERY, PREFIX, STARTS, SUMS, TINY
from kaolinsilk.boards import HAS_UNCOUNTED
from kaolinsilk.plans import Row, rows_of

# A job that is never at its end.
INTERRUPTED = """
import signal
import kaolinsilk
# Where the tests run in the background, interrupts are ignored.
signal.signal(signal.SIGINT, signal.default_int_handler)
text = "pram 1\\ncells 1\\nprocs 64\\nsteps 4000000000\\ncode\\na: jmp a\\n"
print("ready", flush=True)
"""
# A call with hardly any memory left, twice, and then with enough.
REFUSED = """
import resource, kaolinsilk
text = "pram 1\\ncells 65536\\nprocs 1024\\nsteps 300\\ncode\\na: add r0 r0 r0\\njmp a\\n"
pages = int(open("/proc/self/statm").read().split()[0])
most = pages * resource.getpagesize() + 300_000
had = resource.getrlimit(resource.RLIMIT_AS)
for limit in (most, most, had[0]):
    resource.setrlimit(resource.RLIMIT_AS, (limit, had[1]))
    try:
        kaolinsilk.{call}
        print("allowed")
    except MemoryError:
        print("refused")
"""


class Boards(unittest.TestCase):
    def test_a_worker_alone(self):
        board = kaolinsilk.Board(PREFIX, workers=1)
        worker, seat = board.worker(0), board.seat()
        self.assertEqual(seat.progress(), (0, 72, 0))
        self.assertEqual(worker.work(limit=1), "unfinished")
        self.assertEqual(worker.work(), "done")
        self.assertEqual(seat.progress(), (72, 72, 0))
        self.assertEqual((seat.memory()[:8], seat.answer()["A"]), (SUMS, SUMS))
        self.assertEqual(seat.read(7), (72, 31))
        self.assertIsNone(seat.fault())

    def test_what_is_said_of_a_fresh_board(self):
        board = kaolinsilk.Board(PREFIX, workers=2)
        seat = board.seat()
        self.assertEqual([seat.read(it) for it in range(8)], [(0, it) for it in STARTS])
        self.assertIsNone(seat.fault())
        answer = seat.answer()
        told = (answer.status, answer.step, answer.text, answer.gone, answer.why)
        self.assertEqual(told, ("unfinished", 0, "unfinished step=0\n", [], []))
        for ask in (seat.memory, lambda: answer["A"], lambda: list(answer)):
            with self.assertRaises(kaolinsilk.Unfinished) as caught:
                ask()
            said = "the job is not at its end: no step is finished"
            self.assertEqual((caught.exception.step, str(caught.exception)), (0, said))
        self.assertEqual(repr(board), "<board of 8 processors, 72 steps and 2 workers>")
        self.assertEqual(repr(board.worker(1)), "<worker 1 of 2>")
        self.assertEqual([repr(seat), repr(answer)], ["<seat: step 0 of 72>", "<unfinished step=0>"])
        board.worker(1).work()
        self.assertEqual(repr(seat), "<seat: step 72 of 72>")

    def test_single_steps(self):
        board = kaolinsilk.Board(TINY, workers=1, grain=1)
        worker, calls = board.worker(0), 1
        while worker.work(limit=1) == "unfinished":
            calls += 1
        self.assertLess(calls, 309)
        self.assertEqual(board.seat().memory(), [0])

    def test_each_grain(self):
        for grain in (1, 2, 4, 8, 16, 32, 64):
            board = kaolinsilk.Board(PREFIX, workers=2, grain=grain)
            self.assertEqual(board.worker(1).work(), "done")
            self.assertEqual(board.seat().answer()["A"], SUMS)

    def test_a_worker_comes_back_and_another_one_ends_the_job(self):
        board = kaolinsilk.Board(PREFIX, workers=2)
        lost, other = board.worker(0), board.worker(1)
        lost.work(limit=777)
        lost.back()
        lost.work(limit=77)
        self.assertEqual(other.work(), "done")
        self.assertEqual(lost.work(), "done")
        self.assertEqual(board.seat().answer(), kaolinsilk.plain(PREFIX))

    def test_a_conflict(self):
        board = kaolinsilk.Board(CONFLICT, workers=1)
        self.assertEqual(board.worker(0).work(), "conflict")
        fault = board.seat().answer().conflict
        self.assertEqual((fault.step, fault.processors), (5, (0, 1)))
        self.assertEqual((fault.line, fault.place), (12, "sum"))
        with self.assertRaises(kaolinsilk.Conflict):
            board.seat().memory()

    def test_numbers_that_there_are_not(self):
        board = kaolinsilk.Board(PREFIX, workers=2)
        for number in (-1, 2, 64, 2**32):
            with self.assertRaises(kaolinsilk.BadRequest):
                board.worker(number)
        for cell in (-1, board.cells, 2**32):
            with self.assertRaises(kaolinsilk.BadRequest):
                board.seat().read(cell)

    def test_places_by_their_names(self):
        board = kaolinsilk.Board(CONFLICT, workers=1)
        seat = board.seat()
        self.assertEqual([seat.read(it).value for it in ("value[2]", "sum", 2)], [4, 10, 4])
        for name in ("value", "sum[0]", "value[4]", "value[02]", "other", "", "value[2"):
            with self.assertRaises(kaolinsilk.BadRequest):
                seat.read(name)
        with self.assertRaises(kaolinsilk.BadRequest):
            kaolinsilk.Board(TINY).seat().read("A[0]")

    def test_a_worker_outlives_the_name_of_its_board(self):
        worker = kaolinsilk.Board(PREFIX, workers=1).worker(0)
        gc.collect()
        self.assertEqual(worker.work(), "done")
        self.assertEqual(worker.board.seat().answer()["A"], SUMS)

    def test_threads_that_share_a_worker_and_a_seat(self):
        board = kaolinsilk.Board(PREFIX, workers=1)
        worker, seat, seen = board.worker(0), board.seat(), []

        def work():
            while worker.work(limit=50) == "unfinished":
                seen.append(seat.progress().step)

        threads = [threading.Thread(target=work) for _ in range(4)]
        for thread in threads:
            thread.start()
        for thread in threads:
            thread.join()
        self.assertEqual(seat.answer()["A"], SUMS)

    def test_a_reader_beside_threads(self):
        text = (EXAMPLES / "bitonic.pardo").read_text()
        board = kaolinsilk.Board(text, workers=2)
        threads = [threading.Thread(target=board.worker(it).work, args=(None,)) for it in (0, 1)]
        seat, seen = board.seat(), [0]
        for thread in threads:
            thread.start()
        while seen[-1] < board.steps:
            seen += [seat.read(0).step, seat.progress().step]
        for thread in threads:
            thread.join()
        self.assertEqual(seen, sorted(seen))


@unittest.skipUnless(HAS_UNCOUNTED, "this library counts the steps of each program")
class Uncounted(unittest.TestCase):
    def test_the_gallery(self):
        for file in GALLERY:
            board = kaolinsilk.Board(file, 2, counted=False)
            while board.worker(1).turns(100) == "unfinished":
                pass
            with self.subTest(file=file.name):
                answer = kaolinsilk.plain(file)
                # It tells the step of a conflict, too.
                self.assertEqual(board.seat().answer(), answer)
                self.assertIn(answer.step, (None, board.seat().answer().step))

    def test_a_board_is_opened_at_once(self):
        text = "pardo 1\nrule crew\nconst n = 50000\nprocs i < 64\nshared A[64]\ncode\n"
        text += "for k = 1 to n\nA[i] := A[i] + k\nend\n"
        times = {}
        for counted in (True, False):
            began = time.process_time()
            kaolinsilk.Board(text, 1, counted=counted)
            times[counted] = time.process_time() - began
        self.assertLess(times[False], times[True] / 5)


class Runs(unittest.TestCase):
    def test_a_program_that_never_ends(self):
        text = "pardo 1\nrule crew\nprocs i < 2\nshared A[2]\ncode\nwhile 1\nA[i] := 1\nend\n"
        with self.assertRaises(kaolinsilk.Refused) as caught:
            kaolinsilk.run(text, 2)
        self.assertEqual(caught.exception.kind, "Endless")

    def test_without_a_plan(self):
        for workers in (1, 2, 5, 64):
            self.assertEqual(kaolinsilk.run(PREFIX, workers)["A"], SUMS)

    def test_the_gallery_by_plans(self):
        plans = (
            [(0, "stop"), (1, "go", 40), (1, "stop")],
            [(0, "sleep", 5), (1, "go", 9), (1, "sleep", 2), (2, "sleep", 1)],
            "worker,act,ticks\n0,go,9\n0,back,0\n1,go,50\n1,back,0\n2,stop,0\n",
        )
        for file in GALLERY:
            for plan in plans:
                with self.subTest(file=file.name, plan=plan):
                    self.assertEqual(kaolinsilk.run(file, 3, plan), kaolinsilk.plain(file))

    def test_all_are_stopped(self):
        plan = [(0, "go", 60), (0, "stop"), (1, "stop")]
        answer = kaolinsilk.run(PREFIX, 2, plan)
        self.assertEqual(answer.status, "unfinished")
        self.assertLess(answer.step, 72)
        self.assertEqual(answer.text, f"unfinished step={answer.step}\n")
        with self.assertRaises(kaolinsilk.Unfinished):
            answer["A"]

    def test_the_answer_does_not_wait_for_a_sleeper(self):
        began = time.monotonic()
        answer = kaolinsilk.run(TINY, 2, [(0, "sleep", 1_000_000)], pace=0.000_1)
        self.assertEqual(answer.status, "done")
        self.assertLess(time.monotonic() - began, 20)

    def test_a_pace_is_kept(self):
        began = time.monotonic()
        kaolinsilk.run(TINY, 1, [(0, "go", 20)], pace=0.004)
        self.assertGreater(time.monotonic() - began, 0.04)

    def test_no_thread_is_left(self):
        kaolinsilk.run(PREFIX, 4, [(0, "sleep", 9)], pace=0.000_1)
        until = time.monotonic() + 20
        while threading.active_count() > 1 and time.monotonic() < until:
            time.sleep(0.01)
        names = [it.name for it in threading.enumerate() if it.name.startswith("kaolinsilk")]
        self.assertEqual(names, [])

    def test_threads_that_are_refused(self):
        started = threading.Thread.start

        def refuse_some(thread):
            if thread.name in ("kaolinsilk worker 0", "kaolinsilk worker 2"):
                raise RuntimeError("can't start new thread")
            started(thread)

        threading.Thread.start = refuse_some
        try:
            self.assertEqual(kaolinsilk.run(PREFIX, 3)["A"], SUMS)
            with self.assertRaises(kaolinsilk.OutOfMemory):
                kaolinsilk.run(PREFIX, 3, [(1, "stop")])
        finally:
            threading.Thread.start = started

    def test_an_interrupt_ends_a_run(self):
        for call in ("run(text, 2)", "Board(text, 1).worker(0).work()"):
            words = [sys.executable, "-c", f"{INTERRUPTED}kaolinsilk.{call}"]
            with subprocess.Popen(words, stdout=PIPE, stderr=PIPE, text=True) as ran:
                self.assertEqual(ran.stdout.readline(), "ready\n")
                time.sleep(0.3)
                ran.send_signal(signal.SIGINT)
                _, said = ran.communicate(timeout=30)
            self.assertIn("KeyboardInterrupt", said)

    def test_memory_that_is_refused(self):
        for call in ("Board(text, 64)", "plain(text)", "steps(text, 1, 300)"):
            words = [sys.executable, "-c", REFUSED.format(call=call)]
            ran = subprocess.run(words, capture_output=True, text=True, timeout=60)
            self.assertEqual(ran.stdout, "refused\nrefused\nallowed\n", ran.stderr)

    def test_rows_of_a_plan(self):
        rows = rows_of([(0, "go", 4_294_967_295), (1, "back"), (0, "sleep", 2), (1, "stop")], 2)
        self.assertEqual(rows[0], Row(0, "go", 4_294_967_295))
        self.assertEqual([row.act for row in rows], ["go", "back", "sleep", "stop"])
        self.assertEqual(rows_of(None, 2), rows_of("", 1))


if __name__ == "__main__":
    unittest.main()
