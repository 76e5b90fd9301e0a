"""Calls that end before their work is done: after a time, by another thread, or by an interrupt."""
import json
import os
import signal
import subprocess
import sys
import threading
import time
import unittest
from multiprocessing import get_context
from subprocess import PIPE

import kaolinsilk
from common import PREFIX, SUMS, TINY
from kaolinsilk import callers, processes
from kaolinsilk.boards import HAS_TURNS
from kaolinsilk.limits import limit_of

# Hours of work, and a program that is refused after seconds: its steps are counted first.
ENDLESS = "pram 1\ncells 1\nprocs 64\nsteps 4000000000\ncode\nset r1 1\na: add r0 r0 r1\njmp a\n"
SLOW = "pardo 1\nrule crew\nprocs i < 1024\nshared A[1024]\ncode\nfor k = 1 to 150000\n"
SLOW += "A[i] := A[i] + k\nend\n"
EXERCISE = "exercise 1\ntitle t\nwant A\ngiven\n  pardo 1\n  rule crew\n  procs i < 1024\n"
EXERCISE += f"  shared A[1024]\nstart\n  code\ninput -> A={','.join(['1'] * 1024)}\n"

CALLS = {
    "plain": lambda **how: kaolinsilk.plain(ENDLESS, **how),
    "plain of a program": lambda **how: kaolinsilk.plain(SLOW, **how),
    "cells": lambda **how: kaolinsilk.cells(ENDLESS, **how),
    "check": lambda **how: kaolinsilk.check(SLOW, **how),
    "compile": lambda **how: kaolinsilk.compile(SLOW, **how),
    "cost": lambda **how: kaolinsilk.cost(ENDLESS, **how),
    "cost_by_lines": lambda **how: kaolinsilk.cost_by_lines(SLOW, **how),
    "steps": lambda **how: kaolinsilk.steps(ENDLESS, 1, 1, **how),
    "replay": lambda **how: kaolinsilk.replay(ENDLESS, 1, **how),
    "judge": lambda **how: kaolinsilk.judge(EXERCISE, SLOW, **how),
    "run": lambda **how: kaolinsilk.run(ENDLESS, 2, **how),
    "run of single steps": lambda **how: kaolinsilk.run(
        ENDLESS, 2, [(0, "go", 2**32 - 1)], **how
    ),
}
# How long a call may go on after it should have ended; the machine may be busy.
LATE = float(os.environ.get("KAOLINSILK_LATE", "0.6"))

# Calls that an interrupt ends; then another one is made. It tells when each ended.
INTERRUPTED = """
import json, signal, sys, threading, time
sys.path[:0] = {path!r}
import kaolinsilk
from test_limits import CALLS, ENDLESS, PREFIX
signal.signal(signal.SIGINT, signal.default_int_handler)
CALLS["worker.work"] = lambda: kaolinsilk.Board(ENDLESS, 1).worker(0).work()
CALLS["plain with a timeout"] = lambda: kaolinsilk.plain(ENDLESS, timeout=1000)
for name, call in CALLS.items():
    print(json.dumps(name), flush=True)
    try:
        call()
    except KeyboardInterrupt:
        ended = time.monotonic()
        print(json.dumps([ended, kaolinsilk.plain(PREFIX)["A"]]), flush=True)
"""


def children():
    """The processes of this one that still run."""
    found = []
    for thread in os.listdir("/proc/self/task"):
        with open(f"/proc/self/task/{thread}/children") as file:
            found += file.read().split()
    return found


class Limits(unittest.TestCase):
    def ends(self, call, error, seconds):
        began = time.monotonic()
        with self.assertRaises(error):
            call()
        self.assertLess(time.monotonic() - began, seconds + LATE)

    def test_each_call_ends_after_its_time(self):
        kaolinsilk.plain(TINY, timeout=20)
        for name, call in CALLS.items():
            with self.subTest(call=name):
                self.ends(lambda: call(timeout=0.2), kaolinsilk.TimedOut, 0.2)

    def test_each_call_is_cancelled(self):
        for name, call in CALLS.items():
            with self.subTest(call=name):
                cancel = threading.Event()
                timer = threading.Timer(0.1, cancel.set)
                timer.start()
                self.ends(lambda: call(cancel=cancel), kaolinsilk.Cancelled, 0.1)
                timer.join()
        self.ends(lambda: kaolinsilk.plain(TINY, cancel=cancel), kaolinsilk.Cancelled, 0)

    def test_what_is_told_in_time(self):
        how = {"timeout": 60, "cancel": threading.Event()}
        for call in (kaolinsilk.plain, kaolinsilk.run, kaolinsilk.cost, kaolinsilk.cells):
            self.assertEqual(call(PREFIX, **how), call(PREFIX))
        answer = kaolinsilk.steps(PREFIX, 3, 5, **how)
        self.assertEqual(answer, kaolinsilk.steps(PREFIX, 3, 5))
        with self.assertRaises(kaolinsilk.Refused) as caught:
            kaolinsilk.plain("pram 1\n\nno", **how)
        self.assertEqual((caught.exception.line, caught.exception.kind), (3, "BadHeader"))
        large = "pram 1\ncells 65536\nprocs 1\nsteps 1\ncode\nst r0 r0\n"
        self.assertEqual(kaolinsilk.plain(large, **how), kaolinsilk.plain(large))

    def test_nothing_goes_on_after_a_timeout(self):
        for _ in range(3):
            with self.assertRaises(TimeoutError):
                kaolinsilk.plain(ENDLESS, timeout=0.05)
        processes._kill_idle()
        until = time.monotonic() + 10
        while children() and time.monotonic() < until:
            time.sleep(0.01)
            subprocess._cleanup()
        self.assertEqual(children(), [])

    def test_a_process_that_is_gone(self):
        kaolinsilk.plain(TINY, timeout=60)
        for process in processes._idle:
            process._process.kill()
            process._process.wait()
        self.assertEqual(kaolinsilk.plain(PREFIX, timeout=60)["A"], SUMS)

    def test_where_no_process_is_to_be_had(self):
        processes._kill_idle()
        had, sys.executable = sys.executable, "/bin/true"
        try:
            self.assertEqual(kaolinsilk.plain(PREFIX, timeout=60)["A"], SUMS)
            call = lambda: kaolinsilk.plain(SLOW, timeout=0.1)  # noqa: E731
            self.ends(call, kaolinsilk.TimedOut, 0.1)
            sys.executable = None
            self.assertEqual(kaolinsilk.plain(PREFIX, timeout=60)["A"], SUMS)
        finally:
            sys.executable = had

    def test_forked_children_have_processes_and_threads_of_their_own(self):
        kaolinsilk.plain(TINY, timeout=60)
        with get_context("fork").Pool(2) as pool:
            for way in ({}, {"timeout": 60}):
                found = [pool.apply_async(kaolinsilk.plain, (PREFIX,), way) for _ in range(8)]
                self.assertEqual([it.get(60)["A"] for it in found], [SUMS] * 8)
        self.assertEqual(kaolinsilk.plain(PREFIX, timeout=60)["A"], SUMS)

    def test_calls_side_by_side(self):
        wrong = []

        def ask():
            for _ in range(20):
                if kaolinsilk.plain(PREFIX, timeout=60)["A"] != SUMS:
                    wrong.append(threading.current_thread())

        threads = [threading.Thread(target=ask) for _ in range(6)]
        for thread in threads:
            thread.start()
        for thread in threads:
            thread.join()
        self.assertEqual(wrong, [])
        self.assertLessEqual(len(processes._idle), processes.MOST_IDLE)

    def test_an_interrupt_ends_each_call(self):
        script = INTERRUPTED.format(path=sys.path)
        with subprocess.Popen([sys.executable, "-c", script], stdout=PIPE, text=True) as ran:
            for line in ran.stdout:
                time.sleep(0.3)
                sent = time.monotonic()
                ran.send_signal(signal.SIGINT)
                with self.subTest(call=json.loads(line)):
                    ended, values = json.loads(ran.stdout.readline())
                    self.assertLess(ended - sent, LATE)
                    self.assertEqual(values, SUMS)
            ran.wait(timeout=60)
        self.assertEqual(ran.returncode, 0)

    def test_who_is_left_gives_way(self):
        """A call that its caller left takes what nobody else wants of the processor."""
        event, number = threading.Event(), []

        def call():
            number.append(threading.get_native_id())
            time.sleep(0.5)

        threading.Timer(0.05, event.set).start()
        with self.assertRaises(kaolinsilk.Cancelled):
            callers.made(call, limit_of(None, event))
        self.assertEqual(os.sched_getscheduler(number[0]), os.SCHED_IDLE)


@unittest.skipUnless(HAS_TURNS, "this library knows no turns")
class Turns(unittest.TestCase):
    def test_by_turns_to_the_end(self):
        board = kaolinsilk.Board(PREFIX, workers=2)
        worker, calls = board.worker(0), 0
        self.assertEqual(worker.turns(0), "unfinished")
        self.assertEqual(board.seat().progress().step, 0)
        while worker.turns(1) == "unfinished":
            calls += 1
        self.assertGreater(calls, 10)
        self.assertEqual(board.seat().answer()["A"], SUMS)
        self.assertEqual((worker.turns(), worker.turns(0)), ("done", "done"))

    def test_at_full_speed(self):
        text = "pram 1\ncells 64\nprocs 256\nsteps 20000\ncode\na: add r0 r0 r1\njmp a\n"
        times = {}
        for name, most in (("whole", 2**64 - 1), ("turns", 10_000)):
            best = 60.0
            for _ in range(5):
                worker = kaolinsilk.Board(text, 1).worker(0)
                began = time.process_time()
                while worker._work_on(kaolinsilk._library.library.ks_turns, most, most) != "done":
                    pass
                best = min(best, time.process_time() - began)
            times[name] = best
        self.assertLess(times["turns"], 1.3 * times["whole"])


if __name__ == "__main__":
    unittest.main()
