"""Runs on threads of Python, which are the workers of a board."""
from __future__ import annotations

import contextlib
import queue
import threading
from typing import List, Optional, Union

from . import plans
from .answers import Answer
from .boards import HAS_TURNS, STRIDE, TURNS, Board, Worker
from .errors import OutOfMemory
from .limits import Limit, limit_of
from .plans import BACK, SLEEP, STOP, Plan, Row
from .texts import Settings, Source

# What a thread ended with: that it knows an answer, that it knows none, or an exception.
Ending = Union[bool, BaseException]


class _Crew:
    """The threads of a run, and the board that they share."""

    def __init__(self, board: Board, rows: List[Row], pace: Optional[float]) -> None:
        self.board, self.pace = board, pace
        self.rows = [[row for row in rows if row.worker == it] for it in range(board.workers)]
        self.endings: "queue.SimpleQueue[Ending]" = queue.SimpleQueue()
        self.over = threading.Event()

    def start(self) -> None:
        """Starts the threads. A worker whose thread the system refuses takes no part."""
        for number in range(self.board.workers):
            name = f"kaolinsilk worker {number}"
            try:
                threading.Thread(target=self._live, args=(number,), name=name).start()
            except RuntimeError:
                self.endings.put(OutOfMemory("the system refuses a thread"))

    def wait(self, limit: Limit) -> None:
        """Waits until a worker knows the answer, or all are lost."""
        refused = None
        for _ in range(self.board.workers):
            ending = self._next_ending(limit)
            if ending is True:
                return
            refused = ending or refused
        if refused:
            raise refused

    def _next_ending(self, limit: Limit) -> Ending:
        while True:
            with contextlib.suppress(queue.Empty):
                return self.endings.get(timeout=limit.pause())

    def _live(self, number: int) -> None:
        try:
            self.endings.put(self._obey(self.board.worker(number), self.rows[number]))
        except BaseException as error:  # told to who waits
            self.endings.put(error)

    def _obey(self, worker: Worker, rows: List[Row]) -> bool:
        """Does what the rows say, and then goes on; whether the worker knows the answer."""
        for row in rows:
            if row.act == STOP or self.over.is_set():
                return False
            if row.act == BACK:
                worker.back()
            elif row.act == SLEEP:
                self._sleep(row.ticks)
            elif self._go(worker, row.ticks):
                return True
        return self._go(worker, None)

    def _sleep(self, ticks: int) -> None:
        """So many pauses, or until the job is over."""
        if self.pace:
            self.over.wait(min(self.pace * ticks, threading.TIMEOUT_MAX))

    def _go(self, worker: Worker, ticks: Optional[int]) -> bool:
        """So many atomic steps, or all that there are; whether the worker knows the answer."""
        if ticks is None and not self.pace and HAS_TURNS:
            return self._go_on(worker)
        while ticks != 0 and not self.over.is_set():
            most = STRIDE if ticks is None else min(ticks, STRIDE)
            if self.pace:
                self.over.wait(self.pace)
                most = 1
            if worker.work(most) != "unfinished":
                return True
            ticks = None if ticks is None else ticks - most
        return False

    def _go_on(self, worker: Worker) -> bool:
        """Goes on at full speed; whether the worker knows the answer."""
        while not self.over.is_set():
            if worker.turns(TURNS) != "unfinished":
                return True
        return False


def run(
    text: Source,
    workers: int = 4,
    plan: Optional[Plan] = None,
    *,
    pace: Optional[float] = None,
    grain: int = 0,
    settings: Optional[Settings] = None,
    timeout: Optional[float] = None,
    cancel: Optional[threading.Event] = None,
) -> Answer:
    """Runs a text by so many threads, which stop, sleep and come back by the plan, and answers as
    soon as one of them knows the answer.

    A plan has rows such as `(1, "go", 40)`, `(1, "stop")`, `(0, "sleep", 3)`, `(2, "back")`, or is
    the text of docs/FORMATS.md. After its rows a worker goes on to the end. `pace` is a pause in
    seconds before each atomic step and for each tick of a sleep; without it nobody waits. With
    `settings` constants and shared arrays are what these say. After `timeout` seconds it raises
    `TimedOut`, and `Cancelled` where another thread sets the event `cancel`.

    >>> text = "pardo 1\\nrule crew\\nprocs i < 4\\nshared A[4]\\ncode\\nA[i] := i * i\\n"
    >>> run(text, workers=3, plan=[(0, "stop"), (1, "go", 40), (1, "stop")])["A"]
    [0, 1, 4, 9]
    """
    limit = limit_of(timeout, cancel)
    board = Board(
        text,
        workers,
        grain,
        # Where a plan or a pace counts atomic steps, they are made one by one, to the last one.
        counted=bool(plan or pace),
        settings=settings,
        timeout=timeout,
        cancel=cancel,
    )
    crew = _Crew(board, plans.rows_of(plan, workers), pace)
    try:
        crew.start()
        crew.wait(limit)
    finally:
        crew.over.set()
    return board.seat().answer_within(limit)
