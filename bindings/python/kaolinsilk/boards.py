"""Shared boards: the words that the workers of a job share, which any threads may be.

    board = kaolinsilk.Board(text, workers=2)
    worker = board.worker(0)          # one for each thread
    while worker.work(limit=100_000) == "unfinished":
        ...                           # whatever the thread has to do meanwhile
    board.seat().answer()

A worker may be given up after any call, and the others finish the job. A board, its seats and its
workers are freed once none of them is used any more.
"""
from __future__ import annotations

import threading
from ctypes import c_uint32
from typing import Any, List, NamedTuple, NoReturn, Optional, Tuple, Union

from . import _library, calls, texts
from ._library import library
from .answers import Answer, values_of
from .calling import Answer as ToldAnswer
from .errors import Conflict, Unfinished
from .limits import NONE, Limit, limit_of
from .texts import Program, Settings, Source, bytes_of, program_of

# How many atomic steps are made in one call of the library, one by one and by whole turns, so that
# a thread can be stopped soon: they take some milliseconds.
STRIDE, TURNS = 50_000, 1_000_000
HAS_TURNS = hasattr(library, "ks_turns")
HAS_UNCOUNTED = HAS_TURNS and hasattr(library, "ks_open_uncounted") and hasattr(library, "ks_stop")
# The greatest limit.
MOST_STEPS = 2**64 - 1


class Progress(NamedTuple):
    """The last finished step of so many, and the step that is against the rule, or 0."""

    step: int
    steps: int
    conflict: int


class Reading(NamedTuple):
    """What a cell held after a finished step."""

    step: int
    value: int


class _Member:
    """A board, a seat or a worker of the library. One thread at a time uses it; others wait."""

    def __init__(self, close: Any) -> None:
        self.handle, self._close, self._lock = _library.Handle(), close, threading.Lock()

    def ask(self, call: Any, *words: Any) -> int:
        """The status of a call, or the exception of one that was not done."""
        with self._lock:
            status = int(call(self.handle, *words))
        if status not in (_library.DONE, _library.CONFLICT, _library.UNFINISHED):
            _library.refuse(status, ToldAnswer())
        return status

    def __del__(self) -> None:
        if self.handle.at:
            self._close(self.handle)


class _Staying:
    """What stays in its process, where the library has it."""

    def __reduce_ex__(self, protocol: Any) -> NoReturn:
        kind = type(self).__name__
        raise TypeError(f"a {kind} stays in its process: it can be neither pickled nor copied")


class Board(_Staying):
    """The board of a job for 1 to 64 workers, at the start of the job.

    `grain` says how many processors a leaf of the tree has, a power of two up to 64; with 0 the
    library chooses. With `settings` constants and shared arrays are what these say. `board.cells`,
    `board.procs` and `board.steps` are those of the job.

    A program is run once here, so that its steps are counted. With `counted=False` it is not: then
    `steps` are as many as a program may have, the answer tells how many it took, and workers go by
    turns. One that never ends is refused by its answer alone.

    Of a board on which nobody has worked yet a seat tells what is so: no step is finished and there
    is no fault, each cell is read after step 0 as it starts, and the answer is unfinished.

    >>> board = Board("pram 1\\ncells 1\\nprocs 1\\nsteps 1\\ncode\\nst r0 r0\\n", workers=1)
    >>> board.worker(0).work(limit=5)
    'unfinished'
    >>> board.seat().progress(), board.seat().read(0), board.seat().answer()
    (Progress(step=0, steps=1, conflict=0), Reading(step=0, value=0), <unfinished step=0>)
    """

    def __init__(
        self,
        text: Source,
        workers: int = 4,
        grain: int = 0,
        *,
        counted: bool = True,
        settings: Optional[Settings] = None,
        timeout: Optional[float] = None,
        cancel: Optional[threading.Event] = None,
    ) -> None:
        limit = limit_of(timeout, cancel)
        uncounted = not counted and HAS_UNCOUNTED
        # Where nobody counts steps before, values of arrays go to the library as numbers.
        as_numbers = uncounted and _library.has("ks_open_with")
        self._program = (
            program_of(text, settings) if as_numbers else Program(bytes_of(text, settings))
        )
        self.is_counted = not uncounted or not texts.is_program(self._program.start)
        self.workers = _library.number_of(workers, "workers")
        self._shared: Optional[List[texts.Shared]] = None
        self._member = self._opened(self.workers, _library.number_of(grain, "grain"), limit)
        found = _library.Progress()
        Seat(self)._member.ask(library.ks_progress, found)
        self.cells, self.steps = found.cells, found.steps

    @property
    def text(self) -> bytes:
        """The text of the job, as all is set."""
        return self._program.text()

    def _opened(self, workers: int, grain: int, limit: Limit) -> _Member:
        program, member = self._program, _Member(library.ks_close)
        given = _library.givens_of(program.numbers)
        call = library.ks_open if self.is_counted else library.ks_open_uncounted
        words: Tuple[Any, ...] = (program.start, len(program.start), workers, grain)
        if program.numbers:
            call, words = library.ks_open_with, (*words, given, len(given))
        # Who leaves this call leaves the board to it, which closes it then, and what is given.
        status = _library.made(lambda: int(call(*words, member.handle)), limit)
        if status == _library.REFUSED:
            calls.check(self.text, timeout=limit.rest(), cancel=limit.cancel)
        if status != _library.DONE:
            said = b"there are from 1 to 64 workers, and a grain is a power of two up to 64"
            _library.refuse(status, ToldAnswer(sentence=said))
        return member

    @property
    def procs(self) -> int:
        """How many processors the job has."""
        facts = calls.check(texts.without_code(self._program.start))
        return int(facts["procs"])

    def __repr__(self) -> str:
        return f"<board of {self.procs} processors, {self.steps} steps and {self.workers} workers>"

    def cell(self, place: str) -> int:
        """The cell of a place of the program, as "A[3]" or "sum"."""
        if self._shared is None:
            is_program = texts.is_program(self._program.start)
            self._shared = texts.shared_of(self._program.start) if is_program else []
        return texts.cell_of(self._shared, place)

    def worker(self, number: int) -> "Worker":
        """The worker of a number, below the number of workers, at its start.

        Two of one number do no harm.
        """
        return Worker(self, number)

    def seat(self) -> "Seat":
        """A reader of the board."""
        return Seat(self)


class Worker(_Staying):
    """One of a board's workers, and where it stands. One thread at a time uses it; others wait."""

    def __init__(self, board: Board, number: int) -> None:
        self.board, self.number = board, number
        self._member = _Member(library.ks_close_worker)
        asked = _library.number_of(number, "the worker's number", board.workers - 1)
        board._member.ask(library.ks_worker_of, asked, self._member.handle)

    def work(self, limit: Optional[int] = None) -> str:
        """Makes atomic steps until the job is over, or so many: "done", "conflict", "unfinished".

        Without a limit it ends within 600 L T + 16 atomic steps, where T is the number of steps of
        the job and L the least power of two that is at least that of its processors. With one the
        steps are made one by one, which takes some twenty times as long: see `turns`.
        """
        if limit is None and HAS_TURNS:
            return self.turns()
        left = MOST_STEPS if limit is None else _library.number_of(limit, "the limit", MOST_STEPS)
        return self._work_on(library.ks_work, left, STRIDE)

    def turns(self, least: Optional[int] = None) -> str:
        """Works at full speed until the job is over, or by at least so many atomic steps: "done",
        "conflict", "unfinished". It stops at the end of a phase, of which a step has three."""
        left = MOST_STEPS if least is None else _library.number_of(least, "the steps", MOST_STEPS)
        return self._work_on(library.ks_turns, left, TURNS)

    def _work_on(self, call: Any, left: int, stride: int) -> str:
        while True:
            most = min(left, stride)
            status = self._member.ask(call, most)
            left -= most
            if status != _library.UNFINISHED or not left:
                return _library.WORDS[status]

    def __repr__(self) -> str:
        return f"<worker {self.number} of {self.board.workers}>"

    def back(self) -> None:
        """The worker loses all that it knew, and comes back from its word on the board."""
        self._member.ask(library.ks_back)


class Seat(_Staying):
    """A reader of a board. What it tells never falls. One thread at a time uses it; others wait."""

    def __init__(self, board: Board) -> None:
        self.board, self._member = board, _Member(library.ks_close_seat)
        board._member.ask(library.ks_seat_of, self._member.handle)

    def progress(self) -> Progress:
        """How far the job is."""
        found = _library.Progress()
        self._member.ask(library.ks_progress, found)
        return Progress(found.step, found.steps, found.conflict)

    def __repr__(self) -> str:
        step, steps, conflict = self.progress()
        at = f"a conflict in step {conflict}" if conflict else f"step {step}"
        return f"<seat: {at} of {steps}>"

    def read(self, cell: Union[int, str]) -> Reading:
        """What a cell of the job held after a finished step, while workers may be at work. Of a
        program it may be named as answers do, as "A[3]"."""
        found = _library.Reading()
        number = self.board.cell(cell) if isinstance(cell, str) else cell
        asked = _library.number_of(number, "the cell", self.board.cells - 1)
        self._member.ask(library.ks_read, asked, found)
        return Reading(found.step, found.value)

    def memory(self) -> List[int]:
        """The final cells; `Unfinished` or `Conflict` where there are none."""
        return self._cells().tolist()

    def _cells(self) -> memoryview:
        cells = (c_uint32 * self.board.cells)()
        if self._member.ask(library.ks_memory, cells, len(cells)) != _library.DONE:
            raise self.fault() or Unfinished(self.progress().step)
        return memoryview(cells).cast("B").cast("I")

    def fault(self) -> Optional[Conflict]:
        """The conflict, if one is known."""
        found = _library.Fault()
        if self._member.ask(library.ks_fault, found) != _library.CONFLICT:
            return None
        return Conflict((found.first, found.second), found.step, found.cell)

    def answer(self) -> Answer:
        """The answer by the names of the text. Of a program, the line of a conflict is found on the
        plain machine, as `pramx run` does."""
        return self.answer_within(NONE)

    def answer_within(self, limit: Limit) -> Answer:
        """The answer, or `TimedOut` or `Cancelled`."""
        program, (step, steps, conflict) = self.board._program, self.progress()
        if conflict:
            return Answer("conflict", conflict, failure=self._named_fault(limit), program=program)
        if step < steps:
            said = f"unfinished step={step}\n".encode()
            return Answer("unfinished", step, failure=Unfinished(step), said=said)
        values = values_of(program.start, self._cells())
        return Answer("done", self._last_step(steps, limit), values, program=program)

    def _last_step(self, steps: int, limit: Limit) -> int:
        """The last step of a job that is done. Where nobody counted them the board tells it, but
        for a program whose processors are not all at their end: then they are counted now."""
        found = c_uint32()
        if self.board.is_counted:
            return steps
        if self._member.ask(library.ks_stop, found) == _library.DONE:
            return found.value
        facts = calls.check(self.board.text, timeout=limit.rest(), cancel=limit.cancel)
        return int(facts["steps"])

    def _named_fault(self, limit: Limit) -> Conflict:
        text, fault = self.board.text, self.fault()
        assert fault
        if not texts.is_program(text):
            return fault
        told = calls.plain(text, timeout=limit.rest(), cancel=limit.cancel).conflict
        if not told:
            return fault
        return Conflict(fault.processors, fault.step, fault.cell, told.line, told.place)
