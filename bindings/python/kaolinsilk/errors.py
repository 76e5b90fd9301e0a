"""What may go wrong, as exceptions.

All are a `KaolinsilkError`. The text of one is a sentence; its fields say the same to a program.
"""
from __future__ import annotations

from typing import Any, Optional, Tuple, Type


class KaolinsilkError(Exception):
    """What each exception of this package is. Copies, and what `pickle` brings to another process,
    have all of its fields."""

    def __reduce__(self) -> Tuple[Any, ...]:
        # As it stands: `__init__` takes other words than `args` has.
        return _bare, (type(self), self.args), self.__dict__


def _bare(kind: Type[KaolinsilkError], args: Tuple[Any, ...]) -> KaolinsilkError:
    """An exception without its fields."""
    return kind.__new__(kind, *args)


class Refused(KaolinsilkError, ValueError):
    """A text, a plan, a step, a setting or an exercise is refused.

    `subject` is "text", "plan", "step", "size", "set" or "exercise"; `line` the line of the text or
    of the exercise, or the row of the plan, from 1, or None; `column` that of a text, or None;
    `name` the name that cannot be set so, or None; `kind` the kind of docs/FORMATS.md, as
    "BadLine"; `sentence` what is wrong.

    >>> import kaolinsilk
    >>> try:
    ...     kaolinsilk.check("pram 1\\ncells 0\\n")
    ... except kaolinsilk.Refused as refused:
    ...     refused.line, refused.kind
    (2, 'OutOfLimits')
    """

    def __init__(
        self,
        subject: str,
        kind: str,
        sentence: str,
        line: Optional[int] = None,
        column: Optional[int] = None,
        name: Optional[str] = None,
    ) -> None:
        self.subject, self.kind, self.sentence = subject, kind, sentence
        self.line, self.column, self.name = line, column, name
        super().__init__(self._told())

    def _told(self) -> str:
        place = "row" if self.subject == "plan" else "line"
        where = f"{self.subject}, {place} {self.line}" if self.line else self.subject
        if self.name is not None:
            where += f" {self.name}"
        if self.column:
            where += f", column {self.column}"
        kind = f" ({self.kind})" if self.kind else ""
        return f"{where}: {self.sentence}{kind}"


class BadRequest(KaolinsilkError, ValueError):
    """A number that was asked for is outside its limits, as that of the workers."""


class OutOfMemory(KaolinsilkError, MemoryError):
    """There is no memory for the call, or for its answer."""


class TimedOut(KaolinsilkError, TimeoutError):
    """A call took longer than it was given, and has ended."""


class Cancelled(KaolinsilkError):
    """A call was cancelled, and has ended."""


class Conflict(KaolinsilkError):
    """A step of the job is against its rule of writing.

    `step` counts from 1, where it is known; `cell` is the cell of the job, `line` the line of the
    program and `place` what it writes there, as "A[3]"; `processors` are the two that disagree,
    and `values` what they write, where `plain(text, why=True)` tells it.
    """

    def __init__(
        self,
        processors: Tuple[int, int],
        step: Optional[int] = None,
        cell: Optional[int] = None,
        line: Optional[int] = None,
        place: Optional[str] = None,
        values: Optional[Tuple[int, int]] = None,
    ) -> None:
        self.processors, self.step, self.cell = processors, step, cell
        self.line, self.place, self.values = line, place, values
        super().__init__(self._told())

    def _told(self) -> str:
        what = self.place or f"cell {self.cell}"
        where = f"line {self.line}" if self.line else f"step {self.step}"
        first, second = self.processors
        if self.values:
            what = f"{self.values[0]} and {self.values[1]} to {what}"
        return f"processors {first} and {second} write {what} in {where}, against the rule"


class Unfinished(KaolinsilkError):
    """The job is not at its end, or not yet; `step` is the last finished step, 0 before the first."""

    def __init__(self, step: int) -> None:
        self.step = step
        finished = f"step {step} is the last finished one" if step else "no step is finished"
        super().__init__(f"the job is not at its end: {finished}")
