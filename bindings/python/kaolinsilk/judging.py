"""Submissions, judged by an exercise."""
from __future__ import annotations

import csv
from threading import Event
from typing import NamedTuple, Optional

from . import _library
from .limits import limit_of
from .texts import Source, bytes_of


class Verdict(NamedTuple):
    """What is said of a submission.

    `passed` says whether it does what the exercise asks for, under each input; if not, `input` is
    the first one under which it does not, from 1, and `what` says what is wrong. It is true where
    it passed.
    """

    passed: bool
    input: Optional[int] = None
    what: str = ""

    def __bool__(self) -> bool:
        return self.passed


def judge(
    exercise: Source,
    submission: Source,
    *,
    timeout: Optional[float] = None,
    cancel: Optional[Event] = None,
) -> Verdict:
    """Judges a submission by an exercise, as `pramx judge` does; docs/TEACHING.md says how
    exercises are written. One by which nothing can be judged is `Refused`, with its line.

    >>> exercise = '''exercise 1
    ... title squares
    ... want A
    ... given
    ...   pardo 1
    ...   rule crew
    ...   const n = 4
    ...   procs i < n
    ...   shared A[n]
    ... start
    ...   code
    ... input n=2 -> A=0,1
    ... hidden n=4 -> A=0,1,4,9
    ... '''
    >>> header = "pardo 1\\nrule crew\\nconst n = 4\\nprocs i < n\\nshared A[n]\\ncode\\n"
    >>> judge(exercise, header + "A[i] := i\\n")
    Verdict(passed=False, input=2, what='a value is not the one that is wanted')
    >>> bool(judge(exercise, header + "A[i] := i * i\\n"))
    True
    """
    limit = limit_of(timeout, cancel)
    [record] = csv.reader([_library.verdict(bytes_of(exercise), bytes_of(submission), limit)])
    passed, number, what = record
    return Verdict(passed == "yes", int(number) if number else None, what)
