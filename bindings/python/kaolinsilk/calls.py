"""The commands of the program pramx, as calls.

With `settings`, constants, shared scalars and shared arrays of a program are what these say:
`plain(text, settings={"n": 4, "A": [3, 1, 4, 1]})`.

An interrupt ends each call at once; after `timeout` seconds it raises `TimedOut`, and `Cancelled`
where another thread sets the event `cancel`.
"""
from __future__ import annotations

import csv
import io
from array import array
from threading import Event
from typing import Any, Dict, List, Optional

from . import _library, plans
from .answers import Answer, answer_of, meeting_of
from .limits import limit_of
from .rows import Rows, rows_of
from .tables import table
from .texts import Settings, Source, bytes_of


def check(
    text: Source,
    *,
    settings: Optional[Settings] = None,
    timeout: Optional[float] = None,
    cancel: Optional[Event] = None,
) -> Dict[str, Any]:
    """Judges a text, and says how large its job is.

    >>> check("pram 1\\ncells 2\\nprocs 1\\nsteps 1\\ncode\\nset r0 7\\n")
    {'cells': 2, 'procs': 1, 'steps': 1, 'code': 1, 'rule': 'common'}
    """
    limit = limit_of(timeout, cancel)
    told = _library.told("ks_check", bytes_of(text, settings), limit=limit)
    facts = dict(word.partition("=")[::2] for word in told.output.decode("ascii").split()[1:])
    rule = facts.pop("rule", "common")
    return {**{name: int(number) for name, number in facts.items()}, "rule": rule}


def compile(
    text: Source,
    *,
    settings: Optional[Settings] = None,
    timeout: Optional[float] = None,
    cancel: Optional[Event] = None,
) -> str:
    """The job of a program, as a text of the machine."""
    limit = limit_of(timeout, cancel)
    return str(_library.told("ks_compile", bytes_of(text, settings), limit=limit).output, "ascii")


def plain(
    text: Source,
    why: bool = False,
    *,
    settings: Optional[Settings] = None,
    timeout: Optional[float] = None,
    cancel: Optional[Event] = None,
) -> Answer:
    """Runs a text on the plain machine, step by step. `answer.why` then says what became of the
    processors.

    >>> plain("pardo 1\\nrule crew\\nprocs i < 4\\nshared A[4]\\ncode\\nA[i] := i * i\\n")["A"]
    [0, 1, 4, 9]
    """
    limit, given = limit_of(timeout, cancel), bytes_of(text, settings)
    return answer_of(given, _library.told("ks_plain", given, limit=limit, why=why))


def cells(
    text: Source,
    *,
    settings: Optional[Settings] = None,
    timeout: Optional[float] = None,
    cancel: Optional[Event] = None,
) -> List[int]:
    """The cells of the job of a text after its last step, those of private variables among them."""
    limit, given = limit_of(timeout, cancel), bytes_of(text, settings)
    told = _library.cells(given, limit)
    if told.status == _library.CONFLICT:
        answer_of(given, _library.told("ks_plain", given, limit=limit)).values
    return array("I", told.output).tolist()


class Cost(Dict[str, Any]):
    """What a run costs: the lines of docs/FORMATS.md by their names, with `_` for a blank.

    Of a program `time` and `operations` come first, and `rounds` last.
    `same_read`, `same_write` and `other_value` are None or a dictionary that says where two
    processors first meet. `cost.status` is "done" or "conflict".
    """

    status: str = "done"

    def _repr_html_(self) -> str:
        shown = ((name.replace("_", " "), _shown(it)) for name, it in self.items())
        return table(("", "of this input"), shown)


def _shown(value: Any) -> str:
    if isinstance(value, dict):
        return ", ".join(f"{name} {it}" for name, it in value.items())
    return "none" if value is None else str(value)


def _field(name: str, said: str) -> Any:
    if name in ("same_read", "same_write", "other_value"):
        return meeting_of(said)
    return int(said) if said.isdigit() else said


def cost_by_lines(
    text: Source,
    *,
    settings: Optional[Settings] = None,
    timeout: Optional[float] = None,
    cancel: Optional[Event] = None,
) -> Rows:
    """What each counted line of a program costs: how often it comes up, its time, its operations,
    the most processors at a time, and its text. A text of the machine has none.

    >>> text = "pardo 1\\nrule crew\\nprocs i < 4\\nshared A[4]\\ncode\\nif i < 3\\nA[i] := i\\nend\\n"
    >>> cost_by_lines(text)[0]
    {'line': 7, 'times': 1, 'time': 1, 'operations': 3, 'most': 3, 'text': 'A[i] := i'}
    """
    limit = limit_of(timeout, cancel)
    told = _library.told("ks_cost", bytes_of(text, settings), limit=limit, lines=1)
    names, *records = csv.reader(io.StringIO(told.output.decode("ascii"), newline=""))
    return Rows(names, ([*map(int, numbers), line] for *numbers, line in records))


def cost(
    text: Source,
    *,
    settings: Optional[Settings] = None,
    timeout: Optional[float] = None,
    cancel: Optional[Event] = None,
) -> Cost:
    """What the run of a text costs, and the weakest PRAM that it needs.

    >>> cost("pardo 1\\nrule crew\\nprocs i < 4\\nshared A[4]\\ncode\\nA[i] := i\\n")["needs"]
    'EREW'
    """
    limit = limit_of(timeout, cancel)
    told = _library.told("ks_cost", bytes_of(text, settings), limit=limit)
    lines = told.output.decode("ascii").splitlines()
    names = ("same read", "same write", "other value")
    found = Cost()
    found.status = _library.WORDS[told.status]
    for line in lines:
        if line.startswith(("cost of this input", "done ", "conflict ")):
            continue
        name = next((it for it in names if line.startswith(it)), line.partition(" ")[0])
        key = name.replace(" ", "_")
        found[key] = _field(key, line[len(name) + 1 :])
    return found


def steps(
    text: Source,
    first: int = 1,
    last: Optional[int] = None,
    *,
    settings: Optional[Settings] = None,
    timeout: Optional[float] = None,
    cancel: Optional[Event] = None,
) -> Rows:
    """What each processor asks for in each step, from the first to the last; `rows.answer` is the
    answer.

    >>> rows = steps("pram 1\\ncells 1\\nprocs 1\\nsteps 1\\ncode\\nset r0 7\\n")
    >>> rows[0]["instruction"], rows[0]["writes"], rows[0]["value"]
    ('set r0 7', 'r0', 7)
    """
    limit, given = limit_of(timeout, cancel), bytes_of(text, settings)
    begins = _library.number_of(first, "the first step", least=1)
    last = _library.MOST if last is None else last
    ends = _library.number_of(last, "the last step", least=1)
    return rows_of(given, _library.told("ks_steps", given, limit=limit, first=begins, last=ends))


def replay(
    text: Source,
    workers: int = 4,
    plan: Optional[plans.Plan] = None,
    *,
    settings: Optional[Settings] = None,
    timeout: Optional[float] = None,
    cancel: Optional[Event] = None,
) -> Rows:
    """Runs a text by workers, one atomic step at a time in the order of a plan; a row for each.

    >>> rows = replay("pram 1\\ncells 1\\nprocs 1\\nsteps 1\\ncode\\nset r0 7\\n", workers=1)
    >>> len(rows), rows.answer.status
    (33, 'done')
    """
    limit, given = limit_of(timeout, cancel), bytes_of(text, settings)
    asked = _library.number_of(workers, "workers")
    told = _library.told("ks_replay", given, plans.bytes_of(plan), limit=limit, workers=asked)
    return rows_of(given, told)
