"""Answers of runs: the values by their names, or why there are none."""
from __future__ import annotations

import re
from html import escape
from typing import Any, Dict, ItemsView, Iterator, KeysView, List, NamedTuple, Optional
from typing import Sequence, Union

from . import _library, texts
from .errors import Conflict, KaolinsilkError, Unfinished
from .tables import table
from .texts import Value


# The first words of the lines of `--why`.
WHYS = "running|stopped|lost|outside|divided|wrote|round"


class Gone(NamedTuple):
    """A processor that left in a line of the program, by an index that its array does not have."""

    processor: int
    line: int


class Answer:
    """How a run ended.

    `status` is "done", "conflict" or "unfinished"; `step` the last step of the job, that of the
    conflict where it is known, or the last finished one. Where it is done, `answer["A"]` is the
    list of an array's values, of two indices a list of rows, and `answer["total"]` a scalar's value;
    of a text of the machine `answer[3]` is cell 3. `"A" in answer`, `for name in answer`, `len`,
    `keys`, `items`, `get` and `dict` are those of `answer.values`. Where it is not done, all these
    raise the `Conflict` or the `Unfinished` of `answer.failure`. An answer is always true.

    >>> import kaolinsilk
    >>> answer = kaolinsilk.plain("pram 1\\ncells 2\\nprocs 1\\nsteps 1\\ncode\\nset r0 7\\n")
    >>> answer.status, answer.step, answer[1], answer.values
    ('done', 1, 0, {'cells': [0, 0]})
    >>> "cells" in answer, list(answer), len(answer)
    (True, ['cells'], 1)
    """

    def __init__(
        self,
        status: str,
        step: Optional[int],
        values: Optional[Dict[str, Value]] = None,
        failure: Optional[KaolinsilkError] = None,
        *,
        said: Optional[bytes] = None,
        program: Optional[texts.Program] = None,
    ) -> None:
        self.status, self.step, self.failure = status, step, failure
        # Where nothing is said yet, the plain machine says it of the program.
        self._values, self._said, self._program = values or {}, said, program

    @property
    def values(self) -> Dict[str, Value]:
        """The values by their names."""
        if self.failure:
            raise self.failure
        return self._values

    @property
    def conflict(self) -> Optional[Conflict]:
        """The conflict, if the run ended in one."""
        return self.failure if isinstance(self.failure, Conflict) else None

    @property
    def text(self) -> str:
        """The answer as the program pramx prints it. Of a run, the plain machine is asked."""
        if self._said is None:
            program = self._program.text() if self._program else b""
            self._said = bytes(_library.told("ks_plain", program).output)
        return self._said.decode("ascii")

    @property
    def gone(self) -> List[Gone]:
        """The processors that left, in order."""
        found = re.findall(r"(?m)^gone processor=(\d+) line=(\d+)$", self.text)
        return [Gone(int(processor), int(line)) for processor, line in found]

    @property
    def why(self) -> List[str]:
        """The lines that say what became of the processors, where they were asked for."""
        return re.findall(rf"(?m)^(?:{WHYS}) \w+=.*$", self.text)

    def __getitem__(self, name: Union[str, int]) -> Value:
        if not isinstance(name, int):
            return self.values[name]
        cells = self.values.get("cells")
        if not isinstance(cells, list):
            raise KeyError(name)
        return cells[name]

    def __contains__(self, name: object) -> bool:
        return name in self.values

    def __iter__(self) -> Iterator[str]:
        return iter(self.values)

    def __len__(self) -> int:
        return len(self.values)

    def __bool__(self) -> bool:
        return True

    def keys(self) -> KeysView[str]:
        """The names of the values."""
        return self.values.keys()

    def items(self) -> ItemsView[str, Value]:
        """The names and their values."""
        return self.values.items()

    def get(self, name: str, default: Any = None) -> Any:
        """The value of a name, or another one where there is no such name."""
        return self.values.get(name, default)

    def array(self, name: str = "cells") -> Any:
        """The values of an array as a `numpy.ndarray` of 32 bits without a sign."""
        import numpy

        return numpy.array(self.values[name], dtype=numpy.uint32)

    def _facts(self) -> Any:
        at = self.conflict
        facts = (at.processors, at.place or at.cell) if at else self.step
        return self.status, facts, self._values

    def __eq__(self, other: object) -> bool:
        if not isinstance(other, Answer):
            return NotImplemented
        return bool(self._facts() == other._facts())

    __hash__ = None  # type: ignore[assignment]

    def __repr__(self) -> str:
        return f"<{self.conflict or f'{self.status} step={self.step}'}>"

    def __str__(self) -> str:
        return self.text

    def _repr_html_(self) -> str:
        if self.failure:
            return f"<p><b>{self.status}</b>: {escape(str(self.failure))}</p>"
        shown = table(("", "value"), ((name, _short(it)) for name, it in self._values.items()))
        return f"<p><b>done</b> after {self.step:,} steps</p>{shown}"


def _short(value: Value) -> str:
    values = flat(value)
    more = " …" if len(values) > 64 else ""
    return " ".join(map(str, values[:64])) + more


def flat(value: Any) -> List[int]:
    """All values of an array or a scalar, those of two indices row by row."""
    if not isinstance(value, list):
        return [value]
    return [it for row in value for it in flat(row)]


def meeting_of(said: str) -> Optional[Dict[str, Any]]:
    """Where two processors meet: the step, line, cell or place, and who; None where none do.

    >>> meeting_of("step=2 line=12 place=sum processors=0,1")
    {'step': 2, 'line': 12, 'place': 'sum', 'processors': (0, 1)}
    """
    if said == "none":
        return None
    facts: Dict[str, Any] = dict(word.partition("=")[::2] for word in said.split())
    first, second = map(int, facts.pop("processors").split(","))
    found = {name: it if name == "place" else int(it) for name, it in facts.items()}
    return {**found, "processors": (first, second)}


def _conflict_of(line: str, said: bytes) -> Conflict:
    """The conflict of the line that tells it, and of what is said of it where that was asked for."""
    facts = meeting_of(line.partition(" ")[2])
    wrote = re.search(rb"(?m)^wrote values=(\d+),(\d+)$", said)
    assert facts
    return Conflict(**facts, values=(int(wrote[1]), int(wrote[2])) if wrote else None)


def values_of(text: bytes, cells: Sequence[int]) -> Dict[str, Value]:
    """The cells of the job of a text by its names."""
    if not texts.is_program(text):
        return {"cells": list(cells)}
    return {it.name: it.value(cells) for it in texts.shared_of(text)}


def _values_told(text: bytes, lines: List[str]) -> Dict[str, Value]:
    """The values of the lines that tell them."""
    if not texts.is_program(text):
        pairs = (line.partition(": ") for line in lines)
        return {"cells": [int(value) for _, sign, value in pairs if sign]}
    rows = [line.partition(" = ") for line in lines]
    lists: Dict[str, Any] = {}
    for told, sign, values in rows:
        name, is_row, _ = told.partition("[")
        held = list(map(int, values.split()))
        if is_row:
            lists.setdefault(name, []).append(held)
        elif sign:
            lists[name] = held
    # A scalar is told as an array of one place is.
    arrays = texts.arrays_of(text) if any(len(it) == 1 for it in lists.values()) else set(lists)
    return {name: it if name in arrays else it[0] for name, it in lists.items()}


def answer_of(text: bytes, told: _library.Told) -> Answer:
    """The answer that a call told of a text."""
    said: bytes = told.output
    head, *lines = said.decode("ascii").splitlines()
    status = _library.WORDS[told.status]
    if told.status == _library.CONFLICT:
        conflict = _conflict_of(head, said)
        return Answer(status, conflict.step, failure=conflict, said=said)
    step = int(head.partition("=")[2])
    if told.status == _library.UNFINISHED:
        return Answer(status, step, failure=Unfinished(step), said=said)
    return Answer(status, step, _values_told(text, lines), said=said)
