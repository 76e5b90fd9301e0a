"""Rows of a table, as dictionaries or by their columns."""
from __future__ import annotations

import csv
from typing import Any, Dict, Iterable, List, Optional, Sequence, Tuple, Union, overload

from . import _library
from .answers import Answer, answer_of
from .tables import table

# How many rows a notebook shows.
MOST_SHOWN = 20


class Rows(Sequence[Dict[str, Any]]):
    """A sequence of rows, each a dictionary; `rows["step"]` is a column. pandas takes it as it is.
    `answer` is the answer of the run that the rows are of, where they are of one.

    >>> rows = Rows(("step", "value"), [(1, 3), (2, None)])
    >>> rows[0]
    {'step': 1, 'value': 3}
    >>> rows["value"]
    [3, None]
    >>> len(rows[1:])
    1
    """

    def __init__(
        self,
        names: Sequence[str],
        records: Iterable[Sequence[Any]],
        answer: Optional[Answer] = None,
    ) -> None:
        self.names: Tuple[str, ...] = tuple(names)
        self.records: List[Tuple[Any, ...]] = [tuple(record) for record in records]
        self.answer = answer

    @overload
    def __getitem__(self, at: int) -> Dict[str, Any]: ...

    @overload
    def __getitem__(self, at: slice) -> "Rows": ...

    @overload
    def __getitem__(self, at: str) -> List[Any]: ...

    def __getitem__(self, at: Union[int, slice, str]) -> Any:
        if isinstance(at, str):
            if at not in self.names:
                raise KeyError(at)
            column = self.names.index(at)
            return [record[column] for record in self.records]
        if isinstance(at, slice):
            return Rows(self.names, self.records[at], self.answer)
        return dict(zip(self.names, self.records[at]))

    def __len__(self) -> int:
        return len(self.records)

    def __eq__(self, other: object) -> bool:
        if not isinstance(other, Rows):
            return NotImplemented
        return (self.names, self.records) == (other.names, other.records)

    __hash__ = None  # type: ignore[assignment]

    def frame(self) -> Any:
        """The rows as a `pandas.DataFrame`."""
        import pandas

        return pandas.DataFrame(self.records, columns=list(self.names))

    def __repr__(self) -> str:
        return f"<{len(self)} rows of {', '.join(self.names)}>"

    def _repr_html_(self) -> str:
        shown = table(self.names, self.records[:MOST_SHOWN])
        more = len(self) - MOST_SHOWN
        return shown + (f"<p>and {more:,} more rows</p>" if more > 0 else "")


def _values(record: List[str]) -> List[Any]:
    """A record's numbers and words, with None for a field without one."""
    return [int(it) if it.isdigit() else it or None for it in record]


def rows_of(text: bytes, told: _library.Told) -> Rows:
    """The rows that a call told of a text, and the answer after them.

    The first record names the columns, the others begin with a number, and the answer with a word.
    """
    lines = told.output.decode("ascii").splitlines(keepends=True)
    ends = next(k for k in range(1, len(lines)) if not lines[k][0].isdigit())
    names, *records = csv.reader(lines[:ends])
    answer = answer_of(text, told._replace(output="".join(lines[ends:]).encode("ascii")))
    return Rows(names, map(_values, records), answer)
