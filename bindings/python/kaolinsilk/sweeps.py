"""Sweeps: what a program costs with one constant or another."""
from __future__ import annotations

from typing import Any, Callable, Dict, Iterable, Optional

from . import calls
from .errors import BadRequest
from .rows import Rows
from .texts import Source, bytes_of

NAMES = ("steps", "time", "operations", "processors", "needs", "end")
# The values that an array starts with, by the constant.
Starts = Dict[str, Callable[[int], Iterable[int]]]


class Sweep(Rows):
    """The rows of a sweep: the constant, what the run costs, and how it ends: "done", "conflict", or
    "gone" where it is done and a processor is gone."""

    def plot(self, axes: Any = None) -> Any:
        """Time and operations against the constant, by matplotlib; returns the axes."""
        from matplotlib import pyplot

        axes = pyplot.subplots(figsize=(7, 4))[1] if axes is None else axes
        constant = self.names[0]
        for name in ("time", "operations"):
            axes.plot(self[constant], self[name], marker="o", label=name)
        axes.set_xscale("log", base=2)
        axes.set_yscale("log", base=2)
        axes.set_xlabel(constant)
        axes.set_title("what a run costs")
        axes.legend()
        return axes


def sweep(text: Source, starts: Optional[Starts] = None, **constant: Iterable[int]) -> Sweep:
    """What a program costs with each number for a constant of its header: `sweep(text, n=[8, 16])`.

    `starts` has, for arrays by their names, which values they start with where the constant is
    that number. Without it a program whose arrays have a value for each place is refused. For other
    settings a loop over `cost(text, settings=..)` does.

    >>> text = '''pardo 1
    ... rule crew
    ... const n = 8
    ... procs i < n
    ... shared A[n] = 1, ...
    ... code
    ... for h = 1 to lg(n)
    ...    A[i] := A[i] + 1
    ... end
    ... '''
    >>> rows = sweep(text, n=[2, 4, 8])
    >>> rows["time"], rows["operations"], rows[0]["end"]
    ([1, 2, 3], [2, 8, 24], 'done')
    """
    if len(constant) != 1:
        raise BadRequest("a sweep goes over one constant: sweep(text, n=[8, 16])")
    [(name, numbers)] = constant.items()
    given, records = bytes_of(text), []
    for number in numbers:
        values = {array: start(number) for array, start in (starts or {}).items()}
        as_set = bytes_of(given, {name: number, **values})
        cost = calls.cost(as_set)
        cost["end"] = cost.status
        if cost.status == "done" and calls.plain(as_set).gone:
            cost["end"] = "gone"
        records.append([number, *(cost[it] for it in NAMES)])
    return Sweep((name, *NAMES), records)
