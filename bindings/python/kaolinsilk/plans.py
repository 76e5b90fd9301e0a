"""Plans: what the workers of a run do."""
from __future__ import annotations

from typing import Iterable, List, NamedTuple, Optional, Tuple, Union

from . import _library

ACTS = ("go", "sleep", "back", "stop")
GO, SLEEP, BACK, STOP = ACTS

# A plan: text of docs/FORMATS.md, or its rows, of which each is a worker, an act, and how many
# ticks (which may be left out where it is 0).
PlanRow = Union[Tuple[int, str], Tuple[int, str, int]]
Plan = Union[str, bytes, Iterable[PlanRow]]


class Row(NamedTuple):
    """What a worker does: "go" or "sleep" for so many ticks, "back" or "stop"."""

    worker: int
    act: str
    ticks: int


def bytes_of(plan: Optional[Plan]) -> bytes:
    """The text of a plan.

    >>> bytes_of([(0, "stop"), (1, "go", 40)])
    b'worker,act,ticks\\n0,stop,0\\n1,go,40\\n'
    """
    if isinstance(plan, str):
        return plan.encode("utf-8", "surrogatepass")
    if isinstance(plan, (bytes, bytearray)):
        return bytes(plan)
    lines = [",".join(map(str, (*row, 0)[:3])) for row in plan or ()]
    return "".join(f"{line}\n" for line in ["worker,act,ticks", *lines] if lines).encode()


def rows_of(plan: Optional[Plan], workers: int) -> List[Row]:
    """The rows of a plan for so many workers, as the library reads them."""
    rows = _library.plan(bytes_of(plan), _library.number_of(workers, "workers"))
    return [Row(worker, ACTS[act], ticks) for worker, act, ticks in rows]
