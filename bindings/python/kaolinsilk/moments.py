"""Moments of runs: which cells a step reads and writes, and the tree in the midst of a replay."""
from __future__ import annotations

from typing import Dict, Iterator, List, NamedTuple, Optional, Tuple

from . import calls, plans
from .plans import GO, STOP, Plan, Row
from .rows import Rows
from .texts import Source

STOPPED = ("halted", "out_of_range")
PASSES = ("compute", "apply", "verify")
PRIORITY_PASSES = ("compute", "claim", "apply")


class Access(NamedTuple):
    """What a processor does in a step, and which cell it reads or writes, if it does."""

    step: int
    processor: int
    instruction: str
    reads: Optional[int]
    writes: Optional[int]
    value: Optional[int]


def _cell_read(instruction: str, registers: List[int], cells: int) -> Optional[int]:
    """The cell that an instruction reads: of an array by its index, or the one of that number."""
    name, *operands = instruction.split()
    if name != "ld":
        return None
    last = operands[-1]
    index = registers[int(last[1])] if last.startswith("r") else int(last)
    first, end = 0, cells - 1
    if len(operands) == 3:
        first, end = map(int, operands[1].split(".."))
    return first + index if index <= end - first else None


def accesses_in(text: Source, last: Optional[int] = None) -> Iterator[Access]:
    """The accesses of the steps up to the last. Those of a program name no cells: so they are read
    in the rows of its compiled text."""
    return accesses_of(calls.steps(calls.compile(text), 1, last), calls.check(text)["cells"])


def accesses_of(rows: Rows, cells: int) -> Iterator[Access]:
    """The accesses of the rows of `steps` from the first step on, of a job with so many cells, as a
    text of the machine."""
    registers: Dict[int, List[int]] = {}
    for row in rows:
        own = registers.setdefault(row["processor"], [0] * 4)
        reads = _cell_read(row["instruction"], own, cells)
        place, _, cell = (row["writes"] or "").partition(" ")
        writes = int(cell) if cell else None
        yield Access(row["step"], row["processor"], row["instruction"], reads, writes, row["value"])
        if place.startswith("r"):
            own[int(place[1])] = row["value"]


def made_of(text: Source) -> int:
    """How many steps the machine makes: the job's, or those before its conflict."""
    cost = calls.cost(text)
    return int(cost["steps"]) - (cost.status == "conflict")


class Moment(NamedTuple):
    """The tree after so many atomic steps of a replay.

    `nodes[n]` is the last phase that is finished below node n; node 1 is the root, and the leaf of
    processor i is `leaves + i`. `places` says at which node each worker stands that is not lost.
    """

    ticks: int
    leaves: int
    procs: int
    rule: str
    nodes: List[int]
    places: Dict[int, int]

    @property
    def phase(self) -> int:
        """The phase in which the workers are."""
        return self.nodes[1] + 1

    @property
    def passes(self) -> Tuple[str, str, str]:
        """The three phases of a step."""
        return PRIORITY_PASSES if self.rule == "priority" else PASSES


def leaves_of(procs: int) -> int:
    """The least power of two with a leaf for each processor.

    >>> [leaves_of(procs) for procs in (1, 2, 5, 8)]
    [1, 2, 8, 8]
    """
    return 1 << (procs - 1).bit_length()


def _lost(trace: List[int], rows: List[Row], ticks: int) -> Iterator[int]:
    """The workers that the plan has stopped after so many ticks. The trace says whose each is."""
    at = 0
    for row in rows:
        if row.act == STOP and at <= ticks:
            yield row.worker
        made = 0
        while row.act == GO and made < row.ticks and trace[at : at + 1] == [row.worker]:
            at, made = at + 1, made + 1


def moment(
    text: Source,
    workers: int = 4,
    plan: Optional[Plan] = None,
    ticks: Optional[int] = None,
    rows: Optional[Rows] = None,
) -> Moment:
    """The tree of a replay after so many atomic steps; without a number, in its midst.

    `rows` are those of the replay, where they are there already.

    >>> it = moment("pram 1\\ncells 1\\nprocs 2\\nsteps 1\\ncode\\nset r0 7\\n", workers=1, ticks=9)
    >>> it.leaves, it.nodes[2], it.places
    (2, 1, {0: 2})
    """
    rows = calls.replay(text, workers, plan) if rows is None else rows
    facts = calls.check(text)
    procs = facts["procs"]
    leaves, ticks = leaves_of(procs), len(rows) // 2 if ticks is None else ticks
    nodes, first_position = [0] * (2 * leaves), 2 * leaves + 3 * procs
    places = {worker: leaves + worker % leaves for worker in range(workers)}
    for _, worker, _, word, _, after in rows.records[:ticks]:
        if 1 <= word < 2 * leaves:
            nodes[word] = after
        elif word == first_position + worker:
            places[worker] = after
    for worker in _lost(rows["worker"], plans.rows_of(plan, workers), ticks):
        places.pop(worker, None)
    return Moment(ticks, leaves, procs, facts["rule"], nodes, places)
