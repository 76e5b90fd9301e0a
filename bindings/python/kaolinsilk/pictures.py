"""Pictures of runs: processors at work, what the memory holds, and the tree of a replay."""
from __future__ import annotations

from collections import defaultdict
from itertools import groupby
from typing import Dict, List, NamedTuple, Optional, Tuple

from . import calls, texts
from .boards import Board
from .canvas import Picture
from .moments import STOPPED, Access, Moment, accesses_in, made_of, moment
from .plans import Plan
from .rows import Rows
from .texts import Source, bytes_of

WORKERS = "#b3261e #0b57d0 #1a7f37 #8250df #9a5b00 #0e7490 #be185d #57606a".split()
# How much of a job a picture shows.
MOST_STEPS, MOST_PROCESSORS, MOST_CELLS, MOST_COLUMNS = 240, 128, 48, 40


class _Grid(NamedTuple):
    """Boxes in columns and lines, and where they stand."""

    left: float
    top: float
    wide: float
    tall: float
    columns: int
    lines: int

    def at(self, column: float, line: float) -> Tuple[float, float]:
        return self.left + self.wide * column, self.top + self.tall * line

    def boxes(self, places: List[Tuple[int, int]]) -> str:
        size = f"h{self.wide:g}v{self.tall:g}h{-self.wide:g}z"
        return "".join("M{:g} {:g}".format(*self.at(*place)) + size for place in places)


def _names(picture: Picture, grid: _Grid, names: List[str]) -> None:
    """The names of the lines, and those below, of which each stands at the left."""
    for line, name in enumerate(names):
        x, y = grid.at(0, line + 0.5)
        if name:
            picture.text(x - 6, y, name, "end faint")


def _lines_of(text: bytes, rows: Rows) -> Dict[int, int]:
    """For each step where its first processor that runs stands: the line, or the instruction."""
    column = "line" if texts.is_program(text) else "place"
    found: Dict[int, int] = {}
    for row in rows:
        if row["instruction"] not in STOPPED and row[column] is not None:
            found.setdefault(row["step"], row[column])
    return found


def _below(picture: Picture, grid: _Grid, text: bytes) -> float:
    """What the two rows of numbers below a grid are; returns the height of the first one."""
    bottom = grid.at(0, grid.lines)[1]
    line = "line" if texts.is_program(text) else "place"
    for said, y in ((line, bottom + 10), ("step", bottom + 28)):
        picture.text(grid.left - 6, y, said, "end faint")
    return bottom + 10


# Processors at work.


def _doing(access: Access) -> str:
    if access.instruction in STOPPED:
        return "stopped"
    if access.writes is not None:
        return "write"
    return "read" if access.reads is not None else "work"


def draw_work(text: Source, first: int = 1, last: Optional[int] = None) -> Picture:
    """Which processors read a cell, write one, work by themselves or have stopped, step by step.

    >>> draw_work("pram 1\\ncells 1\\nprocs 2\\nsteps 1\\ncode\\nset r0 7\\n").label
    'processors at work in steps 1 to 1'
    """
    given, last = bytes_of(text), first + MOST_STEPS - 1 if last is None else last
    rows, facts = calls.steps(given, 1, last), calls.check(given)
    procs = min(facts["procs"], MOST_PROCESSORS)
    shown = [it for it in accesses_in(given, last) if it.step >= first and it.processor < procs]
    columns = max((it.step for it in shown), default=first) - first + 1
    wide, tall = max(4, min(16, 960 // columns)), max(4, min(16, 480 // procs))
    grid = _Grid(40, 34, wide, tall, columns, procs)
    right, bottom = grid.at(columns, grid.lines)
    which = f"{procs} of {facts['procs']:,} processors" if procs < facts["procs"] else "processors"
    said = f"{which} at work in steps {first} to {first + columns - 1}"
    picture = Picture(max(right + 20, 480), bottom + 64, said)
    picture.text(40, 16, said[0].upper() + said[1:], "start title")
    _draw_boxes(picture, grid, shown, first)
    _draw_lines(picture, grid, _lines_of(given, rows), first, _below(picture, grid, given))
    if made_of(given) < first + columns - 1:
        picture.box(right - wide, grid.top, wide, bottom - grid.top, "bad")
    kinds = (("read", "reads a cell"), ("write", "writes a cell"), ("work", "works"))
    picture.key(40, bottom + 52, (*kinds, ("stopped", "has stopped")))
    return picture


def _draw_boxes(picture: Picture, grid: _Grid, shown: List[Access], first: int) -> None:
    places = defaultdict(list)
    for it in shown:
        places[_doing(it)].append((it.step - first, it.processor))
    for style, them in sorted(places.items()):
        picture.path(grid.boxes(them), f"box {style}")
    each = max(1, round(12 / grid.tall))
    _names(picture, grid, ["" if it % each else f"P{it}" for it in range(grid.lines)])


def _draw_lines(
    picture: Picture, grid: _Grid, lines: Dict[int, int], first: int, height: float
) -> None:
    """Each line of the text once, below the steps that it lasts, and below it every tenth step."""
    for line, group in groupby(range(grid.columns), key=lambda it: lines.get(first + it)):
        there = list(group)
        x, wide = grid.at(there[0], 0)[0], grid.wide * len(there)
        picture.path(f"M{x:g} {height - 10:g}v18", "edges")
        if line is not None and wide >= 7 * len(str(line)):
            picture.text(x + wide / 2, height, line, "faint")
    for step in range(-(-first // 10) * 10, first + grid.columns, 10):
        picture.text(grid.at(step - first + 0.5, 0)[0], height + 18, step, "faint")


# The memory.


class _Moves:
    """Which cells a step reads, by how many processors, and what it writes."""

    def __init__(self) -> None:
        self.readers: Dict[int, int] = defaultdict(int)
        self.written: Dict[int, int] = {}


def _moves_of(accesses: List[Access], cells: int) -> Dict[int, _Moves]:
    """Those of the steps that read or write one of the first cells."""
    found: Dict[int, _Moves] = defaultdict(_Moves)
    for it in accesses:
        if it.reads is not None and it.reads < cells:
            found[it.step].readers[it.reads] += 1
        if it.writes is not None and it.writes < cells:
            # Where several write, the first one's value counts, or all write the same.
            found[it.step].written.setdefault(it.writes, it.value or 0)
    return found


class _Held(NamedTuple):
    """What the cells hold after a step, and how it moved them. Step 0 is the start."""

    step: int
    values: List[int]
    moves: _Moves


def _held_by(text: bytes, accesses: List[Access], cells: int) -> List[_Held]:
    """The start, and each step that reads or writes one of the first cells."""
    seat = Board(text, workers=1).seat()
    values = [seat.read(cell).value for cell in range(cells)]
    found = [_Held(0, values, _Moves())]
    for step, moves in sorted(_moves_of(accesses, cells).items()):
        values = [moves.written.get(cell, value) for cell, value in enumerate(values)]
        found.append(_Held(step, values, moves))
    return found


def draw_memory(text: Source, first: int = 1, last: Optional[int] = None) -> Picture:
    """What the shared cells hold after each step that reads or writes one: blue where it is read,
    with a bar where by several, and yellow where it is written.

    >>> draw_memory("pram 1\\ncells 1\\nprocs 1\\nsteps 1\\ncode\\nst r0 r0\\n").label
    'the memory, and 1 step that reads or writes it'
    """
    given = bytes_of(text)
    shared = texts.shared_of(given) if texts.is_program(given) else []
    rows, facts = calls.steps(given, 1, last), calls.check(given)
    cells = min(sum(it.length for it in shared) or facts["cells"], MOST_CELLS)
    names = [texts.place_of(shared, it) if shared else str(it) for it in range(cells)]
    made = made_of(given)
    accesses = [it for it in accesses_in(given, last) if it.step <= made]
    held = _held_by(given, accesses, cells)
    before = sum(it.step < max(first, 1) for it in held) - 1
    shown = held[before : before + 1 + MOST_COLUMNS]
    shown[0] = shown[0]._replace(moves=_Moves())
    picture, grid = _memory_picture(shown, names)
    height, lines = _below(picture, grid, given), _lines_of(given, rows)
    for column, it in enumerate(shown):
        x = grid.at(column + 0.5, 0)[0]
        picture.text(x, height, lines.get(it.step, ""), "faint")
        picture.text(x, height + 18, it.step or "start", "faint")
    return picture


def _memory_picture(shown: List[_Held], names: List[str]) -> Tuple[Picture, _Grid]:
    longest = max(len(str(value)) for it in shown for value in it.values)
    left, wide = 18 + 7 * max(5, *map(len, names)), max(34, 8 * longest + 8)
    grid = _Grid(left, 34, wide, 20, len(shown), len(names))
    right, bottom = grid.at(grid.columns, grid.lines)
    count = len(shown) - 1
    steps = "step that reads or writes it" if count == 1 else "steps that read or write it"
    picture = Picture(max(right + 20, 420), bottom + 64, f"the memory, and {count} {steps}")
    picture.text(12, 16, "The memory, after each step that reads or writes it", "start title")
    _names(picture, grid, names)
    for column, it in enumerate(shown):
        _draw_column(picture, grid, column, it)
    kinds = (("read", "is read"), ("many", "by several"), ("write", "is written"))
    picture.key(12, bottom + 52, kinds)
    return picture, grid


def _draw_column(picture: Picture, grid: _Grid, column: int, held: _Held) -> None:
    for cell, value in enumerate(held.values):
        (x, y), readers = grid.at(column, cell), held.moves.readers.get(cell, 0)
        style = "write" if cell in held.moves.written else "read" if readers else "stopped"
        picture.box(x, y, grid.wide, grid.tall, f"box {style}")
        if readers > 1:
            picture.box(x + 1, y + grid.tall - 4, grid.wide - 2, 3, "many")
        marked = "faint" if style == "stopped" else "on"
        picture.text(x + grid.wide / 2, y + grid.tall / 2, value, marked)


# The tree.


def _spot(node: int, wide: float) -> Tuple[float, float]:
    depth = node.bit_length() - 1
    return wide * (node - (1 << depth) + 0.5) / (1 << depth), 76 + 58 * depth


def draw_tree(
    text: Source,
    workers: int = 4,
    plan: Optional[Plan] = None,
    ticks: Optional[int] = None,
) -> Picture:
    """The tree after so many atomic steps of a replay; without a number, in its midst.

    A node has the number of the last phase that is finished below it, and the colour of that
    phase's pass. The small circles are the workers that are not lost.

    >>> text = "pram 1\\ncells 1\\nprocs 2\\nsteps 1\\ncode\\nset r0 7\\n"
    >>> draw_tree(text, workers=1, ticks=9).label
    'the tree, phase 1: 1 of 3 nodes are finished'
    """
    return draw_moment(moment(text, workers, plan, ticks))


def draw_moment(it: Moment) -> Picture:
    """The same of a moment."""
    wide, depth = max(420, 50 * min(it.leaves, 64)), it.leaves.bit_length() - 1
    done = sum(phase >= it.phase for phase in it.nodes[1:])
    told = f"phase {it.phase}: {done} of {2 * it.leaves - 1} nodes are finished"
    now = f"step {it.nodes[1] // 3 + 1}, {it.passes[it.nodes[1] % 3]}"
    picture = Picture(wide, 152 + 58 * depth, f"the tree, {told}")
    picture.text(12, 16, f"After {it.ticks:,} atomic steps: {now}", "start title")
    picture.text(12, 34, told, "start faint")
    radius = min(17.0, 0.34 * wide / it.leaves)
    _draw_nodes(picture, it, wide, radius)
    _draw_workers(picture, it, wide, radius)
    kinds = [(f"pass{number}", name) for number, name in enumerate(it.passes, 1)]
    picture.key(12, 138 + 58 * depth, kinds)
    return picture


def _draw_nodes(picture: Picture, it: Moment, wide: float, radius: float) -> None:
    for node in range(2, 2 * it.leaves):
        (x, y), (u, v) = _spot(node, wide), _spot(node // 2, wide)
        picture.path(f"M{x:g} {y:g}L{u:g} {v:g}", "edges")
    for node, phase in enumerate(it.nodes[1:], 1):
        x, y = _spot(node, wide)
        picture.circle(x, y, radius, f"pass{(phase - 1) % 3 + 1 if phase else 0}")
        if radius < 8:
            continue
        picture.text(x, y, phase, "on" if phase else "faint")
        if 0 <= node - it.leaves < it.procs:
            picture.text(x, y + 27, f"P{node - it.leaves}", "faint")


def _draw_workers(picture: Picture, it: Moment, wide: float, radius: float) -> None:
    """The workers, beside each other above their nodes."""
    there: Dict[int, List[int]] = defaultdict(list)
    for worker, node in sorted(it.places.items()):
        there[node].append(worker)
    for node, workers in there.items():
        x, y = _spot(node, wide)
        for number, worker in enumerate(workers):
            at = x + 15 * (number - (len(workers) - 1) / 2)
            picture.circle(at, y - radius - 8, 8, "worker", WORKERS[worker % len(WORKERS)])
            picture.text(at, y - radius - 8, worker, "worker")
