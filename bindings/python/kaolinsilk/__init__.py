"""Kaolinsilk: programs of a PRAM, on threads that may stop, sleep and come back at any moment.

    import kaolinsilk
    text = '''
    pardo 1
    rule common
    const n = 8
    procs i < n
    shared A[n] = 3, 1, 4, 1, 5, 9, 2, 6
    code
    for h = 0 to lg(n) - 1
       if i >= 1 << h
          A[i] := A[i] + A[i - 1 << h]
       end
    end
    '''
    kaolinsilk.plain(text)["A"]                       # [3, 4, 8, 9, 14, 23, 25, 31]
    kaolinsilk.run(text, plan=[(0, "stop")])["A"]     # the same, whoever stops
    kaolinsilk.plain(text, settings={"n": 2, "A": [5, 6]})["A"]     # [5, 11]

`plain`, `check`, `compile`, `cost`, `steps` and `replay` are the commands of the program pramx, and
`run` that on threads of Python. `Board`, `Worker` and `Seat` are for threads of your own,
`draw_work`, `draw_memory` and `draw_tree` draw, `sweep` goes over sizes, and `judge` judges by an
exercise. A text is a `str` or `bytes`; a `pathlib.Path` names a file that has it.
"""
from ._library import version
from .answers import Answer, Gone
from .boards import Board, Progress, Reading, Seat, Worker
from .calls import Cost, cells, check, compile, cost, cost_by_lines, plain, replay, steps
from .canvas import Picture
from .errors import (
    BadRequest,
    Cancelled,
    Conflict,
    KaolinsilkError,
    OutOfMemory,
    Refused,
    TimedOut,
    Unfinished,
)
from .judging import Verdict, judge
from .moments import Moment, moment
from .pictures import draw_memory, draw_moment, draw_tree, draw_work
from .rows import Rows
from .sweeps import Sweep, sweep
from .texts import text_as_set
from .threads import run

__version__ = version()
__all__ = [
    "Answer",
    "BadRequest",
    "Board",
    "Cancelled",
    "Conflict",
    "Cost",
    "Gone",
    "KaolinsilkError",
    "Moment",
    "OutOfMemory",
    "Picture",
    "Progress",
    "Reading",
    "Refused",
    "Rows",
    "Seat",
    "Sweep",
    "TimedOut",
    "Unfinished",
    "Verdict",
    "Worker",
    "cells",
    "check",
    "compile",
    "cost",
    "cost_by_lines",
    "draw_memory",
    "draw_moment",
    "draw_tree",
    "draw_work",
    "judge",
    "moment",
    "plain",
    "replay",
    "run",
    "steps",
    "sweep",
    "text_as_set",
    "version",
]
