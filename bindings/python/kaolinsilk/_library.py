"""The calls of libkaolinsilk.so, by ctypes, which lets other threads of Python run meanwhile.

The library lies in this folder. The environment variable KAOLINSILK_LIBRARY names another one.
"""
from __future__ import annotations

import ctypes
import operator
import os
import struct
from array import array
from ctypes import POINTER, c_char_p, c_size_t, c_uint32, c_uint64, c_void_p
from pathlib import Path
from typing import Any, Callable, Dict, List, Mapping, NamedTuple, NoReturn, Optional, Tuple

from . import callers, calling, processes
from .calling import Answer, Asked
from .errors import BadRequest, OutOfMemory, Refused
from .limits import NONE, Limit

ABI_VERSION = 1

# Statuses: the exit statuses of pramx.
DONE, CONFLICT, REFUSED, UNFINISHED, FAILED, MEMORY = range(6)
WORDS = ("done", "conflict", "refused", "unfinished", "failed", "memory")
# What was refused, by its number.
SUBJECTS = ("", "text", "text", "plan", "step", "size", "request", "memory", "set", "exercise")
# The greatest number of a request.
MOST = 2**32 - 1
# The longest buffer that is taken at the first try.
MOST_ROOM = 1 << 28
# Calls that run nothing, and how long their texts are at most where they are over at once.
SHORT, MOST_SHORT = ("ks_set", "ks_plan"), 1 << 20


class Request(ctypes.Structure):
    _fields_ = [
        ("size", c_uint32),
        ("why", c_uint32),
        ("rows_alone", c_uint32),
        ("first", c_uint32),  # from
        ("last", c_uint32),  # to
        ("workers", c_uint32),
        ("lines", c_uint32),
        ("reserved", c_uint32 * 15),
    ]


class Handle(ctypes.Structure):
    """A board, a seat or a worker, or none yet."""

    _fields_ = [("at", c_void_p)]


class Progress(ctypes.Structure):
    _fields_ = [(name, c_uint32) for name in ("step", "steps", "conflict", "cells")]


class Reading(ctypes.Structure):
    _fields_ = [("step", c_uint32), ("value", c_uint32)]


class Fault(ctypes.Structure):
    _fields_ = [(name, c_uint32) for name in ("step", "cell", "first", "second")]


class Place(ctypes.Structure):
    """Where a shared array or scalar lies in the cells of a job."""

    _fields_ = [(name, c_uint32) for name in ("first", "length", "columns", "is_array")]


class Given(ctypes.Structure):
    """The values that a shared array or scalar starts with."""

    _fields_ = [
        ("name", c_char_p),
        ("name_length", c_size_t),
        ("values", c_void_p),
        ("values_length", c_size_t),
    ]


HANDLE = POINTER(Handle)
# The calls of boards; calling.py makes the others.
CALLS = {
    "ks_open": [c_char_p, c_size_t, c_uint32, c_uint32, HANDLE],
    "ks_seat_of": [HANDLE, HANDLE],
    "ks_worker_of": [HANDLE, c_uint32, HANDLE],
    "ks_work": [HANDLE, c_uint64],
    "ks_turns": [HANDLE, c_uint64],
    "ks_open_uncounted": [c_char_p, c_size_t, c_uint32, c_uint32, HANDLE],
    "ks_stop": [HANDLE, POINTER(c_uint32)],
    "ks_open_with": [c_char_p, c_size_t, c_uint32, c_uint32, POINTER(Given), c_size_t, HANDLE],
    "ks_place_of": [c_char_p, c_size_t, c_char_p, c_size_t, POINTER(Place)],
    "ks_back": [HANDLE],
    "ks_progress": [HANDLE, POINTER(Progress)],
    "ks_read": [HANDLE, c_uint32, POINTER(Reading)],
    "ks_memory": [HANDLE, c_void_p, c_size_t],
    "ks_fault": [HANDLE, POINTER(Fault)],
}
# Those that libraries before 0.9 do not have.
LATER = ("ks_turns", "ks_open_uncounted", "ks_stop", "ks_open_with", "ks_place_of")
CLOSES = ("ks_close", "ks_close_seat", "ks_close_worker")


_BESIDE = Path(__file__).with_name("libkaolinsilk.so")
_NAMED = os.environ.get("KAOLINSILK_LIBRARY", str(_BESIDE))
# A name alone is looked for where the system has its libraries.
PATH = os.path.abspath(_NAMED) if os.sep in _NAMED else _NAMED


def _load() -> ctypes.CDLL:
    loaded = ctypes.CDLL(PATH)
    for name in ("ks_version", "ks_abi_version"):
        getattr(loaded, name).argtypes, getattr(loaded, name).restype = [], c_uint32
    for name, kinds in CALLS.items():
        if name in LATER and not hasattr(loaded, name):
            continue
        getattr(loaded, name).argtypes, getattr(loaded, name).restype = kinds, c_uint32
    for name in CLOSES:
        getattr(loaded, name).argtypes, getattr(loaded, name).restype = [HANDLE], None
    has = loaded.ks_abi_version()
    if has != ABI_VERSION:
        raise ImportError(f"the library's interface is {has}, and {ABI_VERSION} is needed")
    return loaded


library = _load()


def version() -> str:
    """The library's version, as "0.2.0"."""
    number = library.ks_version()
    return f"{number >> 16}.{number >> 8 & 255}.{number & 255}"


def has(name: str) -> bool:
    """Whether the library has a call."""
    return hasattr(library, name)


def place_of(text: bytes, name: str) -> Optional[Place]:
    """Where the shared array or scalar of a name lies, if a text that is not refused has one."""
    asked, found = name.encode(), Place()
    status = library.ks_place_of(text, len(text), asked, len(asked), found)
    if status == MEMORY:
        raise OutOfMemory("out of memory")
    return found if status == DONE else None


def givens_of(values: Mapping[str, "array[int]"]) -> "ctypes.Array[Given]":
    """Values of arrays by their names, as a call takes them."""
    rows = []
    for name, numbers in values.items():
        asked, (at, count) = name.encode(), numbers.buffer_info()
        rows.append(Given(asked, len(asked), at, count))
    given = (Given * len(rows))(*rows)
    given.kept = values  # type: ignore[attr-defined] # as long as it is there itself
    return given


class Told(NamedTuple):
    """What a call told: its status, and its output."""

    status: int
    output: bytes


def refuse(status: int, answer: Answer) -> NoReturn:
    """Raises the exception of a call that was not done."""
    if status == MEMORY:
        raise OutOfMemory("out of memory")
    sentence = answer.sentence.decode("ascii", "replace")
    subject = SUBJECTS[answer.subject] if answer.subject < len(SUBJECTS) else "text"
    if status == REFUSED or subject == "size":
        kind, line = answer.kind.decode("ascii", "replace"), answer.line or None
        raise Refused(subject, kind, sentence, line, answer.column or None)
    raise BadRequest(sentence or "a number of the request is outside its limits")


def number_of(value: int, name: str, most: int = MOST, least: int = 0) -> int:
    """A number that the library takes, or the exception that says which one it is not."""
    number = operator.index(value)
    if not least <= number <= most:
        raise BadRequest(f"{name} is from {least} to {most:,}, and not {number}")
    return number


# How much room the last call of each name needed.
_rooms: Dict[str, int] = {}


def told(name: str, *texts: bytes, limit: Limit = NONE, **asked: int) -> Told:
    """What a command tells of texts."""
    request = Request(size=ctypes.sizeof(Request), **asked)
    return _told(Asked(name, texts, bytes(request)), limit)


def text_as_set(text: bytes, settings: bytes) -> bytes:
    """A text as another one sets names of it, by lines `NAME=V,V,..`."""
    return _told(Asked("ks_set", (text, settings))).output


def verdict(exercise: bytes, submission: bytes, limit: Limit) -> str:
    """What is said of a submission by an exercise: a record `passed,input,what`."""
    return str(_told(Asked("ks_judge", (exercise, submission)), limit).output, "ascii")


def cells(text: bytes, limit: Limit) -> Told:
    """The final cells of a job, as numbers of 32 bits."""
    return _told(Asked("ks_cells", (text,), size=4), limit)


def plan(text: bytes, workers: int) -> List[Tuple[int, ...]]:
    """The rows of a plan for so many workers: for each a worker, an act, and ticks."""
    output = _told(Asked("ks_plan", (text,), number=workers, size=12)).output
    return list(struct.iter_unpack("=3I", output))


def made(function: Callable[[], int], limit: Limit = NONE) -> int:
    """The status of a call that is made in this process, which an interrupt or a limit ends."""
    return callers.made(function, limit)


def _given(asked: Asked, limit: Limit) -> calling.Given:
    """What a call gives. One that may have to end soon is made by a process that can be killed; one
    that runs nothing is over before anybody could leave it."""
    given = processes.made(PATH, asked, limit) if limit is not NONE else None
    if given is not None:
        return given
    if asked.name in SHORT and sum(map(len, asked.texts)) < MOST_SHORT:
        return calling.call(library, asked)
    return callers.made(lambda: calling.call(library, asked), limit)


def _told(asked: Asked, limit: Limit = NONE) -> Told:
    """What a call tells."""
    if asked.name in _rooms:
        asked = asked._replace(room=_rooms[asked.name])
    given = _given(asked, limit)
    if len(given.output) > max(asked.room, calling.ROOM):
        _rooms[asked.name] = min(len(given.output), MOST_ROOM)
    if given.status not in calling.WITH_OUTPUT:
        refuse(given.status, Answer.from_buffer_copy(given.answer))
    return Told(given.status, given.output)
