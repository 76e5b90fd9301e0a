"""Texts of programs: where they come from, and what their headers declare."""
from __future__ import annotations

import operator
import os
import re
from array import array
from pathlib import Path
from typing import Any, Dict, Iterable, List, Mapping, NamedTuple, Optional, Sequence, Set, Tuple
from typing import Union

from . import _library
from .errors import BadRequest, Refused

# What a name holds: a number, those of an array, or its rows where it has two indices.
Value = Union[int, List[int], List[List[int]]]

# A text as it stands, or the path of a file that has it (a `pathlib.Path`).
Source = Union[str, bytes, "os.PathLike[str]"]
# What constants, shared scalars and shared arrays are set to, by their names: a number, those of an
# array in order, the rows of one of two indices, or as `--set` has it after the sign. A numpy array
# is taken as it is.
Settings = Mapping[str, Union[int, str, Iterable[int], Iterable[Iterable[int]]]]


def bytes_of(source: Source, settings: Optional[Settings] = None) -> bytes:
    """The bytes of a text, as it is set. A `str` or `bytes` is the text itself, a path names its
    file."""
    if isinstance(source, str):
        given = source.encode("utf-8", "surrogatepass")
    elif isinstance(source, (bytes, bytearray)):
        given = bytes(source)
    else:
        given = Path(source).read_bytes()
    return _set(given, settings) if settings else given


def text_as_set(text: Source, settings: Settings) -> bytes:
    """The text of a program with other numbers for its constants, and other values for its shared
    arrays and scalars to start with. Each call takes it, as it takes settings. An array of two
    indices is set by its rows, as many and as long as its own, or by all its values in order.

    >>> text = "pardo 1\\nrule crew\\nconst n = 2\\nprocs i < n\\nshared A[n]\\ncode\\nA[i] := i\\n"
    >>> text_as_set(text, {"n": 4, "A": [3, 1, 4, 1]}).decode().splitlines()[2:5]
    ['const n = 4', 'procs i < n', 'shared A[n] = 3, 1, 4, 1']
    """
    return bytes_of(text, settings)


class Program:
    """A text, and the values of shared arrays that are not written into it yet."""

    def __init__(self, text: bytes, numbers: Optional[Dict[str, "array[int]"]] = None) -> None:
        self.start, self.numbers = text, numbers or {}
        self._text = None if self.numbers else text

    def text(self) -> bytes:
        """The text as all is set."""
        if self._text is None:
            self._text = bytes_of(self.start, self.numbers)
        return self._text


def program_of(source: Source, settings: Optional[Settings]) -> Program:
    """A text as it is set, the values of its shared arrays as numbers."""
    text = bytes_of(source)
    arrays = arrays_of(text) if settings and is_program(text) else set()
    given = {name: _given(name, it) for name, it in (settings or {}).items()}
    apart = {name: it for name, it in given.items() if name in arrays and it.is_array()}
    others = {name: it for name, it in given.items() if name not in apart}
    start = _set_to(text, others)
    _check_shapes(start, apart)
    return Program(start, {name: it.numbers for name, it in apart.items()})


def _set(text: bytes, settings: Settings) -> bytes:
    given = {name: _given(name, it) for name, it in settings.items()}
    as_set = _set_to(text, given)
    _check_shapes(as_set, given)
    return as_set


def _set_to(text: bytes, given: Mapping[str, "_Given"]) -> bytes:
    """A text with settings written into it."""
    if not given:
        return text
    names = list(given)
    try:
        return _library.text_as_set(text, b"".join(_line(*it) for it in given.items()))
    except Refused as refused:
        if refused.subject == "set" and refused.line:
            raise Refused("set", refused.kind, refused.sentence, name=names[refused.line - 1])
        raise


def _check_shapes(text: bytes, given: Mapping[str, "_Given"]) -> None:
    """Refuses rows that arrays of a text do not have."""
    by_rows = [name for name, it in given.items() if it.shape]
    declared = {it.name: it for it in shared_of(text)} if by_rows else {}
    for name in by_rows:
        _check_rows(declared.get(name), given[name])


class _Given(NamedTuple):
    """The values of a setting, and how many rows and columns they were given by, if by rows."""

    numbers: Any
    shape: Optional[Tuple[int, int]] = None

    def is_array(self) -> bool:
        """Whether these are numbers as the library takes them, one at least."""
        return isinstance(self.numbers, array) and len(self.numbers) > 0


def _given(name: str, values: Any) -> _Given:
    """What a setting is given by. An array of numbers that the library takes is copied, also of
    numpy; else what makes itself an array of numpy becomes lists first."""
    if "=" in name or "\n" in name:
        raise BadRequest(f"{name!r} is no name")
    if isinstance(values, str):
        if not values.isascii() or "\n" in values:
            raise BadRequest(f"{values!r} is no setting")
        return _Given(values)
    if isinstance(values, array) and values.typecode == "I":
        return _Given(values[:])
    if hasattr(values, "__array__"):
        import numpy

        held = numpy.asarray(values)
        if held.dtype.kind in "ui" and held.ndim in (1, 2) and _are_numbers(held):
            return _Given(_copied(held), held.shape if held.ndim == 2 else None)
        values = held.tolist()
    if not isinstance(values, Iterable):
        return _Given(_numbers([values]))
    listed = list(values)
    if not listed or not isinstance(listed[0], Iterable):
        return _Given(_numbers(listed))
    rows = [list(row) for row in listed]
    if any(len(row) != len(rows[0]) for row in rows):
        raise Refused("set", "WrongLength", "the rows have not all one length", name=name)
    return _Given(_numbers([it for row in rows for it in row]), (len(rows), len(rows[0])))


def _are_numbers(held: Any) -> bool:
    return bool(held.size and held.min() >= 0 and held.max() <= _library.MOST)


def _copied(held: Any) -> "array[int]":
    numbers = array("I")
    numbers.frombytes(held.astype("=u4", order="C").tobytes())
    return numbers


def _numbers(listed: List[Any]) -> Sequence[int]:
    """These numbers, or a `TypeError` where one is none."""
    try:
        return array("I", listed)
    except OverflowError:  # the library says which one is too great
        return list(map(operator.index, listed))


def _check_rows(declared: Optional["Shared"], given: _Given) -> None:
    """Refuses rows that an array does not have. Of too many values the library says so."""
    if not declared or len(given.numbers) != declared.length:
        return
    wide = declared.width
    has = (declared.length // wide, wide) if wide else (declared.length,)
    if given.shape != has:
        is_by, gives = (" by ".join(map(str, it)) for it in (has, given.shape or ()))
        sentence = f"the array is {is_by}, and not {gives}"
        raise Refused("set", "WrongLength", sentence, name=declared.name)


def _line(name: str, given: _Given) -> bytes:
    """A setting as the library reads it."""
    numbers = given.numbers
    values = numbers if isinstance(numbers, str) else str(list(numbers))[1:-1].replace(" ", "")
    return f"{name}={values}\n".encode()


def _words(line: bytes) -> List[bytes]:
    return line.partition(b";")[0].split()


def is_program(text: bytes) -> bool:
    """Whether a text is one of `pardo`: its first word says so."""
    lines = map(_words, text.split(b"\n"))
    return next((words[0] for words in lines if words), b"") == b"pardo"


def header_of(text: bytes) -> List[bytes]:
    """The lines of a text up to the line `code`, with that one."""
    lines = text.split(b"\n")
    ends = (k for k, line in enumerate(lines) if _words(line) == [b"code"])
    return lines[: next(ends, len(lines)) + 1]


def without_code(text: bytes) -> bytes:
    """A program with a code that does nothing, and the same header, but for what its variables
    start with. A text of the machine stays."""
    if not is_program(text):
        return text
    lines = header_of(text)
    names = (line.partition(b"=")[0] if line.lstrip()[:6] == b"shared" else line for line in lines)
    return b"\n".join([*names, b"while 0", b"end", b""])


class Shared(NamedTuple):
    """A shared array or scalar of a program, and which cells of its job it has."""

    name: str
    first: int
    length: int
    is_array: bool
    width: int = 0

    def place(self, index: int) -> str:
        row, column = divmod(index, self.width or 1)
        at = f"{row},{column}" if self.width else f"{index}"
        return f"{self.name}[{at}]" if self.is_array else self.name

    def value(self, cells: Sequence[int]) -> Value:
        """What it holds, of all cells: of two indices a list for each row."""
        values = list(cells[self.first : self.first + self.length])
        if self.width:
            return [values[k : k + self.width] for k in range(0, self.length, self.width)]
        return values if self.is_array else values[0]


def arrays_of(text: bytes) -> Set[str]:
    """The names of the shared arrays of a program."""
    header = b"\n".join(header_of(text))
    declared = re.findall(rb"(?m)^[ \t\r]*shared[ \t\r]+(\w+)[ \t\r]*\[", header)
    return {name.decode("ascii") for name in declared}


def shared_of(text: bytes) -> List[Shared]:
    """The shared arrays and scalars of a program, in the order of their cells.

    The library tells them. One before 0.9 answers a program of this header whose code does nothing.
    """
    if _library.has("ks_place_of"):
        return _places_of(without_code(text))
    rows = _library.told("ks_plain", without_code(text)).output.decode("ascii").splitlines()[1:]
    arrays, found, first = arrays_of(text), {}, 0
    for told, _, values in (row.partition(" = ") for row in rows):
        name, is_row, _ = told.partition("[")
        length = values.count(" ") + 1
        it = found.get(name, Shared(name, first, 0, name in arrays, length if is_row else 0))
        found[name] = it._replace(length=it.length + length)
        first += length
    return list(found.values())


def _places_of(text: bytes) -> List[Shared]:
    header = b"\n".join(header_of(text))
    found = []
    for name in re.findall(rb"(?m)^[ \t\r]*shared[ \t\r]+(\w+)", header):
        place = _library.place_of(text, name.decode("ascii"))
        if place:
            it = Shared(name.decode("ascii"), place.first, place.length, bool(place.is_array))
            found.append(it._replace(width=place.columns))
    return sorted(found, key=lambda it: it.first)


def cell_of(shared: List[Shared], place: str) -> int:
    """The cell that answers name so: "A[3]", "A[1,2]", or a scalar by its name."""
    found = re.fullmatch(r"(\w+)(?:\[(\d+)(?:,(\d+))?\])?", place)
    name, row, column = found.groups() if found else ("", None, None)
    for it in shared:
        index = int(row or 0) * (it.width or 1) + int(column or 0)
        if it.name == name and index < it.length and it.place(index) == place:
            return it.first + index
    raise BadRequest(f"the program has no place {place}")


def place_of(shared: List[Shared], cell: int) -> str:
    """A cell as answers name it: "A[3]", or "cell 7" where no array has it."""
    for it in shared:
        if it.first <= cell < it.first + it.length:
            return it.place(cell - it.first)
    return f"cell {cell}"
