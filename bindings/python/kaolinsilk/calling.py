"""One call of the library, made until its output has room.

This file is also the program of a process that makes such calls one after another, and may be
killed in the midst of one. So it asks for nothing else of this package.
"""
from __future__ import annotations

import ctypes
import marshal
import os
import queue
import sys
from typing import Any, BinaryIO, List, NamedTuple, Optional, Sequence, Tuple

# The statuses with an output, and that of a call that no memory is left for.
DONE, CONFLICT, UNFINISHED, MEMORY = 0, 1, 3, 5
WITH_OUTPUT = (DONE, CONFLICT, UNFINISHED)


class Answer(ctypes.Structure):
    _fields_ = [
        ("size", ctypes.c_uint32),
        ("subject", ctypes.c_uint32),
        ("length", ctypes.c_uint64),
        ("line", ctypes.c_uint64),
        ("column", ctypes.c_uint32),
        ("reserved", ctypes.c_uint32),
        ("kind", ctypes.c_char * 32),
        ("sentence", ctypes.c_char * 160),
    ]


class Asked(NamedTuple):
    """A call of the library: its name, texts, request or number, if it takes one, how many bytes
    each item of its output has, and how many items there is room for at first. The texts say more of
    that: what a text holds is rarely told by more than twice its bytes."""

    name: str
    texts: Tuple[bytes, ...]
    request: Optional[bytes] = None
    number: Optional[int] = None
    size: int = 1
    room: int = 0


class Given(NamedTuple):
    """What a call gave: its status, the bytes of its output, and those of an `Answer`."""

    status: int
    output: bytes
    answer: bytes


# Buffers that wait for a next call. Memory is taken as far as it is written to.
ROOM = 1 << 20
_buffers: List[bytearray] = []


def _buffer(room: int) -> bytearray:
    try:
        return _buffers.pop() if room <= ROOM else bytearray(room)
    except IndexError:
        return bytearray(ROOM)


def call(library: Any, asked: Asked) -> Given:
    """Makes a call, and makes it again where its output is longer than there is room."""
    function, answer = getattr(library, asked.name), Answer(size=ctypes.sizeof(Answer))
    room = max(ROOM, asked.room, 2 * sum(map(len, asked.texts))) // asked.size
    words: List[Any] = [word for text in asked.texts for word in (text, ctypes.c_size_t(len(text)))]
    if asked.request is not None:
        words.append(asked.request)
    if asked.number is not None:
        words.append(ctypes.c_uint32(asked.number))
    while True:
        buffer = _buffer(room * asked.size)
        out = ctypes.c_char.from_buffer(buffer)
        status = function(*words, ctypes.byref(out), ctypes.c_size_t(room), ctypes.byref(answer))
        # Records are written where the call is done, and text also where it tells why it is not.
        has_output = status in WITH_OUTPUT if asked.size == 1 else status == DONE
        length = answer.length if has_output else 0
        output = bytes(memoryview(buffer)[: length * asked.size])
        if len(buffer) == ROOM and not _buffers:
            _buffers.append(buffer)
        if length <= room:
            return Given(status, output, bytes(answer))
        room = length


# The process.

HELLO = b"kaolin\0\0"


def read(stream: BinaryIO) -> Any:
    """What was written to a stream, or None at its end."""
    head = stream.read(8)
    return marshal.loads(stream.read(int.from_bytes(head, "little"))) if head else None


def written(told: Sequence[Any]) -> bytes:
    """What `read` reads as a tuple."""
    data = marshal.dumps(tuple(told))
    return len(data).to_bytes(8, "little") + data


def _serve(library: Any, waiting: "queue.SimpleQueue[Asked]", output: BinaryIO) -> None:
    while True:
        try:
            given = call(library, waiting.get())
        except MemoryError:
            given = Given(MEMORY, b"", b"")
        output.write(written(given))
        output.flush()


def main() -> None:
    """Says that it is there, and makes the calls that standard input asks for, until it ends: then
    who asked is gone."""
    import _thread

    waiting: "queue.SimpleQueue[Asked]" = queue.SimpleQueue()
    library, output = ctypes.CDLL(sys.argv[1]), sys.stdout.buffer
    output.write(HELLO)
    output.flush()
    _thread.start_new_thread(_serve, (library, waiting, output))
    while (asked := read(sys.stdin.buffer)) is not None:
        waiting.put(Asked(*asked))
    os._exit(0)


if __name__ == "__main__":
    main()
