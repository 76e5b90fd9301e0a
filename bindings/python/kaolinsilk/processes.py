"""Calls of the library by a process of their own, which is killed where one has to end."""
from __future__ import annotations

import atexit
import contextlib
import marshal
import os
import select
import subprocess
import sys
import weakref
from pathlib import Path
from typing import IO, List, Optional

from .calling import HELLO, Asked, Given, written
from .errors import KaolinsilkError
from .limits import Limit

PROGRAM = Path(__file__).with_name("calling.py")
# How much is read at once, and how many processes wait for a next call.
PIECE, MOST_IDLE = 1 << 20, 4


class _Gone(Exception):
    """A process is gone."""


class _Process:
    """A process that makes calls one after another, as calling.py says."""

    def __init__(self, library: str) -> None:
        words = [sys.executable, "-I", "-S", "-B", str(PROGRAM), library]
        # An interrupt of a terminal is for who asked alone.
        self._process = subprocess.Popen(
            words,
            bufsize=0,
            stdin=subprocess.PIPE,
            stdout=subprocess.PIPE,
            stderr=subprocess.DEVNULL,
            cwd="/",
            start_new_session=True,
        )
        assert self._process.stdin and self._process.stdout
        self._asks: IO[bytes] = self._process.stdin
        self._tells: IO[bytes] = self._process.stdout
        os.set_blocking(self._asks.fileno(), False)
        # Whether it came, and whether it has made a call.
        self.is_there = self.is_used = False
        _all.add(self)

    def made(self, asked: Asked, limit: Limit) -> Given:
        """What a call gives."""
        if not self.is_there:
            self.is_there = self._read(len(HELLO), limit) == HELLO
        self._write(written(asked), limit)
        length = int.from_bytes(self._read(8, limit), "little")
        given = Given(*marshal.loads(self._read(length, limit)))
        self.is_used = True
        return given

    def _wait(self, file: IO[bytes], event: int, limit: Limit) -> None:
        poll = select.poll()
        poll.register(file, event)
        while not poll.poll(min(limit.pause() * 1000, 2**31 - 1)):
            pass

    def _write(self, data: bytes, limit: Limit) -> None:
        left = memoryview(data)
        while left:
            self._wait(self._asks, select.POLLOUT, limit)
            try:
                left = left[self._asks.write(left) or 0 :]
            except BrokenPipeError:
                raise _Gone from None

    def _read(self, length: int, limit: Limit) -> bytes:
        data = bytearray()
        while len(data) < length:
            self._wait(self._tells, select.POLLIN, limit)
            piece = self._tells.read(min(length - len(data), PIECE))
            if not piece:
                raise _Gone
            data += piece
        return bytes(data)

    def kill(self) -> None:
        """Ends the process, whatever it does."""
        self._process.kill()
        self._asks.close()
        self._tells.close()
        try:
            self._process.wait(timeout=0.02)
        except subprocess.TimeoutExpired:
            _ending.append(self._process)

    def forget(self) -> None:
        """What the forked child of a process does, whose process this is not."""
        self._asks.close()
        self._tells.close()
        self._process.returncode = 0


_all: "weakref.WeakSet[_Process]" = weakref.WeakSet()
_idle: List[_Process] = []
# Those that were killed, but had not ended yet.
_ending: List["subprocess.Popen[bytes]"] = []


def _forget_all() -> None:
    for process in list(_all):
        process.forget()
    for killed in _ending:
        killed.returncode = 0
    _idle.clear()
    _ending.clear()


def _kill_idle() -> None:
    while _idle:
        _idle.pop().kill()
    while _ending:
        _ending.pop().wait()


os.register_at_fork(after_in_child=_forget_all)
atexit.register(_kill_idle)


def _taken(library: str) -> Optional[_Process]:
    _ending[:] = [it for it in _ending if it.poll() is None]
    with contextlib.suppress(IndexError):
        return _idle.pop()
    if not sys.executable or getattr(sys, "frozen", False):
        return None
    with contextlib.suppress(OSError):
        return _Process(library)
    return None


def made(library: str, asked: Asked, limit: Limit) -> Optional[Given]:
    """What a call of a library gives, by another process; None where none can be had."""
    while True:
        process = _taken(library)
        if process is None:
            return None
        is_free = False
        try:
            given = process.made(asked, limit)
            is_free = len(_idle) < MOST_IDLE
            return given
        except _Gone:
            if not process.is_there:
                return None
            # One that waited may be gone since its last call: then another one makes this one.
            if not process.is_used:
                raise KaolinsilkError("the process of the call was ended") from None
        finally:
            if is_free:
                _idle.append(process)
            else:
                process.kill()
