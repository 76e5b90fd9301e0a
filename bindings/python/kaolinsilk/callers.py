"""Calls of the library by a thread of their own, so that who waits for one can leave.

A call of the library knows of no interrupt. So that one comes through, the main thread, which alone
gets them, has its calls made by another thread, and waits. Where it leaves, that thread is left to
what nobody else wants of the processor, and ends with its call.
"""
from __future__ import annotations

import _thread
import contextlib
import os
import queue
import threading
from typing import Any, Callable, List, Optional, Tuple, TypeVar

from .limits import NONE, Limit

Made = TypeVar("Made")


class _Caller:
    """A thread that makes calls one after another."""

    def __init__(self) -> None:
        self._asked: "queue.SimpleQueue[Optional[Callable[[], Any]]]" = queue.SimpleQueue()
        self._told: "queue.SimpleQueue[Tuple[Any, Optional[BaseException]]]" = queue.SimpleQueue()
        self._number: Optional[int] = None
        self._lives = _thread.allocate_lock()
        self._lives.acquire()
        # None of those that a program lists and waits for.
        _thread.start_new_thread(self._live, ())

    def _live(self) -> None:
        self._number = threading.get_native_id()
        while True:
            function = self._asked.get()
            if function is None:
                self._lives.release()
                return
            try:
                self._told.put((function(), None))
            except BaseException as error:  # told to who waits
                self._told.put((None, error))
            del function

    def made(self, function: Callable[[], Made], limit: Limit) -> Made:
        self._asked.put(function)
        while True:
            try:
                made, error = self._told.get(timeout=limit.pause())
            except queue.Empty:
                continue
            if error is not None:
                raise error
            return made  # type: ignore[no-any-return]

    def leave(self) -> None:
        """The thread ends with its call, and has what nobody else wants of the processor."""
        self._asked.put(None)
        if self._number is not None:
            with contextlib.suppress(OSError):
                os.sched_setscheduler(self._number, os.SCHED_IDLE, os.sched_param(0))


    def end(self) -> None:
        """The thread, which makes no call, ends."""
        self._asked.put(None)
        self._lives.acquire(timeout=1)


# Those that wait for a call.
_idle: List[_Caller] = []


def _end_idle() -> None:
    """Leaves no thread to a fork, as no process should that has one."""
    while _idle:
        _idle.pop().end()


os.register_at_fork(before=_end_idle)


def _taken() -> _Caller:
    try:
        return _idle.pop()
    except IndexError:
        return _Caller()


def made(function: Callable[[], Made], limit: Limit = NONE) -> Made:
    """What a function gives, by a thread of its own where its caller may have to leave: that is the
    main thread, and who has a limit."""
    if limit is NONE and threading.current_thread() is not threading.main_thread():
        return function()
    try:
        caller = _taken()
    except RuntimeError:  # the system refuses a thread
        return function()
    is_free = False
    try:
        given = caller.made(function, limit)
        is_free = True
        return given
    finally:
        if is_free and not _idle:
            _idle.append(caller)
        else:
            caller.leave()
