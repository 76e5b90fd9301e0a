"""How long a call may take: until a moment, or until somebody cancels it."""
from __future__ import annotations

import threading
import time
from typing import NamedTuple, Optional

from .errors import Cancelled, TimedOut

# How often a call that may be cancelled looks whether it is, in seconds.
LOOK = 0.02


class Limit(NamedTuple):
    """When a call has to be over. `timeout` is in seconds from its start."""

    timeout: Optional[float] = None
    cancel: Optional[threading.Event] = None
    end: float = 0.0

    def pause(self) -> float:
        """How long to wait until the next look; `TimedOut` or `Cancelled` where the call is over."""
        if self.cancel is not None and self.cancel.is_set():
            raise Cancelled("the call was cancelled")
        longest = threading.TIMEOUT_MAX if self.cancel is None else LOOK
        if self.timeout is None:
            return longest
        left = self.end - time.monotonic()
        if not left > 0:
            raise TimedOut("the call took longer than it was given")
        return min(left, longest)

    def rest(self) -> Optional[float]:
        """How many seconds are left."""
        return None if self.timeout is None else self.end - time.monotonic()


NONE = Limit()


def limit_of(timeout: Optional[float], cancel: Optional[threading.Event]) -> Limit:
    """The limit of a call that starts now."""
    if timeout is None and cancel is None:
        return NONE
    return Limit(timeout, cancel, time.monotonic() + (timeout or 0.0))
