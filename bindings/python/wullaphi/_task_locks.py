"""Locks and signals of tasks that the current watch sees. One task runs at a time: they need no lock of their own."""

import asyncio as _plain
import sys
from collections import deque
from typing import Any, Deque, List, Optional

from ._party import leave, take
from ._process import NONE, Marks


class Lock(_plain.Lock):
    """A lock as `asyncio.Lock`. A release comes before the next acquire.

    >>> from wullaphi import asyncio
    >>> async def main():
    ...     lock = asyncio.Lock()
    ...     async with lock:
    ...         return lock.locked()
    >>> asyncio.run(main())
    True
    """

    _marks: Marks = NONE

    async def acquire(self) -> Any:
        """Gets the lock."""
        await super().acquire()
        take(self._marks, "acquires a lock")
        return True

    def release(self) -> None:
        """Lets go of it. `RuntimeError` where nobody has it."""
        if self.locked():
            self._marks = leave("releases a lock") or self._marks
        super().release()


class Condition(_plain.Condition):
    """A condition as `asyncio.Condition`, whose order is that of its lock. A lock that isn't watched is a `TypeError`.

    >>> Condition(_plain.Lock())
    Traceback (most recent call last):
        ...
    TypeError: the lock of a watched condition is a lock of wullaphi.asyncio
    """

    def __init__(self, lock: Optional[_plain.Lock] = None, **words: Any) -> None:
        if lock is None:
            lock = Lock(**words) if sys.version_info < (3, 10) else Lock()
        elif isinstance(lock, _plain.Lock) and not isinstance(lock, Lock):
            raise TypeError("the lock of a watched condition is a lock of wullaphi.asyncio")
        super().__init__(lock, **words)


class Event(_plain.Event):
    """An event as `asyncio.Event`. The `set` that raised the flag comes before each `wait` that it lets go, and before
    each `is_set` that sees the flag up.

    >>> event = Event()
    >>> event.set()
    >>> event.is_set()
    True
    """

    def __init__(self, **words: Any) -> None:
        super().__init__(**words)
        self._marks: Marks = NONE
        self._told: List[List[Marks]] = []

    def set(self) -> None:
        """Raises the flag, and lets go all who wait."""
        if not super().is_set():
            self._marks = leave("sets an event")
            for told in self._told:
                told.append(self._marks)
            self._told = []
        super().set()

    def is_set(self) -> bool:
        """Whether the flag is up."""
        flag = super().is_set()
        if flag:
            take(self._marks, "sees an event")
        return flag

    async def wait(self) -> Any:
        """Waits until the flag is up."""
        told: List[Marks] = []
        if self.is_set():
            return True
        self._told.append(told)
        try:
            await super().wait()
        finally:
            self._told = [it for it in self._told if it is not told]
        for marks in told:
            take(marks, "sees an event")
        return True


class Semaphore(_plain.Semaphore):
    """A semaphore as `asyncio.Semaphore`. With N places at the start, the k-th release comes before the (k+N)-th
    acquire, and nothing else is ordered.

    >>> Semaphore(2).locked()
    False
    """

    def __init__(self, value: int = 1, **words: Any) -> None:
        super().__init__(value, **words)
        self._tokens: Deque[Marks] = deque([NONE] * value)

    async def acquire(self) -> Any:
        """Takes a place."""
        await super().acquire()
        if self._tokens:
            take(self._tokens.popleft(), "acquires a semaphore")
        return True

    def release(self) -> None:
        """Gives it back. `ValueError` where that is more than a bounded one has."""
        super().release()
        self._tokens.append(leave("releases a semaphore"))


class BoundedSemaphore(Semaphore, _plain.BoundedSemaphore):
    """A semaphore as `asyncio.BoundedSemaphore`, with the orders of `Semaphore`.

    >>> BoundedSemaphore(2).release()
    Traceback (most recent call last):
        ...
    ValueError: BoundedSemaphore released too many times
    """
