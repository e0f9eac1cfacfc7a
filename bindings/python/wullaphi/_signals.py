"""Events, semaphores and barriers that the current watch sees."""

import threading as _plain
from collections import deque
from typing import Any, Callable, Deque, List, Optional

from ._party import come, leave, take
from ._process import NONE, Marks


class _Shown:
    """Shows itself as the standard library's does."""

    def __repr__(self) -> str:
        return super().__repr__().replace("<wullaphi.threading.", "<threading.", 1)


class Event(_Shown, _plain.Event):
    """An event as `threading.Event`. The `set` that raised the flag comes before each `wait` that it lets go, and
    before each `is_set` that sees the flag up. A `set` of an event that is set orders nothing, nor does `clear`.

    >>> event = Event()
    >>> event.set()
    >>> event.wait()
    True
    """

    _cond: _plain.Condition
    _flag: bool

    def __init__(self) -> None:
        super().__init__()
        self._marks: Marks = NONE
        # What those who wait are told by the set that lets them go: it may be cleared, and set anew, before they run.
        self._waiting: List[List[Marks]] = []

    def set(self) -> None:
        """Raises the flag, and lets go all who wait."""
        come()
        with self._cond:
            if not self._flag:
                self._marks = leave("sets an event")
                for told in self._waiting:
                    told.append(self._marks)
                self._waiting = []
                self._flag = True
            self._cond.notify_all()

    def is_set(self) -> bool:
        """Whether the flag is up."""
        come()
        with self._cond:
            flag, marks = self._flag, self._marks
        if flag:
            take(marks, "sees an event")
        return flag

    def isSet(self) -> bool:  # pylint: disable=invalid-name
        """The same, by its old name."""
        return self.is_set()

    def wait(self, timeout: Optional[float] = None) -> bool:
        """Waits until the flag is up, or as many seconds; whether it was."""
        come()
        told: List[Marks] = []
        with self._cond:
            signaled = self._flag
            if signaled:
                told.append(self._marks)
            else:
                self._waiting.append(told)
                signaled = self._cond.wait(timeout)
                # One that nobody let go is still there.
                self._waiting = [it for it in self._waiting if it is not told]
        if signaled and told:
            take(told[0], "sees an event")
        return signaled


class Semaphore(_Shown, _plain.Semaphore):
    """A semaphore as `threading.Semaphore`. With N places at the start, the k-th release comes before the (k+N)-th
    acquire, and nothing else is ordered: one of 0 is a signal, and one of 1 a lock.

    >>> places = Semaphore(2)
    >>> with places, places:
    ...     places.acquire(blocking=False)
    False
    """

    _cond: _plain.Condition
    _value: int
    # What a bounded one has at most.
    _initial_value: Optional[int] = None

    def __init__(self, value: int = 1) -> None:
        super().__init__(value)
        # Each release gives a token, and each acquire takes the oldest.
        self._tokens: Deque[Marks] = deque([NONE] * value)

    def acquire(self, blocking: bool = True, timeout: Optional[float] = None) -> bool:
        """Takes a place, as the plain one does; whether it did."""
        come()
        if not super().acquire(blocking, timeout):
            return False
        take(self._tokens.popleft(), "acquires a semaphore")
        return True

    def __enter__(self, blocking: bool = True, timeout: Optional[float] = None) -> bool:
        return self.acquire(blocking, timeout)

    def release(self, n: int = 1) -> None:
        """Gives back as many places. `ValueError` where that is less than one, or more than a bounded one has."""
        if n < 1:
            raise ValueError("n must be one or more")
        try:
            come()
        finally:
            self._give_back(n)

    def _give_back(self, n: int) -> None:
        with self._cond:
            if self._initial_value is not None and self._value + n > self._initial_value:
                raise ValueError("Semaphore released too many times")
            self._tokens.extend([leave("releases a semaphore")] * n)
            self._value += n
            self._cond.notify(n)


class BoundedSemaphore(Semaphore, _plain.BoundedSemaphore):
    """A semaphore as `threading.BoundedSemaphore`, with the orders of `Semaphore`. A release that is refused leaves
    nothing.

    >>> BoundedSemaphore(2).release()
    Traceback (most recent call last):
        ...
    ValueError: Semaphore released too many times
    """


class Barrier(_Shown, _plain.Barrier):
    """A barrier as `threading.Barrier`. All that arrive come before all that leave: the last one takes what the others
    left, runs the action, and leaves one mark for all. One that is aborted, or whose time is up, orders nothing.

    >>> Barrier(1).wait()
    0
    """

    _cond: _plain.Condition
    _action: Optional[Callable[[], Any]]

    def __init__(self, parties: int, action: Optional[Callable[[], Any]] = None,
                 timeout: Optional[float] = None) -> None:
        super().__init__(parties, action, timeout)
        self._arrived: List[Marks] = []
        self._passed: Marks = NONE

    def wait(self, timeout: Optional[float] = None) -> int:
        """Waits until all have arrived, or as many seconds; which of them this one is."""
        come()
        return super().wait(timeout)

    def _wait(self, timeout: Optional[float]) -> None:
        """One arrives that isn't the last."""
        self._arrived.append(leave("comes to a barrier"))
        super()._wait(timeout)  # type: ignore[misc]
        take(self._passed, "passes a barrier")

    def _release(self) -> None:
        """The last one arrives. Whatever the action raises breaks the barrier."""
        for marks in self._arrived:
            take(marks, "passes a barrier")
        self._arrived = []
        action, self._action = self._action, None
        try:
            if action is not None:
                action()
            self._passed = leave("passes a barrier")
            super()._release()  # type: ignore[misc]
        except BaseException:
            self._break()
            raise
        finally:
            self._action = action

    def _break(self) -> None:
        self._arrived = []
        super()._break()  # type: ignore[misc]

    def reset(self) -> None:
        """As the plain one's."""
        with self._cond:
            self._arrived = []
        super().reset()
