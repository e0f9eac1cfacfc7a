"""Locks that the current watch sees.

Each class keeps its marks beside a plain lock of its own. A mark is left while the lock is still held, and taken once
it is got.
"""

import threading as _plain
from types import TracebackType
from typing import Any, Optional, Tuple, Type, Union

from . import _party
from ._party import come, leave, take
from ._process import NONE, Marks

Kind = Optional[Type[BaseException]]


class Lock:
    """A lock as `threading.Lock` makes it. A release comes before the next acquire.

    Whoever lets go leaves the mark, also where another thread had got the lock. `locked()` and an acquire that fails
    tell nothing of who has it.

    >>> lock = Lock()
    >>> with lock:
    ...     lock.locked()
    True
    """

    __slots__ = ("_lock", "_marks", "__weakref__")

    def __init__(self) -> None:
        self._lock = _plain.Lock()
        self._marks: Marks = NONE

    def acquire(self, blocking: bool = True, timeout: float = -1) -> bool:
        """Gets the lock, as the plain one does; whether it did."""
        if _party.meeting is not None:
            come()
        if not self._lock.acquire(blocking, timeout):
            return False
        if self._marks and _party.current is not None:
            _party.party().take(self._marks, "acquires a lock")
        return True

    def release(self) -> None:
        """Lets go of the lock. `RuntimeError` where nobody has it."""
        try:
            if _party.meeting is not None:
                come()
        finally:
            if _party.current is not None and self._lock.locked():
                # A thread outside the watch that has taken nothing leaves what is there: that was before, all the same.
                self._marks = _party.party().leave("releases a lock") or self._marks
            self._lock.release()

    def locked(self) -> bool:
        """Whether somebody has the lock."""
        return self._lock.locked()

    # A condition's `wait` and `notify` ask whether anybody has it, by no acquire of their own.
    _is_owned = locked
    acquire_lock, release_lock, locked_lock = acquire, release, locked
    __enter__ = acquire

    def __exit__(self, kind: Kind, error: Optional[BaseException], trace: Optional[TracebackType]) -> None:
        self.release()

    def _at_fork_reinit(self) -> None:
        self._lock = _plain.Lock()
        self._marks = NONE

    def __repr__(self) -> str:
        return repr(self._lock)


class RLock:
    """A lock as `threading.RLock` makes it. Only the outermost acquire and release order anything.

    >>> lock = RLock()
    >>> with lock, lock:
    ...     lock.acquire(blocking=False)
    True
    """

    def __init__(self) -> None:
        self._lock: Any = _plain.RLock()
        # How often its holder has it; changed by that alone.
        self._depth = 0
        self._marks: Marks = NONE

    def acquire(self, blocking: bool = True, timeout: float = -1) -> bool:
        """Gets the lock, or once more, as the plain one does; whether it did."""
        come()
        if not self._lock.acquire(blocking, timeout):
            return False
        self._depth += 1
        if self._depth == 1:
            take(self._marks, "acquires a lock")
        return True

    def release(self) -> None:
        """Lets go once. `RuntimeError` where the caller hasn't got it."""
        try:
            come()
        finally:
            if self._is_owned():
                if self._depth == 1:
                    self._marks = leave("releases a lock") or self._marks
                self._depth -= 1
            self._lock.release()

    __enter__ = acquire

    def __exit__(self, kind: Kind, error: Optional[BaseException], trace: Optional[TracebackType]) -> None:
        self.release()

    def _is_owned(self) -> bool:
        return bool(self._lock._is_owned())

    def _release_save(self) -> Tuple[int, Any]:
        """A condition's `wait` lets go by this, however often the lock was got."""
        come()
        depth = self._depth
        if self._is_owned():
            self._marks = leave("releases a lock") or self._marks
            self._depth = 0
        return depth, self._lock._release_save()

    def _acquire_restore(self, state: Tuple[int, Any]) -> None:
        try:
            come()
        finally:
            self._lock._acquire_restore(state[1])
            self._depth = state[0]
        take(self._marks, "acquires a lock")

    def _recursion_count(self) -> int:
        return self._depth if self._is_owned() else 0

    def _at_fork_reinit(self) -> None:
        self._lock._at_fork_reinit()
        self._depth, self._marks = 0, NONE

    def __repr__(self) -> str:
        return repr(self._lock)


class _Over:
    """A lock of the program's own, such as a plain one, as its condition gets it and lets go of it: the two are seen
    where they go by the condition."""

    def __init__(self, lock: Any) -> None:
        self._lock = lock
        self._marks: Marks = NONE

    def acquire(self, *words: Any, **named: Any) -> bool:
        """As the lock's own."""
        come()
        is_got: bool = self._lock.acquire(*words, **named)
        if is_got:
            take(self._marks, "acquires a lock")
        return is_got

    def release(self) -> None:
        """As the lock's own."""
        try:
            come()
        finally:
            self._marks = leave("releases a lock") or self._marks
            self._lock.release()

    def __enter__(self) -> bool:
        return self.acquire()

    def __exit__(self, kind: Kind, error: Optional[BaseException], trace: Optional[TracebackType]) -> None:
        self.release()

    def _release_save(self) -> Any:
        come()
        self._marks = leave("releases a lock") or self._marks
        save = getattr(self._lock, "_release_save", self._lock.release)
        return save()

    def _acquire_restore(self, state: Any) -> None:
        restore = getattr(self._lock, "_acquire_restore", lambda _: self._lock.acquire())
        try:
            come()
        finally:
            restore(state)
        take(self._marks, "acquires a lock")

    def _is_owned(self) -> bool:
        if hasattr(self._lock, "_is_owned"):
            return bool(self._lock._is_owned())
        if not self._lock.acquire(False):
            return True
        self._lock.release()
        return False

    def __repr__(self) -> str:
        return repr(self._lock)


class Condition(_plain.Condition):
    """A condition as `threading.Condition`. All order is that of its lock: who notifies has it, and who waited gets it
    again.

    Of a lock that isn't watched, which the program passes in, only those uses are seen that go by the condition.

    >>> condition = Condition()
    >>> with condition:
    ...     condition.wait(timeout=0.001)
    False
    """

    def __init__(self, lock: Optional[Union[Lock, RLock, Any]] = None) -> None:
        own: Any = RLock() if lock is None else lock if isinstance(lock, (Lock, RLock)) else _Over(lock)
        super().__init__(own)
