"""Locks that a forked process makes anew: a thread of the parent that holds one isn't there to let go of it."""

import os
import threading
import weakref


class Locked:
    """What has a lock of its own, which threads share and a forked process doesn't."""

    def __init__(self) -> None:
        self._lock = threading.RLock()
        _ALL.add(self)

    def _fork(self) -> None:
        """The process was forked, and this is the child."""
        self._lock = threading.RLock()

    def _is_held_elsewhere(self) -> bool:
        """Whether another thread has the lock."""
        if not self._lock.acquire(blocking=False):
            return True
        self._lock.release()
        return False


_ALL: "weakref.WeakSet[Locked]" = weakref.WeakSet()


def _renew() -> None:
    for it in list(_ALL):
        it._fork()


os.register_at_fork(after_in_child=_renew)
