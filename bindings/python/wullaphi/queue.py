"""The names of `queue`, whose puts and gets the watch that is current sees: a program changes its import.

    from wullaphi import queue

An item's put comes before its get. In a queue of N places the k-th get comes before the (k+N)-th put, which needs its
place. Each `task_done` comes before a `join` that returns. Nothing else is ordered: two puts aren't, nor two gets. That
a queue was full or empty, and how many items it had, tells nothing. Every other name is the standard module's own.
"""

import queue as _plain
import threading as _threading
from typing import TYPE_CHECKING, Any, List, Optional, TypeVar

from ._items import Items
from ._party import come, leave, take

It = TypeVar("It")

if TYPE_CHECKING:
    from queue import Empty as Empty
    from queue import Full as Full

    from queue import LifoQueue as _LifoQueue
    from queue import PriorityQueue as _PriorityQueue
    from queue import Queue as _Queue
    from queue import SimpleQueue as _SimpleQueue
else:
    # Python 3.8 has no `Queue[It]`.
    _Queue, _LifoQueue, _PriorityQueue, _SimpleQueue = (
        {It: it} for it in (_plain.Queue, _plain.LifoQueue, _plain.PriorityQueue, _plain.SimpleQueue))

    __all__ = list(_plain.__all__)

    def __getattr__(name: str) -> Any:
        return getattr(_plain, name)

    def __dir__() -> List[str]:
        return sorted({*globals(), *dir(_plain)})


class Queue(_Queue[It]):
    """A queue as `queue.Queue`. A subclass that has its own `_init`, `_put` or `_get` calls those of this class, or its
    items order nothing.

    >>> items = Queue(maxsize=2)
    >>> items.put("first")
    >>> items.get()
    'first'
    """

    all_tasks_done: _threading.Condition
    unfinished_tasks: int
    _newest_first = False

    if not TYPE_CHECKING and not hasattr(_plain.Queue, "__class_getitem__"):
        def __class_getitem__(cls, _item: Any) -> Any:
            return cls

    def put(self, item: It, block: bool = True, timeout: Optional[float] = None) -> None:
        """Puts an item. `Full` where there is no room, or none comes in time."""
        come()
        super().put(item, block, timeout)

    def get(self, block: bool = True, timeout: Optional[float] = None) -> It:
        """Takes an item. `Empty` where there is none, or none comes in time."""
        come()
        return super().get(block, timeout)

    def _init(self, maxsize: int) -> None:
        super()._init(maxsize)
        self._items_seen = Items(maxsize, self._newest_first)

    def _put(self, item: It) -> None:
        super()._put(item)
        self._items_seen.put(item)

    def _get(self) -> It:
        item = super()._get()
        self._items_seen.get(item)
        return item

    def task_done(self) -> None:
        """A task is done. `ValueError` where more are done than were put."""
        come()
        with self.all_tasks_done:
            unfinished = self.unfinished_tasks - 1
            if unfinished < 0:
                raise ValueError("task_done() called too many times")
            self._items_seen.task_done()
            if unfinished == 0:
                self.all_tasks_done.notify_all()
            self.unfinished_tasks = unfinished

    def join(self) -> None:
        """Waits until all tasks are done."""
        come()
        with self.all_tasks_done:
            while self.unfinished_tasks:
                self.all_tasks_done.wait()
            done = self._items_seen.all_done()
        take(done, "joins a queue")


class LifoQueue(Queue[It], _LifoQueue[It]):
    """A stack as `queue.LifoQueue`.

    >>> items = LifoQueue()
    >>> items.put("first"), items.put("second"), items.get()
    (None, None, 'second')
    """

    _newest_first = True


class PriorityQueue(Queue[It], _PriorityQueue[It]):
    """A queue as `queue.PriorityQueue`: the least item first.

    >>> items = PriorityQueue()
    >>> items.put(2), items.put(1), items.get()
    (None, None, 1)
    """


class SimpleQueue(_SimpleQueue[It]):
    """A queue as `queue.SimpleQueue`, but for one thing: `put` isn't one step for a finalizer or a signal that comes in
    the middle of it.

    >>> items = SimpleQueue()
    >>> items.put("first")
    >>> items.get()
    'first'
    """

    def put(self, item: It, block: bool = True, timeout: Optional[float] = None) -> None:
        """Puts an item, which never waits."""
        come()
        both: Any = (item, leave("puts an item"))
        super().put(both)

    def put_nowait(self, item: It) -> None:
        """The same."""
        self.put(item)

    def get(self, block: bool = True, timeout: Optional[float] = None) -> It:
        """Takes the item that was put first. `Empty` where there is none, or none comes in time."""
        come()
        both: Any = super().get(block, timeout)
        item: It = both[0]
        take(both[1], "gets an item")
        return item

    def get_nowait(self) -> It:
        """The same, without waiting."""
        return self.get(False)


for _it in (Queue, LifoQueue, PriorityQueue, SimpleQueue):
    _it.__module__ = __name__
del _it
