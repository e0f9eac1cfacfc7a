"""The names of `asyncio`, whose tasks, locks, signals and queues the watch that is current sees: a program changes its
import.

    from wullaphi import asyncio

A task with the name of a process of the watch, `create_task(work(), name="ada")`, is that process. Between two awaits a
task runs alone, so **what it holds counts where it waits**: a block of `holding` in which nothing is awaited that waits
can't be at once with that of another task, and counts nowhere, although another task may wait in a block of its own
meanwhile, or a thread may be in one. `run` has each task of its loop watched; else those of `create_task` and
`TaskGroup` are. What goes by a future, a callback, `to_thread` or `Barrier` isn't seen. Every other name is the
standard module's own.
"""

import asyncio as _plain
import sys
from typing import TYPE_CHECKING, Any, Coroutine, Generator, List, Optional, Set, Tuple, TypeVar

from ._items import Items
from ._party import come, leave, take
from ._process import Marks
from ._task_locks import BoundedSemaphore as BoundedSemaphore
from ._task_locks import Condition as Condition
from ._task_locks import Event as Event
from ._task_locks import Lock as Lock
from ._task_locks import Semaphore as Semaphore
from ._tasks import Task as Task
from ._tasks import make_task, take_ended

It = TypeVar("It")
# A program may put those of this module in their place.
_gather, _wait, _run = _plain.gather, _plain.wait, _plain.run

if TYPE_CHECKING:
    from asyncio import ALL_COMPLETED as ALL_COMPLETED
    from asyncio import FIRST_COMPLETED as FIRST_COMPLETED
    from asyncio import FIRST_EXCEPTION as FIRST_EXCEPTION
    from asyncio import CancelledError as CancelledError
    from asyncio import Future as Future
    from asyncio import InvalidStateError as InvalidStateError
    from asyncio import LifoQueue as _LifoQueue
    from asyncio import PriorityQueue as _PriorityQueue
    from asyncio import Queue as _Queue
    from asyncio import QueueEmpty as QueueEmpty
    from asyncio import QueueFull as QueueFull
    from asyncio import TimeoutError as TimeoutError  # pylint: disable=redefined-builtin
    from asyncio import all_tasks as all_tasks
    from asyncio import as_completed as as_completed
    from asyncio import current_task as current_task
    from asyncio import ensure_future as ensure_future
    from asyncio import get_event_loop as get_event_loop
    from asyncio import get_running_loop as get_running_loop
    from asyncio import iscoroutine as iscoroutine
    from asyncio import iscoroutinefunction as iscoroutinefunction
    from asyncio import new_event_loop as new_event_loop
    from asyncio import shield as shield
    from asyncio import sleep as sleep
    from asyncio import wait_for as wait_for
else:
    # Python 3.8 has no `Queue[It]`.
    _Queue, _LifoQueue, _PriorityQueue = (
        {It: it} for it in (_plain.Queue, _plain.LifoQueue, _plain.PriorityQueue))

    __all__ = [name for name in dir(_plain) if not name.startswith("_")]

    def __dir__() -> List[str]:
        return sorted({*globals(), *dir(_plain)})


def __getattr__(name: str) -> Any:
    return getattr(_plain, name)


class Queue(_Queue[It]):
    """A queue as `asyncio.Queue`. An item's put comes before its get, in a queue of N places the k-th get before the
    (k+N)-th put, and each `task_done` before a `join` that returns.

    >>> items = Queue()
    >>> items.put_nowait("first")
    >>> items.get_nowait()
    'first'
    """

    _unfinished_tasks: int
    _newest_first = False

    if not TYPE_CHECKING and not hasattr(_plain.Queue, "__class_getitem__"):
        def __class_getitem__(cls, _item: Any) -> Any:
            return cls

    def _init(self, maxsize: int) -> None:
        super()._init(maxsize)
        self._items_seen = Items(maxsize, self._newest_first)

    def _put(self, item: It) -> None:
        super()._put(item)
        self._items_seen.put(item)

    def _get(self) -> It:
        item = super()._get()
        self._items_seen.get(item)
        return item

    def task_done(self) -> None:
        """A task is done. `ValueError` where more are done than were put."""
        if self._unfinished_tasks > 0:
            self._items_seen.task_done()
        super().task_done()

    async def join(self) -> None:
        """Waits until all tasks are done."""
        await super().join()
        take(self._items_seen.all_done(), "joins a queue")


class LifoQueue(Queue[It], _LifoQueue[It]):
    """A stack as `asyncio.LifoQueue`.

    >>> items = LifoQueue()
    >>> items.put_nowait("first"), items.put_nowait("second"), items.get_nowait()
    (None, None, 'second')
    """

    _newest_first = True


class PriorityQueue(Queue[It], _PriorityQueue[It]):
    """A queue as `asyncio.PriorityQueue`: the least item first.

    >>> items = PriorityQueue()
    >>> items.put_nowait(2), items.put_nowait(1), items.get_nowait()
    (None, None, 1)
    """


def create_task(coro: Coroutine[Any, Any, It], *, name: Optional[str] = None, **words: Any) -> "Task[It]":
    """Makes a task, as `asyncio.create_task`.

    >>> async def main():
    ...     return await create_task(_plain.sleep(0, "done"), name="ada")
    >>> run(main())
    'done'
    """
    return Task(coro, loop=_plain.get_running_loop(), name=name, **words)


def run(main: Coroutine[Any, Any, It], **words: Any) -> It:
    """Runs a coroutine to its end in a loop of its own, as `asyncio.run`. All tasks of the loop are watched.

    >>> run(_plain.sleep(0, "done"))
    'done'
    """
    come()
    begun = leave("runs a loop")
    ended: List[Marks] = []

    async def begin() -> It:
        _plain.get_running_loop().set_task_factory(make_task)
        take(begun, "knows what came before")
        try:
            return await main
        finally:
            ended.append(leave("is done"))

    try:
        return _run(begin(), **words)
    finally:
        for marks in ended:
            take(marks, "sees the end of a loop")


class _Gathering(_plain.tasks._GatheringFuture):  # type: ignore[name-defined,misc]
    """What `gather` gives: whoever awaits it learns that the tasks are done."""

    def __await__(self) -> Generator[Any, None, Any]:
        try:
            return (yield from super().__await__())
        finally:
            take_ended([it for it in self._children if isinstance(it, Task)])

    __iter__ = __await__


def gather(*coros_or_futures: Any, **words: Any) -> Any:
    """Waits for all, as `asyncio.gather`.

    >>> async def main():
    ...     return await gather(create_task(_plain.sleep(0, 1)), create_task(_plain.sleep(0, 2)))
    >>> run(main())
    [1, 2]
    """
    future: Any = _gather(*coros_or_futures, **words)
    if type(future) is _plain.tasks._GatheringFuture:  # type: ignore[attr-defined]
        future.__class__ = _Gathering
    return future


async def wait(fs: Any, **words: Any) -> Tuple[Set[Any], Set[Any]]:
    """Waits for tasks, as `asyncio.wait`; the answer is those that are done, and the others.

    >>> async def main():
    ...     done, others = await wait([create_task(_plain.sleep(0))])
    ...     return len(done), len(others)
    >>> run(main())
    (1, 0)
    """
    done, others = await _wait(fs, **words)
    take_ended(done)
    return done, others


if sys.version_info >= (3, 11):
    class TaskGroup(_plain.TaskGroup):
        """A group as `asyncio.TaskGroup`: each of its tasks ends before its block.

        >>> async def main():
        ...     async with TaskGroup() as group:
        ...         task = group.create_task(_plain.sleep(0, "done"), name="ada")
        ...     return task.result()
        >>> run(main())
        'done'
        """

        def __init__(self) -> None:
            super().__init__()
            self._made: List["Task[Any]"] = []

        def create_task(self, coro: Any, **words: Any) -> Any:
            """Makes a task of the group."""
            loop = _plain.get_running_loop()
            factory = loop.get_task_factory()
            loop.set_task_factory(make_task)
            try:
                task: Any = super().create_task(coro, **words)
            finally:
                loop.set_task_factory(factory)
            self._made.append(task)
            return task

        async def __aexit__(self, *words: Any) -> None:
            try:
                await super().__aexit__(*words)
            finally:
                take_ended(self._made)


for _it in (Lock, Condition, Event, Semaphore, BoundedSemaphore, Task, Queue, LifoQueue, PriorityQueue):
    _it.__module__ = __name__
del _it
