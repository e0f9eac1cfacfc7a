"""Moments that could have been, which an order too much would hide: they are found in each run. Each case is tried with
designs that order too much too, which must hide it."""

from __future__ import annotations

import concurrent.futures
import inspect
import queue as plain_queue
import threading as plain
import time
import types
from typing import Any, Callable

import pytest
from watched import hold, known, known_of

import wullaphi
from wullaphi import futures, queue, threading
from wullaphi._party import leave, take

RUNS = 100
NAMES = ["ada", "ben", "cyd"]


def over_watched_locks(module: types.ModuleType) -> Any:
    """The standard library's source, over watched locks in the place of plain ones."""
    copy = types.ModuleType("copied")
    exec(compile(inspect.getsource(module), "copied", "exec"), vars(copy))  # pylint: disable=exec-used
    vars(copy)["threading"] = threading
    return copy


class MutexQueue(over_watched_locks(plain_queue).Queue):  # type: ignore[misc]
    """Its mutex orders those who put."""


class SemaphoreOverLock(plain.Semaphore):
    """Its lock orders those who come in."""

    def __init__(self, value: int = 1) -> None:
        super().__init__(value)
        self._cond = threading.Condition(threading.Lock())


class AllReleases(plain.Semaphore):
    """Each release comes before each later acquire."""

    def __init__(self, value: int = 1) -> None:
        super().__init__(value)
        self._marks: Any = ()

    def release(self, n: int = 1) -> None:
        self._marks += leave("releases a semaphore")
        super().release()

    def acquire(self, blocking: bool = True, timeout: float | None = None) -> bool:
        is_got = super().acquire(blocking, timeout)
        take(self._marks, "acquires a semaphore")
        return is_got

    __enter__ = acquire

    def __exit__(self, *_: object) -> None:
        self.release()


class LastSet(threading.Event):
    """Each `set` leaves a mark, also where the event is set."""

    def set(self) -> None:
        with self._cond:
            self._marks, self._flag = leave("sets an event"), True
            self._cond.notify_all()


class MarksAtWaking(threading.Event):
    """Whoever waited takes what the last `set` left, which may not be the one that let it go."""

    def wait(self, timeout: float | None = None) -> bool:
        with self._cond:
            signaled = self._flag or self._cond.wait(timeout)
            marks = self._marks
        take(marks, "sees an event")
        return signaled


class LeavesIfRefused(threading.BoundedSemaphore):
    """A release that is refused leaves its mark all the same."""

    def release(self, n: int = 1) -> None:
        self._tokens.appendleft(leave("releases a semaphore"))
        super().release(n)


class KeepsArrived(threading.Barrier):
    """Those who come to it take what others left before it was broken."""

    def _break(self) -> None:
        arrived = self._arrived
        super()._break()
        self._arrived = arrived

    def reset(self) -> None:
        arrived = self._arrived
        super().reset()
        self._arrived = arrived


def two_put(kind: Any) -> str:
    """ada is busy before her put, and ben after his: nothing keeps them apart."""
    items, step = kind(), plain.Event()

    def ada() -> None:
        hold()
        items.put(1)
        step.set()

    def ben() -> None:
        step.wait()
        items.put(2)
        hold()
    return known(NAMES[:2], ada, ben)


def two_get(kind: Any) -> str:
    """The same of two who get."""
    items, step = kind(), plain.Event()
    items.put(1)
    items.put(2)

    def ada() -> None:
        hold()
        items.get()
        step.set()

    def ben() -> None:
        step.wait()
        items.get()
        hold()
    return known(NAMES[:2], ada, ben)


def equal_items(kind: Any) -> str:
    """ben takes the item that cyd put, which is the same object as ada's: he knows nothing of hers."""
    items, first, second = kind(), plain.Event(), plain.Event()

    def ada() -> None:
        hold()
        items.put(7)
        first.set()

    def cyd() -> None:
        first.wait()
        items.put(7)
        second.set()

    def ben() -> None:
        second.wait()
        items.get()
        hold()
    return known_of("ada", "ben", NAMES, ada, ben, cyd)


def three_at_two(kind: Any) -> str:
    """Three workers and two places. ada and ben are in; ada goes, ben goes, and cyd comes: he could have come while ben
    was in."""
    places, ada_in, ben_in, ada_out, ben_out = kind(2), *(plain.Event() for _ in range(4))

    def ada() -> None:
        with places:
            ada_in.set()
            ben_in.wait()
            hold()
        ada_out.set()

    def ben() -> None:
        ada_in.wait()
        with places:
            ben_in.set()
            ada_out.wait()
            hold()
        ben_out.set()

    def cyd() -> None:
        ben_out.wait()
        with places:
            hold()
    return known_of("ben", "cyd", NAMES, ada, ben, cyd)


def before_and_in(kind: Any) -> str:
    """Two workers and two places: one is busy before he comes in, and one within."""
    places, step = kind(2), plain.Event()

    def ada() -> None:
        hold()
        with places:
            pass
        step.set()

    def ben() -> None:
        step.wait()
        with places:
            hold()
    return known(NAMES[:2], ada, ben)


def second_set(kind: Any) -> str:
    """ada has set the event already: ben's set isn't what cyd waits for."""
    event, is_set, is_set_again = kind(), plain.Event(), plain.Event()

    def ada() -> None:
        event.set()
        is_set.set()

    def ben() -> None:
        is_set.wait()
        hold()
        event.set()
        is_set_again.set()

    def cyd() -> None:
        is_set_again.wait()
        event.wait()
        hold()
    return known_of("ben", "cyd", NAMES, ada, ben, cyd)


def set_and_cleared(kind: Any) -> str:
    """ada's `set` lets cyd go. Before he runs, ben clears the event and sets it anew."""
    event, is_set, is_set_again = kind(), plain.Event(), plain.Event()
    wait = event._cond.wait

    def wait_long(timeout: float | None = None) -> bool:
        signaled: bool = wait(timeout)
        event._cond.release()
        is_set_again.wait()
        event._cond.acquire()
        return signaled
    event._cond.wait = wait_long

    def ada() -> None:
        while not event._cond._waiters:
            time.sleep(0)
        event.set()
        is_set.set()

    def ben() -> None:
        is_set.wait()
        hold()
        event.clear()
        event.set()
        is_set_again.set()

    def cyd() -> None:
        event.wait()
        hold()
    return known_of("ben", "cyd", NAMES, ada, ben, cyd)


def refused_release(kind: Any) -> str:
    """ada gives back a place that nobody has, which is refused: ben needs nothing of hers."""
    place, step = kind(1), plain.Event()

    def ada() -> None:
        hold()
        try:
            place.release()
        except ValueError:
            step.set()

    def ben() -> None:
        step.wait()
        with place:
            hold()
    return known(NAMES[:2], ada, ben)


def broken_barrier(kind: Any) -> str:
    """ada's time is up at a barrier of two, which ben and cyd pass later."""
    barrier, step = kind(2), plain.Event()

    def ada() -> None:
        hold()
        try:
            barrier.wait(0.0001)
        except threading.BrokenBarrierError:
            barrier.reset()
            step.set()

    def passes() -> None:
        step.wait()
        barrier.wait()
        hold()
    return known_of("ada", "ben", NAMES, ada, passes, passes)


def two_jobs(kind: Any) -> str:
    """Two jobs of a pool of one thread could have run at once in a larger one."""
    with wullaphi.watching(["ada", "ben"]) as watch:
        def job(name: str) -> None:
            with watch.process(name):
                hold()

        with kind(1) as pool:
            for future in [pool.submit(job, name) for name in watch.names]:
                future.result()
    return watch.report().known


QUEUES = [queue.Queue, queue.LifoQueue, queue.PriorityQueue, queue.SimpleQueue]
SEMAPHORES = [threading.Semaphore, threading.BoundedSemaphore]

# The case, the designs of this package, and those that order too much.
CASES: list[tuple[Callable[[Any], str], list[Any], list[Any]]] = [
    (two_put, QUEUES, [MutexQueue]),
    (two_get, QUEUES, [MutexQueue]),
    (equal_items, [queue.LifoQueue], [MutexQueue]),
    (three_at_two, SEMAPHORES, [SemaphoreOverLock, AllReleases]),
    (before_and_in, SEMAPHORES, [SemaphoreOverLock, AllReleases]),
    (second_set, [threading.Event], [LastSet]),
    (set_and_cleared, [threading.Event], [MarksAtWaking]),
    (refused_release, [threading.BoundedSemaphore], [LeavesIfRefused]),
    (broken_barrier, [threading.Barrier], [KeepsArrived]),
    (two_jobs, [futures.ThreadPoolExecutor], [concurrent.futures.ThreadPoolExecutor]),
]


@pytest.mark.parametrize(("case", "design"), [(case, design) for case, ours, _ in CASES for design in ours])
def test_that_it_is_found(case: Callable[[Any], str], design: Any) -> None:
    assert {case(design) for _ in range(RUNS)} == {"found"}


@pytest.mark.parametrize(("case", "design"), [(case, design) for case, _, wrong in CASES for design in wrong])
def test_that_an_order_too_much_hides_it(case: Callable[[Any], str], design: Any) -> None:
    assert {case(design) for _ in range(RUNS)} == {"nothing"}
