"""What a user may do wrong, with what is told of it; and locks that are made wrong, which the programs of this test
tell from the right ones."""

from __future__ import annotations

import logging
import queue as plain_queue
import threading as plain
import time
from typing import Any, Callable

import pytest
from watched import hold, known, watch_of

import wullaphi
from wullaphi import queue, threading
from wullaphi._party import leave, party, take

RUNS = 30
NAMES = ["ada", "ben"]


def told(case: Callable[[], str]) -> set[str]:
    """What is known in each of some runs."""
    return {case() for _ in range(RUNS)}


def inside_out() -> str:
    """`with holding(), lock` holds before the lock is got."""
    lock, both = threading.Lock(), plain.Barrier(2)

    def work() -> None:
        both.wait()
        with wullaphi.holding(), lock:
            time.sleep(0.0005)
    return known(NAMES, work, work)


def right_way() -> str:
    lock, both = threading.Lock(), plain.Barrier(2)

    def work() -> None:
        both.wait()
        with lock, wullaphi.holding():
            time.sleep(0.0005)
    return known(NAMES, work, work)


def plain_queue_in_a_module() -> str:
    items: plain_queue.Queue[int] = plain_queue.Queue()

    def ada() -> None:
        hold()
        items.put(1)

    def ben() -> None:
        items.get()
        hold()
    return known(NAMES, ada, ben)


def lock_of_a_library() -> str:
    """The lock of a handler of `logging` is the standard library's."""
    handler = logging.Handler()

    def work() -> None:
        handler.acquire()
        hold()
        handler.release()
    return known(NAMES, work, work)


def flag_in_a_list() -> str:
    flag: list[int] = []

    def ada() -> None:
        hold()
        flag.append(1)

    def ben() -> None:
        while not flag:
            time.sleep(0)
        hold()
    return known(NAMES, ada, ben)


def sleep() -> str:
    def ben() -> None:
        time.sleep(0.002)
        hold()
    return known(NAMES, hold, ben)


def order_of_this_run() -> str:
    """ada holds before she has the lock, and ben once he had it: the lock came to ada first in this run, and in another
    they could be at once."""
    lock, step = threading.Lock(), plain.Event()

    def ada() -> None:
        hold()
        with lock:
            pass
        step.set()

    def ben() -> None:
        step.wait()
        with lock:
            pass
        hold()
    return known(NAMES, ada, ben)


class TakesEarly(threading.Lock):
    """Takes the mark before it is got, so that the last release is missing."""

    def acquire(self, blocking: bool = True, timeout: float = -1) -> bool:
        take(self._marks, "acquires a lock")
        return self._lock.acquire(blocking, timeout)

    __enter__ = acquire


class LeavesLate(threading.Lock):
    """Lets go before the mark is left."""

    def release(self) -> None:
        self._lock.release()
        time.sleep(0.001)
        self._marks = leave("releases a lock")


class LeavesNothing(threading.Lock):
    """Forgets the mark."""

    def release(self) -> None:
        self._lock.release()


class TakesNothing(queue.Queue[int]):
    """Forgets the mark of the item."""

    def _get(self) -> int:
        return plain_queue.Queue._get(self)


class HasNoRooms(queue.Queue[int]):
    """Forgets that a place must be left before it is taken again."""

    def _init(self, maxsize: int) -> None:
        super()._init(0)


def under(kind: Callable[..., Any]) -> str:
    """ben waits for the lock while ada holds."""
    lock, ada_in = kind(), plain.Event()

    def ada() -> None:
        with lock, wullaphi.holding():
            ada_in.set()
            time.sleep(0.0005)

    def ben() -> None:
        ada_in.wait()
        with lock, wullaphi.holding():
            pass
    return known(NAMES, ada, ben)


def passed(kind: Callable[..., Any]) -> str:
    items = kind()

    def ada() -> None:
        hold()
        items.put(1)

    def ben() -> None:
        items.get()
        hold()
    return known(NAMES, ada, ben)


def needs_room(kind: Callable[..., Any]) -> str:
    items = kind(1)
    items.put(0)

    def ada() -> None:
        items.put(1)
        hold()

    def ben() -> None:
        hold()
        items.get()
        items.get()
    return known(NAMES, ada, ben)


def inner_lock(lasts: bool) -> str:
    """Both hold at once by the clock, and use a lock within: ben before he holds, and ada while she does."""
    lock, both, used = threading.Lock(), plain.Barrier(2), plain.Event()

    def ada() -> None:
        with wullaphi.holding():
            if not lasts:
                process: Any = party()
                process._held.clear()
            both.wait()
            with lock:
                pass
            used.set()
            both.wait()

    def ben() -> None:
        both.wait()
        used.wait()
        with lock:
            pass
        with wullaphi.holding():
            both.wait()
    return watch_of(NAMES, ada, ben).report().known


def test_the_wrong_way_round_about_a_lock() -> None:
    assert told(inside_out) == {"found"}


def test_the_right_way() -> None:
    assert told(right_way) == {"nothing"}


@pytest.mark.parametrize("case", [plain_queue_in_a_module, lock_of_a_library, flag_in_a_list, sleep])
def test_an_order_that_is_not_seen(case: Callable[[], str]) -> None:
    assert told(case) == {"found"}


def test_an_order_of_this_run_alone() -> None:
    assert told(order_of_this_run) == {"nothing"}


@pytest.mark.parametrize(("case", "kind"), [(under, threading.Lock), (passed, queue.Queue), (needs_room, queue.Queue)])
def test_a_right_design(case: Callable[[Any], str], kind: Any) -> None:
    assert told(lambda: case(kind)) == {"nothing"}


@pytest.mark.parametrize(("case", "kind"), [
    (under, TakesEarly), (under, LeavesLate), (under, LeavesNothing), (passed, TakesNothing), (needs_room, HasNoRooms)])
def test_a_wrong_design(case: Callable[[Any], str], kind: Any) -> None:
    """The case tells it from the right one."""
    assert "found" in told(lambda: case(kind))


def test_that_a_condition_lasts_over_an_inner_lock() -> None:
    assert told(lambda: inner_lock(True)) == {"found"}


def test_a_condition_that_does_not_last() -> None:
    assert told(lambda: inner_lock(False)) == {"nothing"}
