"""CPython's own tests of locks, signals and queues on the watched classes, in a watch and without one.

They are Debian's `libpython3.11-testsuite`. One of them can't pass, and isn't tried: `test_reentrancy` of the
`SimpleQueue` written in C, for whom a put is one step for a finalizer too."""

from __future__ import annotations

import unittest
from test import lock_tests, test_queue
from typing import Any

import pytest
from cpython_cases import assert_that_it_passes

import wullaphi
from wullaphi import queue, threading

# The suite of CPython, and the names by which it takes what it tests.
KINDS: dict[str, tuple[type, dict[str, Any]]] = {
    "Lock": (lock_tests.LockTests, {"locktype": staticmethod(threading.Lock)}),
    "RLock": (lock_tests.RLockTests, {"locktype": staticmethod(threading.RLock)}),
    "Condition as RLock": (lock_tests.RLockTests, {"locktype": staticmethod(threading.Condition)}),
    "Event": (lock_tests.EventTests, {"eventtype": staticmethod(threading.Event)}),
    "Condition": (lock_tests.ConditionTests, {"condtype": staticmethod(threading.Condition)}),
    "Semaphore": (lock_tests.SemaphoreTests, {"semtype": staticmethod(threading.Semaphore)}),
    "BoundedSemaphore": (lock_tests.BoundedSemaphoreTests, {"semtype": staticmethod(threading.BoundedSemaphore)}),
    "Barrier": (lock_tests.BarrierTests, {"barriertype": staticmethod(threading.Barrier)}),
    "Queue": (test_queue.QueueTest, {"queue": queue}),
    "LifoQueue": (test_queue.LifoQueueTest, {"queue": queue}),
    "PriorityQueue": (test_queue.PriorityQueueTest, {"queue": queue}),
    "FailingQueue": (test_queue.FailingQueueTest, {"queue": queue}),
    "SimpleQueue": (test_queue.BaseSimpleQueueTest, {"queue": queue, "type2test": queue.SimpleQueue}),
}
# A condition has none in the standard library either.
LEFT_OUT = {("Condition as RLock", "test_recursion_count")}


class InWatch:
    """The thread of the test is a process of a watch."""

    def setUp(self) -> None:
        case: Any = self
        watch = case.enterContext(wullaphi.watching(["main", "other"]))
        case.enterContext(watch.process("main"))
        case.of_kind.setUp(self)


def case_of(kind: str, name: str, is_watched: bool) -> unittest.TestCase:
    """A case of CPython's over the watched class."""
    suite, words = KINDS[kind]
    bases: tuple[type, ...] = (suite,) if issubclass(suite, unittest.TestCase) else (suite, unittest.TestCase)
    if is_watched:
        bases = (InWatch, *bases)
    made: Any = type(kind, bases, {**words, "of_kind": suite})
    # A suite sets the class that it tests by its own name.
    return made(name)  # type: ignore[no-any-return]


CASES = [(kind, name) for kind, (suite, _) in KINDS.items()
         for name in unittest.TestLoader().getTestCaseNames(suite) if (kind, name) not in LEFT_OUT]


@pytest.mark.parametrize("is_watched", [True, False], ids=["in a watch", "without one"])
@pytest.mark.parametrize(("kind", "name"), CASES)
def test_a_case(kind: str, name: str, is_watched: bool) -> None:
    assert_that_it_passes(lambda: case_of(kind, name, is_watched))
