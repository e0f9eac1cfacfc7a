"""CPython's own tests of the locks, queues and groups of tasks on the watched classes. They are Debian's
`libpython3.11-testsuite`."""

from __future__ import annotations

import asyncio
import unittest
from test.test_asyncio import test_locks, test_queues, test_taskgroups
from typing import Iterator

import pytest
from cpython_cases import assert_that_it_passes

from wullaphi import asyncio as watched

NAMES = ["Lock", "Event", "Condition", "Semaphore", "BoundedSemaphore", "Queue", "LifoQueue", "PriorityQueue",
         "TaskGroup", "create_task", "gather", "wait"]


def cases_of(suite: unittest.TestSuite) -> Iterator[unittest.TestCase]:
    """The cases of a suite, one by one."""
    for it in suite:
        if isinstance(it, unittest.TestSuite):
            yield from cases_of(it)
        else:
            yield it


CASES = [case for module in (test_locks, test_queues, test_taskgroups)
         for case in cases_of(unittest.defaultTestLoader.loadTestsFromModule(module))]


@pytest.mark.parametrize("case", CASES, ids=[case.id().partition("test_asyncio.")[2] for case in CASES])
def test_a_case(case: unittest.TestCase, monkeypatch: pytest.MonkeyPatch) -> None:
    for name in NAMES:
        monkeypatch.setattr(asyncio, name, getattr(watched, name))
    assert_that_it_passes(lambda: type(case)(case._testMethodName))
