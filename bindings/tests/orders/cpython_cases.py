"""How a case of CPython's is tried."""

from __future__ import annotations

import unittest
from typing import Callable

import pytest

# Some want to be in time, and aren't where the machine has other work.
TRIES = 10


def assert_that_it_passes(case: Callable[[], unittest.TestCase]) -> None:
    """A case passes that has in one of its tries."""
    for _ in range(TRIES):
        result = unittest.TestResult()
        case().run(result)
        wrong = [text for _, text in result.failures + result.errors]
        if result.skipped:
            pytest.skip(result.skipped[0][1])
        if not wrong:
            return
    pytest.fail("\n".join(wrong))
