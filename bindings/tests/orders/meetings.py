"""What the tests of meetings share: threads that run in a watch, to meet."""

from __future__ import annotations

import time
from typing import Callable, Optional, Sequence

from watched import SECONDS, Body, start_all

import wullaphi
from wullaphi import Meeting, threading

NAMES = ["ada", "ben"]
# Nobody waits for so long, but where the test hangs.
LONG = 2.0 * SECONDS
# So long one waits in vain.
SHORT = 0.005


def run(meeting: Optional[Meeting], *bodies: Body, names: Sequence[str] = tuple(NAMES)) -> wullaphi.Outcome:
    """What is told of threads of these names, which meet there."""
    with wullaphi.watching(names, meeting=meeting) as watch:
        start_all([threading.Thread(target=body, name=name) for name, body in zip(names, bodies)])
    return watch.report()


def hold() -> None:
    with wullaphi.holding("holds"):
        pass


def until(holds: Callable[[], object]) -> None:
    """Waits until this holds."""
    end = time.monotonic() + SECONDS
    while not holds():
        assert time.monotonic() < end, "it doesn't come to this"
        time.sleep(0.001)
