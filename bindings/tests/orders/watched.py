"""What the tests of watched threads share: threads that are run to their end in a watch."""

from __future__ import annotations

import random
import threading as plain
import time
from typing import Callable, Sequence

import wullaphi
from wullaphi import threading
from wullaphi._watching import Watching

# A run that takes longer has hung.
SECONDS = 600

Body = Callable[[], object]


def nap(most: float = 0.0005) -> None:
    """Sleeps for a random time."""
    time.sleep(random.random() * most)


def hold(label: str = "") -> None:
    """Holds for a moment."""
    with wullaphi.holding(label):
        if random.random() < 0.3:
            nap()


def start_all(threads: Sequence[plain.Thread]) -> None:
    """Starts the threads and waits for their ends."""
    for thread in threads:
        thread.start()
    for thread in threads:
        thread.join(SECONDS)
        if thread.is_alive():
            raise RuntimeError(f"{thread.name} hangs")


def watch_of(names: Sequence[str], *bodies: Body, pairs: bool = False, logs: bool = False) -> Watching:
    """The watch in which threads of these names ran these bodies."""
    with wullaphi.watching(names, pairs=pairs, logs=logs) as watch:
        start_all([threading.Thread(target=body, name=name) for name, body in zip(names, bodies)])
    return watch


def known(names: Sequence[str], *bodies: Body) -> str:
    """What is known of such threads."""
    return watch_of(names, *bodies).report().known


def known_of(one: str, other: str, names: Sequence[str], *bodies: Body) -> str:
    """What is known of two among such threads."""
    return watch_of(names, *bodies, pairs=True).report({one, other}).known
