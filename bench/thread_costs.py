#!/usr/bin/env python3
"""What a watched lock and queue of Python cost, beside the standard library's: the medians of ratios of CPU time, taken
turn about. The library must have been built.

    bench/thread_costs.py [USES]     20,000 uses a measure if not given
"""
import pathlib
import queue as plain_queue
import statistics
import sys
import threading as plain_threading
import time
from collections.abc import Callable
from contextlib import AbstractContextManager
from functools import partial
from typing import Protocol

sys.path.insert(0, str(pathlib.Path(__file__).resolve().parent.parent / "bindings" / "python"))

import wullaphi  # noqa: E402
from wullaphi import queue, threading  # noqa: E402

USES = 20_000
ROUNDS = 9


class Channel(Protocol):
    def put(self, item: int) -> object: ...

    def get(self) -> object: ...


def lock(it: AbstractContextManager[object], uses: int) -> None:
    for _ in range(uses):
        with it:
            pass


def hop(it: Channel, uses: int) -> None:
    put, get = it.put, it.get
    for number in range(uses):
        put(number)
        get()


# Uses one so many times.
Use = Callable[[int], None]

# Each kind, with the use of a watched one and of a plain one.
KINDS: list[tuple[str, Use, Use]] = [
    ("Lock", partial(lock, threading.Lock()), partial(lock, plain_threading.Lock())),
    ("RLock", partial(lock, threading.RLock()), partial(lock, plain_threading.RLock())),
    ("Condition", partial(lock, threading.Condition()), partial(lock, plain_threading.Condition())),
    ("Semaphore", partial(lock, threading.Semaphore(2)), partial(lock, plain_threading.Semaphore(2))),
    ("Queue", partial(hop, queue.Queue()), partial(hop, plain_queue.Queue())),
    ("Queue(8)", partial(hop, queue.Queue(8)), partial(hop, plain_queue.Queue(8))),
    ("SimpleQueue", partial(hop, queue.SimpleQueue()), partial(hop, plain_queue.SimpleQueue())),
]


def seconds(use: Use, uses: int) -> float:
    began = time.process_time()
    use(uses)
    return time.process_time() - began


def measure(where: str, uses: int) -> None:
    """Prints a line for each kind."""
    for name, watched, plain in KINDS:
        ratios = [seconds(watched, uses) / seconds(plain, uses) for _ in range(ROUNDS)]
        print(f"{where:22} {name:12} {statistics.median(ratios):6.1f}", flush=True)


def main() -> None:
    uses = int(sys.argv[1]) if len(sys.argv) > 1 else USES
    measure("no watch", uses)
    with wullaphi.watching(["ada", "ben"]) as watch:
        measure("outside the watch", uses)
        with watch.process("ada"):
            measure("process", uses)
            with wullaphi.holding():
                measure("process that holds", uses)


if __name__ == "__main__":
    main()
