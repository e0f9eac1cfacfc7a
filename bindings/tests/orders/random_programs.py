"""Random programs over all kinds of watched things."""

from __future__ import annotations

import random
import threading as plain
import time
from typing import Any, Callable

from watched import start_all

import wullaphi
from wullaphi import queue, threading
from wullaphi._watching import Watching

NAMES = ["ada", "ben", "cyd"]
STEPS = 12
DEEPEST = 3


class AtOnce:
    """Who held at once by the clock."""

    def __init__(self) -> None:
        self._guard = plain.Lock()
        self._who: set[str] = set()
        self.pairs: set[frozenset[str]] = set()

    def __call__(self, name: str, holds: bool) -> None:
        with self._guard:
            if holds:
                self.pairs |= {frozenset((name, other)) for other in self._who}
                self._who.add(name)
            else:
                self._who.discard(name)


class Things:
    """What the threads of a program share."""

    def __init__(self, rng: random.Random) -> None:
        self.locks = [threading.Lock(), threading.RLock(), threading.Lock()]
        self.condition = threading.Condition()
        self.places = threading.Semaphore(rng.choice([1, 2, 3]))
        self.event = threading.Event()
        self.barrier = threading.Barrier(len(NAMES))
        self.queues: list[Any] = [queue.Queue(), queue.Queue(2), queue.LifoQueue(2), queue.PriorityQueue(),
                                  queue.SimpleQueue()]


class Worker:
    """A thread that makes random steps."""

    def __init__(self, name: str, things: Things, at_once: AtOnce, seed: float) -> None:
        self.name = name
        self.things = things
        self.at_once = at_once
        self.rng = random.Random(seed)
        self.holds = False

    def run(self) -> None:
        for _ in range(STEPS):
            self.step(0)

    def step(self, depth: int) -> None:
        if depth <= DEEPEST:
            self.rng.choice([self.hold, self.hold, self.lock, self.place, self.event, self.wait, self.condition,
                             self.put, self.get, self.barrier, self.sleep])(depth)

    def hold(self, depth: int) -> None:
        if self.holds:
            return
        self.holds = True
        with wullaphi.holding():
            self.at_once(self.name, True)
            for _ in range(self.rng.randrange(3)):
                self.step(depth + 1)
            self.at_once(self.name, False)
        self.holds = False

    def lock(self, depth: int) -> None:
        it: Any = self.rng.choice(self.things.locks)
        if it.acquire(timeout=0.002):
            self.step(depth + 1)
            it.release()

    def place(self, depth: int) -> None:
        if self.things.places.acquire(timeout=0.002):
            self.step(depth + 1)
            self.things.places.release()

    def event(self, _depth: int) -> None:
        self.rng.choice([self.things.event.set, self.things.event.clear])()

    def wait(self, _depth: int) -> None:
        self.things.event.wait(0.001)

    def condition(self, _depth: int) -> None:
        it = self.things.condition
        actions: list[Callable[[], object]] = [it.notify, it.notify_all, lambda: it.wait(0.001)]
        if it.acquire(timeout=0.002):
            self.rng.choice(actions)()
            it.release()

    def put(self, _depth: int) -> None:
        try:
            self.rng.choice(self.things.queues).put(self.rng.randrange(3), timeout=0.001)
        except queue.Full:
            pass

    def get(self, _depth: int) -> None:
        it = self.rng.choice(self.things.queues)
        # CPython 3.11 may wait for ever in `SimpleQueue.get` with a time, where two take.
        words: dict[str, Any] = {"block": False} if isinstance(it, queue.SimpleQueue) else {"timeout": 0.001}
        try:
            it.get(**words)
        except queue.Empty:
            pass

    def barrier(self, _depth: int) -> None:
        try:
            self.things.barrier.wait(0.002)
        except threading.BrokenBarrierError:
            self.things.barrier.reset()

    def sleep(self, _depth: int) -> None:
        time.sleep(self.rng.random() * 0.0003)


def program(seed: int, logs: bool = False) -> tuple[set[frozenset[str]], Watching]:
    """The pairs that held at once by the clock, and the watch of the program."""
    rng = random.Random(seed)
    things, at_once = Things(rng), AtOnce()
    with wullaphi.watching(NAMES, pairs=True, logs=logs) as watch:
        workers = [Worker(name, things, at_once, rng.random()) for name in NAMES]
        start_all([threading.Thread(target=worker.run, name=worker.name) for worker in workers])
    return at_once.pairs, watch


def known_of(watch: Watching) -> dict[frozenset[str], str]:
    """What is known of each pair."""
    return {frozenset(pair): report.known for pair, report in watch.reports().items()}
