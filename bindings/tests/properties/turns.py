"""Threads that take turns: one runs at a time, and who goes on is chosen at each lock and wherever a thread asks. So an
order of threads is an example like any other, and fails the same way each time."""

import threading
from typing import Any, Callable, List, Optional

SECONDS = 60


class Lock:
    """A lock that a thread may take several times. Whoever waits for it gives its turn away."""

    def __init__(self, turns: "Turns") -> None:
        self._turns = turns
        self.owner: Optional[int] = None
        self._depth = 0

    def __enter__(self) -> None:
        me = self._turns.current
        if self.owner != me:
            self._turns.give(until=lambda: self.owner is None)
        self.owner, self._depth = me, self._depth + 1

    def __exit__(self, *_: Any) -> None:
        self._depth -= 1
        if self._depth == 0:
            self.owner = None
            self._turns.give()


class Turns:
    """Runs threads, of which `choose` says who is next, of those that can go on."""

    def __init__(self, choose: Callable[[List[int]], int]) -> None:
        self._choose = choose
        self.current = 0
        self._gates: List[threading.Semaphore] = []
        self._until: List[Optional[Callable[[], bool]]] = []
        self._errors: List[BaseException] = []
        self._main = threading.Semaphore(0)

    def lock(self) -> Any:
        """A new lock."""
        return Lock(self)

    def give(self, until: Callable[[], bool] = lambda: True) -> None:
        """Whoever calls waits for its next turn, which comes once this holds."""
        if self._gates:
            me = self.current
            self._until[me] = until
            self._main.release()
            assert self._gates[me].acquire(timeout=SECONDS)

    def run(self, works: List[Callable[[], None]]) -> None:
        """Runs this work, each in a thread, to its end."""
        self._gates = [threading.Semaphore(0) for _ in works]
        self._until = [lambda: True for _ in works]
        threads = [threading.Thread(target=self._work, args=(at, work)) for at, work in enumerate(works)]
        for thread in threads:
            thread.start()
        while waiting := [at for at, until in enumerate(self._until) if until is not None and until()]:
            self.current = self._choose(waiting) if len(waiting) > 1 else waiting[0]
            self._gates[self.current].release()
            assert self._main.acquire(timeout=SECONDS)
        for thread in threads:
            thread.join(SECONDS)
        self._gates = []
        if self._errors:
            raise self._errors[0]

    def _work(self, at: int, work: Callable[[], None]) -> None:
        assert self._gates[at].acquire(timeout=SECONDS)
        try:
            work()
        except BaseException as error:  # pylint: disable=broad-exception-caught
            self._errors.append(error)
        self._until[at] = None
        self._main.release()
