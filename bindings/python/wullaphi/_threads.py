"""Threads that are processes of the current watch, and those outside it."""

import threading as _plain
from typing import Callable, Optional

from . import _party
from ._party import Outsider, come, leave, take
from ._process import NONE, Marks, Process


class Thread(_plain.Thread):
    """A thread as `threading.Thread`. `start` comes before all that it does, and that before a `join` that returns with
    the thread ended, and before `is_alive()` that is false.

    A thread that is started while a watch is current, with the name of one of its processes, is that process until it
    ends; `start` is a `RuntimeError` where that process has begun already.

    >>> thread = Thread(target=print, args=("hello",), name="ada")
    >>> thread.start(), thread.join()
    hello
    (None, None)
    """

    _begun: Marks = NONE
    _ended: Marks = NONE

    def start(self) -> None:
        """Starts the thread, as the plain one's."""
        come()
        watch = _party.current
        if watch is None or self.ident is not None:
            super().start()
            return
        process = watch.begin(self.name)
        self._begun = leave("starts a thread")
        run, number = self.run, watch.number

        def run_watched() -> None:
            self._run_as(process or Outsider(number), run)

        vars(self)["run"] = run_watched
        try:
            super().start()
        except BaseException:
            del vars(self)["run"]
            if process is not None:
                process.end()
            raise

    def _run_as(self, who: _party.Party, run: Callable[[], None]) -> None:
        _party.of_thread.party = who
        who.take(self._begun, "knows what came before")
        try:
            run()
        finally:
            self._ended = who.end() if isinstance(who, Process) else who.leave("")
            _party.of_thread.party = None
            del vars(self)["run"]

    def join(self, timeout: Optional[float] = None) -> None:
        """Waits until the thread has ended, or as many seconds."""
        come()
        super().join(timeout)
        self._look()

    def is_alive(self) -> bool:
        """Whether the thread runs."""
        come()
        return self._look()

    def _look(self) -> bool:
        alive = super().is_alive()
        if not alive:
            take(self._ended, "sees the end of a thread")
        return alive


class Timer(Thread, _plain.Timer):
    """A timer as `threading.Timer`, with the orders of `Thread`.

    >>> timer = Timer(0.001, print, ["hello"])
    >>> timer.start(), timer.join()
    hello
    (None, None)
    """
