"""The names of `concurrent.futures`, whose pool of threads the watch that is current sees: a program changes its
import.

    from wullaphi import futures

`submit` comes before the job, and the job before whoever learns that it is done: by `result`, `exception`, `done`,
`wait`, `as_completed`, `map`, a callback, or the end of the pool. That two jobs ran on one thread, one after another,
orders nothing: they could have run at once. A job is a process of the watch within `watch.process(name)`. Every other
name is the standard module's own.
"""

import concurrent.futures as _plain
import threading as _threading
from typing import TYPE_CHECKING, Any, Callable, Dict, Iterable, Iterator, List, Optional, TypeVar, cast

from . import _party
from ._party import Outsider, come, leave, take
from ._process import NONE, Mark, Marks, Process

It = TypeVar("It")

if TYPE_CHECKING:
    from concurrent.futures import ALL_COMPLETED as ALL_COMPLETED
    from concurrent.futures import FIRST_COMPLETED as FIRST_COMPLETED
    from concurrent.futures import FIRST_EXCEPTION as FIRST_EXCEPTION
    from concurrent.futures import BrokenExecutor as BrokenExecutor
    from concurrent.futures import CancelledError as CancelledError
    from concurrent.futures import Executor as Executor
    from concurrent.futures import InvalidStateError as InvalidStateError
    from concurrent.futures import ProcessPoolExecutor as ProcessPoolExecutor
    from concurrent.futures import TimeoutError as TimeoutError  # pylint: disable=redefined-builtin
    from concurrent.futures import Future as _Future
    from concurrent.futures._base import DoneAndNotDoneFutures as _Both
else:
    # Python 3.8 has no `Future[It]`.
    _Future = {It: _plain.Future}

    __all__ = list(_plain.__all__)

    def __getattr__(name: str) -> Any:
        return getattr(_plain, name)

    def __dir__() -> List[str]:
        return sorted({*globals(), *dir(_plain)})


class _End:
    """What a job leaves as it ends."""

    marks: Marks = NONE


class Future(_Future[It]):
    """A future as `concurrent.futures.Future`, of a job of a pool.

    >>> with ThreadPoolExecutor() as pool:
    ...     future = pool.submit(int, "7")
    >>> future.done(), future.exception()
    (True, None)
    """

    _end = _End()

    def result(self, timeout: Optional[float] = None) -> It:
        """Waits for the job's answer."""
        come()
        try:
            return super().result(timeout)
        finally:
            self._look()

    def exception(self, timeout: Optional[float] = None) -> Optional[BaseException]:
        """Waits for the job, and answers with what it raised."""
        come()
        try:
            return super().exception(timeout)
        finally:
            self._look()

    def done(self) -> bool:
        """Whether the job is done, or was cancelled."""
        come()
        return self._look()

    def _look(self) -> bool:
        is_done = super().done()
        if is_done:
            take(self._end.marks, "sees the end of a job")
        return is_done

    def add_done_callback(self, fn: "Callable[[_plain.Future[It]], Any]") -> None:
        """The function is called once the job is done, by the thread that did it, or at once."""
        def call(future: "_plain.Future[It]") -> None:
            self._look()
            fn(future)

        come()
        super().add_done_callback(call)


class ThreadPoolExecutor(_plain.ThreadPoolExecutor):
    """A pool as `concurrent.futures.ThreadPoolExecutor`.

    >>> with ThreadPoolExecutor(2) as pool:
    ...     pool.submit(int, "7").result()
    7
    """

    def __init__(self, *words: Any, **named: Any) -> None:
        super().__init__(*words, **named)
        # The newest mark of each process that the jobs left.
        self._ended: Dict[int, Mark] = {}
        self._ended_lock = _threading.Lock()

    def submit(self, fn: Callable[..., It], /, *args: Any, **kwargs: Any) -> "Future[It]":
        """Has a thread of the pool call the function; the answer is its future."""
        come()
        begun, end = leave("submits a job"), _End()

        def job() -> It:
            # What the pool calls next on this thread, as callbacks, goes on as this job; the next one is another.
            who = _party.of_thread.party
            if not isinstance(who, Process) or who.number != _party.number:
                _party.of_thread.party = Outsider(_party.number)
            take(begun, "begins a job")
            try:
                return fn(*args, **kwargs)
            finally:
                end.marks = leave("ends a job")
                self._add(end.marks)

        future: Any = super().submit(job)
        future.__class__ = Future
        future._end = end
        return cast("Future[It]", future)

    def _add(self, marks: Marks) -> None:
        with self._ended_lock:
            for mark in marks:
                before = self._ended.get(mark.sender)
                if before is None or before.watch != mark.watch or before.events < mark.events:
                    self._ended[mark.sender] = mark

    def shutdown(self, wait: bool = True, **named: Any) -> None:  # pylint: disable=arguments-differ
        """Ends the pool: with `wait` once all jobs are done."""
        come()
        super().shutdown(wait, **named)
        if wait:
            with self._ended_lock:
                ended = tuple(self._ended.values())
            take(ended, "sees the end of a pool")


def wait(fs: "Iterable[_plain.Future[It]]", timeout: Optional[float] = None,
         return_when: str = "ALL_COMPLETED") -> "_Both[It]":
    """Waits for the futures; the answer is those that are done, and the others.

    >>> with ThreadPoolExecutor() as pool:
    ...     done, others = wait([pool.submit(int, "7")])
    >>> len(done), len(others)
    (1, 0)
    """
    come()
    both = _plain.wait(fs, timeout, return_when)
    for future in both.done:
        _look_at(future)
    return both


def _look_at(future: "_plain.Future[It]") -> None:
    """The caller learns that the job is done."""
    if isinstance(future, Future):
        future._look()


def as_completed(fs: "Iterable[_plain.Future[It]]",
                 timeout: Optional[float] = None) -> "Iterator[_plain.Future[It]]":
    """Gives each future as it is done.

    >>> with ThreadPoolExecutor() as pool:
    ...     [future.result() for future in as_completed([pool.submit(int, "7")])]
    [7]
    """
    come()
    for future in _plain.as_completed(fs, timeout):
        _look_at(future)
        yield future


for _it in (Future, ThreadPoolExecutor, wait, as_completed):
    _it.__module__ = __name__
del _it
