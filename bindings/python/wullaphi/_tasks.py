"""Tasks that are processes of the current watch, and those outside it.

Between two awaits a task runs alone: two that hold there can't be at once. So what a task holds counts where the task
waits, and each step of its coroutine says where that is.
"""

import asyncio as _plain
import collections.abc
import weakref
from asyncio import events as _events
from typing import TYPE_CHECKING, Any, Callable, Coroutine, Generator, Optional, Tuple, TypeVar

from . import _party
from ._held_back import HeldBack
from ._party import Outsider, Party, leave, take
from ._process import NONE, Marks, Process

It = TypeVar("It")

if TYPE_CHECKING:
    from asyncio import Task as _Task
    _Of = weakref.WeakKeyDictionary[_plain.Task[Any], Party]
else:
    # Python 3.8 has no `Task[It]`.
    _Task = {It: _plain.Task}

_of: "_Of" = weakref.WeakKeyDictionary()


def _of_task() -> Optional[Party]:
    """Who the task is that runs. It isn't kept in a variable of its context, which tasks inherit."""
    if _events._get_running_loop() is None:
        return None
    task = _plain.current_task()
    return None if task is None else _party_of(task)


def _party_of(task: "_plain.Task[Any]") -> Party:
    who = _of.get(task)
    if who is None or who.number != _party.number:
        who = _of[task] = Outsider(_party.number, task.get_name())
    return who


_party.of_task = _of_task


class _Steps(collections.abc.Coroutine):  # type: ignore[type-arg]
    """The steps of a task's coroutine: its begin, where it waits, and its end."""

    def __init__(self, coroutine: Coroutine[Any, Any, Any]) -> None:
        self.coroutine = coroutine
        self.task: Any = None
        self.ended: Marks = NONE
        self._begun = leave("makes a task")
        self._has_begun = False
        self._held_back: Optional[HeldBack] = None

    def _begin(self) -> None:
        """The task's first step: it is the process of its name."""
        self._has_begun = True
        watch = _party.current
        try:
            process = None if watch is None else watch.begin(self.task.get_name())
        except RuntimeError:
            self.coroutine.close()
            raise
        if process is not None:
            process.waits = True
            _of[self.task] = process
        _party_of(self.task).take(self._begun, "knows what came before")

    def _come(self, call: Callable[..., Any], *words: Any) -> Any:
        """Makes a step, or holds it back where the task waits for others at a meeting."""
        meeting = _party.meeting
        if meeting is not None and self._has_begun:
            who = _party_of(self.task)
            visit = who.visit() if isinstance(who, Process) else None
            if isinstance(who, Process) and visit is not None:
                self._held_back = HeldBack(who, meeting, visit, (call, words))
                return self._held_back.begin()
        return self._step(call, *words)

    def _go_on(self) -> Tuple[Callable[..., Any], Tuple[Any, ...]]:
        """The task goes on from the meeting. The answer is the step that it was about to make."""
        held_back, self._held_back = self._held_back, None
        assert held_back is not None
        return held_back.end()

    def _step(self, call: Callable[..., Any], *words: Any) -> Any:
        if not self._has_begun:
            self._begin()
        who = _party_of(self.task)
        if isinstance(who, Process):
            who.resume()
        try:
            waits_for = call(*words)
        except BaseException:
            who = _party_of(self.task)
            self.ended = who.end() if isinstance(who, Process) else who.leave("")
            raise
        if isinstance(who, Process):
            who.suspend()
        return waits_for

    def send(self, value: Any) -> Any:
        """The next step, or the one that was held back."""
        if self._held_back is None:
            return self._come(self.coroutine.send, value)
        call, words = self._go_on()
        return self._step(call, *words)

    def throw(self, *words: Any) -> Any:
        """The next step, which begins with an error, as that of a task that is cancelled. It takes the place of one
        that was held back."""
        if self._held_back is None:
            return self._come(self.coroutine.throw, *words)
        self._go_on()
        return self._step(self.coroutine.throw, *words)

    def close(self) -> None:
        """There is no next step."""
        if self._held_back is not None:
            self._go_on()
        self.coroutine.close()

    def __await__(self) -> Generator[Any, None, Any]:
        return self.coroutine.__await__()

    def __getattr__(self, name: str) -> Any:
        # What shows a task asks its coroutine for its frame and its code.
        return getattr(self.coroutine, name)


class Task(_Task[It]):
    """A task as `asyncio.Task`. Its maker comes before it, and all that it does before whoever awaits it, or sees that
    it is done.

    A task that begins while a watch is current, with the name of one of its processes, is that process until it ends; a
    second one of a name is a `RuntimeError` in it.

    >>> from wullaphi import asyncio
    >>> async def work():
    ...     return asyncio.current_task().get_name()
    >>> async def main():
    ...     return await asyncio.create_task(work(), name="ada")
    >>> asyncio.run(main())
    'ada'
    """

    def __init__(self, coro: Any, **words: Any) -> None:
        self._steps = _Steps(coro)
        self._steps.task = self
        super().__init__(self._steps if _plain.iscoroutine(coro) else coro, **words)

    def get_coro(self) -> Any:
        """The coroutine of the task."""
        return self._steps.coroutine

    def done(self) -> bool:
        """Whether the task has ended."""
        is_done = super().done()
        if is_done:
            take(self._steps.ended, "sees the end of a task")
        return is_done

    def result(self) -> It:
        """What the task answered."""
        self.done()
        return super().result()

    def exception(self) -> Optional[BaseException]:
        """What the task raised."""
        self.done()
        return super().exception()

    def __await__(self) -> Generator[Any, None, It]:
        try:
            return (yield from super().__await__())
        finally:
            self.done()

    __iter__ = __await__


def make_task(loop: Any, coro: Any, **words: Any) -> "Task[Any]":
    """What a loop calls where a task is wanted."""
    return Task(coro, loop=loop, **words)


def take_ended(tasks: Any) -> None:
    """The caller learns which of these are done."""
    for task in tasks:
        task.done()
