"""A task's next step that is held back, while the task waits for others at a meeting. Its loop goes on meanwhile."""

import asyncio as _plain
from typing import Any, Callable, Tuple

from ._meeting import Meeting
from ._places import Visit
from ._process import Process

Step = Tuple[Callable[..., Any], Tuple[Any, ...]]


class HeldBack:
    """The step of a task that stands at its place. The task awaits a future of its own, and then makes the step."""

    def __init__(self, process: Process, meeting: Meeting, visit: Visit, step: Step) -> None:
        self._process = process
        self._step = step
        self._loop = _plain.get_running_loop()
        self._future = self._loop.create_future()
        self._timer = self._loop.call_later(meeting.patience, self._go_on)
        visit.go_on = self._tell
        if not meeting.come(visit):
            self._loop.call_soon(self._go_on)

    def begin(self) -> Any:
        """What the task awaits."""
        return next(self._future.__await__())

    def end(self) -> Step:
        """The task goes on. The answer is the step that it was about to make."""
        self._timer.cancel()
        self._process.go_away()
        return self._step

    def _tell(self) -> None:
        """It needn't wait any longer, says a thread."""
        try:
            self._loop.call_soon_threadsafe(self._go_on)
        except RuntimeError:
            pass  # the loop is closed, and makes no more steps

    def _go_on(self) -> None:
        if not self._future.done():
            self._future.set_result(None)
