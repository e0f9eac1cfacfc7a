"""Who calls: a process of the current watch, or a thread outside it; and what either leaves and takes.

Whatever lets something go *leaves* marks there, before it is let go, and whatever gets it *takes* them, once it is got.
"""

import threading
from typing import TYPE_CHECKING, Callable, Dict, Optional, Union

from ._process import NONE, Mark, Marks, Process

if TYPE_CHECKING:
    from ._meeting import Meeting
    from ._watching import Watching


class Outsider:
    """A thread, or a task of this name, that is no process of the watch with this number. It passes on what it has
    taken, so that an order which goes through it isn't lost: that of one worker's end, over `join` and `start`, before
    another's begin."""

    def __init__(self, number: int, name: str = "") -> None:
        self.number = number
        self.name = name
        # The newest mark of each process.
        self._by_sender: Dict[int, Mark] = {}
        self._marks: Marks = NONE

    def leave(self, what: str) -> Marks:
        """What is let go carries all that was taken. `what` is for the log of a process."""
        return self._marks

    def take(self, marks: Marks, what: str) -> None:
        """It got what carries these marks."""
        for mark in marks:
            before = self._by_sender.get(mark.sender)
            if mark.watch == self.number and (before is None or before.events < mark.events):
                self._by_sender[mark.sender] = mark
                self._marks = NONE
        if not self._marks:
            self._marks = tuple(self._by_sender.values())


Party = Union[Process, Outsider]


class _OfThread(threading.local):
    party: Optional[Party] = None


of_thread = _OfThread()
# The watch that is current, and its number.
current: Optional["Watching"] = None
number = 0
# Where its processes meet, if they are to.
meeting: Optional["Meeting"] = None
# Who the task is that runs, once `wullaphi.asyncio` is there; `None` where none runs.
of_task: Optional[Callable[[], Optional[Party]]] = None


def make_current(watch: Optional["Watching"]) -> None:
    """This watch is current from now on, or none is."""
    global current, number, meeting  # pylint: disable=global-statement
    current, number, meeting = (None, 0, None) if watch is None else (watch, watch.number, watch.meeting)


def party() -> Party:
    """Who calls. A process of an earlier watch, whose thread still runs, is an outsider now."""
    if of_task is not None:
        task = of_task()
        if task is not None:
            return task
    who = of_thread.party
    if who is None or who.number != number:
        who = of_thread.party = Outsider(number)
    return who


def come() -> None:
    """Whoever calls is about to let something go or to get it, and may meet others before. Each call of what is watched
    begins with this, before the library has got a lock of its own."""
    if meeting is not None:
        who = party()
        if isinstance(who, Process):
            who.come()


def leave(what: str) -> Marks:
    """The marks of whoever calls, where a watch is current."""
    return NONE if current is None else party().leave(what)


def take(marks: Marks, what: str) -> None:
    """Whoever calls got what carries these marks."""
    if marks and current is not None:
        party().take(marks, what)
