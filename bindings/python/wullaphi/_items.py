"""The marks that the items of a queue carry."""

import math
from collections import deque
from typing import Deque, Dict, Optional

from ._party import leave, take
from ._process import NONE, Mark, Marks


class Items:
    """The marks of the items in a queue of `maxsize` places, or of one that has room for all, where that is 0. They
    stand beside the items, so that the queue holds nothing else. One thread at a time calls this, under the queue's own
    plain lock."""

    def __init__(self, maxsize: float, newest_first: bool) -> None:
        self._newest_first = newest_first
        # Of each item, by its identity, which no other has while it is in the queue.
        self._marks: Dict[int, Deque[Marks]] = {}
        # Of the places, the one that was left first in front.
        self._rooms: Optional[Deque[Marks]] = deque([NONE] * math.ceil(maxsize)) if maxsize > 0 else None
        # The newest mark of each process that has done a task.
        self._done: Dict[int, Mark] = {}

    def put(self, item: object) -> None:
        """The item was put into the place that was left first."""
        if self._rooms:
            take(self._rooms.popleft(), "finds room in a queue")
        marks = self._marks.get(id(item))
        if marks is None:
            marks = self._marks[id(item)] = deque()
        marks.append(leave("puts an item"))

    def get(self, item: object) -> None:
        """The item was taken out, and leaves its place."""
        marks = self._marks.get(id(item))
        if marks:
            take(marks.pop() if self._newest_first else marks.popleft(), "gets an item")
            if not marks:
                del self._marks[id(item)]
        if self._rooms is not None:
            self._rooms.append(leave("leaves room in a queue"))

    def task_done(self) -> None:
        """A task is done."""
        for mark in leave("has done a task"):
            self._done[mark.sender] = mark

    def all_done(self) -> Marks:
        """What those left who did the tasks."""
        return tuple(self._done.values())
