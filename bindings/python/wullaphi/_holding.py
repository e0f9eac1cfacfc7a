"""What a program adds to be watched: which watch is current, who its threads are, and what they hold."""

import os
import sys
import threading
from types import TracebackType
from typing import Collection, Optional, Sequence, Type

from . import _party
from ._meeting import Meeting
from ._party import party
from ._process import Process
from ._watch import Process as Name
from ._watching import Watching


def watching(names: Sequence[str], *, pairs: bool = False, questions: Optional[Sequence[Collection[Name]]] = None,
             logs: bool = False, meeting: Optional[Meeting] = None) -> Watching:
    """A watch of the threads, or tasks, of these names, which is current while its block runs.

    A `Thread` of `wullaphi.threading` with such a name is that process, and so is any thread within
    `watch.process(name)`. The question is whether all processes could have held something at once; with `pairs` there
    is one for each two of them, and `questions` are sets of names. With `logs` the processes keep a log, which
    `watch.write_log` writes. With a `meeting` they wait for each other at its places.

    More than 16 names, or none, are refused by `OutOfRange`; a name that comes twice, and a meeting of another name,
    are a `ValueError`; a watch within another one, and a meeting that has had its run, a `RuntimeError`.

    >>> from wullaphi import threading
    >>> lock = threading.Lock()
    >>> def work():
    ...     with lock, holding("work"):
    ...         pass
    >>> with watching(["ada", "ben"]) as watch:
    ...     threads = [threading.Thread(target=work, name=name) for name in watch.names]
    ...     for thread in threads:
    ...         thread.start()
    ...     for thread in threads:
    ...         thread.join()
    >>> print(watch.report())
    none
    """
    return Watching(names, pairs, questions, logs, meeting)


class holding:  # pylint: disable=invalid-name
    """Within the block the condition of the calling process holds: over each lock and queue in between, and whatever is
    raised. It ends with the block, and with its thread.

    `with lock, holding("transfer"):` holds once the lock is got. Blocks may lie in each other. Where no watch is
    current it is nothing; a thread that is no process makes the report undecided, by its name. The label comes back in
    the report, with the file and the line.

    >>> with watching(["ada"]) as watch:
    ...     with watch.process("ada"), holding("transfer"):
    ...         pass
    >>> watch.report().known
    'found'
    """

    __slots__ = ("_label",)

    def __init__(self, label: str = "") -> None:
        self._label = label

    def __enter__(self) -> None:
        watch = _party.current
        if watch is None:
            return
        who = party()
        if isinstance(who, Process):
            who.hold(self, watch.take_place(sys._getframe(1), self._label))
        else:
            watch.stray(who.name or threading.current_thread().name)

    def __exit__(self, kind: Optional[Type[BaseException]], error: Optional[BaseException],
                 trace: Optional[TracebackType]) -> None:
        if _party.current is not None:
            who = party()
            if isinstance(who, Process):
                who.let_go(self)


def _fork_child() -> None:
    """The process was forked, and this is the child: what it does isn't watched."""
    watch = _party.current
    if watch is not None:
        watch.spoil("this is a forked child, which isn't watched")
        watch.is_over = True
        _party.make_current(None)


def _fork_parent() -> None:
    watch = _party.current
    if watch is not None:
        watch.spoil("the program was forked, and what its child did isn't seen")


os.register_at_fork(after_in_child=_fork_child, after_in_parent=_fork_parent)
