"""The watch that is current, what its threads hold, and what it tells."""

import itertools
import os
import threading
from types import FrameType, TracebackType
from typing import Collection, Dict, List, NamedTuple, Optional, Sequence, Tuple, Type, Union

from . import _party
from ._checker import Checker, Question
from ._meeting import Meeting
from ._party import Party, party
from ._places import Place, moment
from ._process import Process
from ._watch import Process as Name
from ._watch import Watch
from .log import HostLog

_numbers = itertools.count(1)


class Outcome(NamedTuple):
    """What a watch of threads tells: `known` is "found", "nothing" or "undecided". Where a moment was found, `moment`
    has the place of each process in it. Where it is undecided, `why` says why; where there is none, it names the
    processes that never held a condition, if there are any.

    >>> print(Outcome("found", {"w1": Place(7, "transfer (bank.py:15)"), "w2": Place(3, "audit (bank.py:24)")}, ""))
    found: w1 at transfer (bank.py:15), w2 at audit (bank.py:24)
    """

    known: str
    moment: Dict[str, Place]
    why: str

    def __str__(self) -> str:
        if self.known == "found":
            return f"found: {moment(self.moment)}"
        told = "none" if self.known == "nothing" else self.known
        return f"{told}: {self.why}" if self.why else told


class Block:
    """Within it the calling thread is a process of the watch."""

    def __init__(self, watch: "Watching", name: str) -> None:
        self._watch = watch
        self._name = name
        self._before: Optional[Party] = None

    def __enter__(self) -> None:
        if _party.of_task is not None and _party.of_task() is not None:
            raise RuntimeError("a task is the process of its own name: create_task(.., name=..)")
        before = party()
        if isinstance(before, Process):
            raise RuntimeError(f"this thread is the process {before.name} already")
        process = self._watch.begin(self._name)
        if process is None:
            raise ValueError(f"no process of a watch that is current is called {self._name!r}")
        process.take(before.leave(""), "knows what came before")
        self._before, _party.of_thread.party = before, process

    def __exit__(self, kind: Optional[Type[BaseException]], error: Optional[BaseException],
                 trace: Optional[TracebackType]) -> None:
        process, _party.of_thread.party = _party.of_thread.party, self._before
        if isinstance(process, Process) and self._before is not None:
            self._before.take(process.end(), "is done")


class Watching:
    """What `watching` gives: the watch that is current within its block.

    >>> with watching(["ada", "ben"]) as watch:
    ...     with watch.process("ada"):
    ...         pass
    >>> print(watch.report())
    undecided: ben never began
    """

    def __init__(self, names: Sequence[str], pairs: bool, questions: Optional[Sequence[Collection[Name]]],
                 logs: bool, meeting: Optional[Meeting] = None) -> None:
        self.number = next(_numbers)
        self.watch = Watch(self.number, names)
        self.names: Tuple[str, ...] = self.watch.names or ()
        self.checker = Checker(self.watch, pairs=pairs, questions=questions)
        self.meeting = meeting
        if meeting is not None:
            if not isinstance(meeting, Meeting):
                raise TypeError(f"the processes of a watch of threads or tasks meet by a wullaphi.Meeting, and not by "
                                f"{meeting!r}")
            meeting.check(self.names)
        self.is_over = False
        # Threads may come to it in the middle of its own calls, by a finalizer.
        self.lock = threading.RLock()
        self._processes: Dict[str, Process] = {}
        # The label of each tag, and its place as it is told.
        self._places = [("", "")]
        self._tags: Dict[Tuple[object, int, str], int] = {}
        self._lines: Optional[List[str]] = [] if logs else None
        self._strays: Dict[str, int] = {}
        self._faults: List[str] = []
        self._final: Optional[List[Outcome]] = None

    def __enter__(self) -> "Watching":
        if self.is_over:
            raise RuntimeError("the watch has ended: open another one")
        if _party.current is not None:
            raise RuntimeError("a watch is current already: there is one at a time")
        if self.meeting is not None:
            self.meeting.begin()
        _party.make_current(self)
        return self

    def __exit__(self, kind: Optional[Type[BaseException]], error: Optional[BaseException],
                 trace: Optional[TracebackType]) -> None:
        self._final = [self.report(question) for question in range(len(self.checker.questions))]
        self.is_over = True
        if _party.current is self:
            _party.make_current(None)
        if self.meeting is not None:
            self.meeting.close()

    def begin(self, name: str) -> Optional[Process]:
        """The process of this name, which begins, or `None` where there is none. A name is used once: two threads in
        turn would be ordered by it, and a second one is a `RuntimeError`."""
        if _party.current is not self or name not in self.names:
            return None
        with self.lock:
            if name in self._processes:
                raise RuntimeError(f"{name} is a process of the watch already: each thread needs a name of its own")
            log = None if self._lines is None else HostLog(name, self._lines.append)
            process = self._processes[name] = Process(self, self.names.index(name), log)
            return process

    def process(self, name: str) -> "Block":
        """Within the block the calling thread is this process of the watch: for a thread of a pool, a callback, or the
        thread that opened the watch.

        `ValueError` where no process has this name, and `RuntimeError` where it has begun before, where the thread is a
        process already, and in a task, which is a process by its own name.
        """
        return Block(self, name)

    def take_place(self, frame: Optional[FrameType], label: str) -> int:
        """The tag of a place in the program: its label, file and line."""
        while frame is not None and frame.f_globals.get("__name__") == "contextlib":
            frame = frame.f_back
        key = (frame and frame.f_code, frame.f_lineno if frame else 0, label)
        with self.lock:
            tag = self._tags.setdefault(key, len(self._places))
            if tag == len(self._places):
                where = f"{os.path.basename(frame.f_code.co_filename)}:{frame.f_lineno}" if frame else ""
                self._places.append((label, f"{label} ({where})" if label else where))
        return tag

    def place_of(self, tag: int) -> str:
        """The place of a tag, as it is told."""
        return self._places[tag][1]

    def label_and_place(self, tag: int) -> Tuple[str, str]:
        """The label of a tag, and its place as it is told."""
        return self._places[tag]

    def stray(self, name: str) -> None:
        """A thread holds something and is no process."""
        with self.lock:
            self._strays[name] = self._strays.get(name, 0) + 1

    def spoil(self, why: str) -> None:
        """Something wasn't seen: the report is never "nothing"."""
        if why not in self._faults:
            self._faults.append(why)

    def report(self, question: Question = 0) -> Outcome:
        """What is known now of a question; at the end of the block it is final. A question is given by its number or by
        the names of its processes.

        It is undecided, and says why, where a process never began or hadn't ended, where a thread that is no process
        held a condition, where the program forked, and where a call was refused. Where there is no moment, it names
        the processes that never held a condition: the program may have forgotten to say so.
        """
        number = self.checker._question(question)
        if self._final is not None:
            return self._final[number]
        report = self.checker.report(number)
        places = {}
        for process, interval in enumerate(report.cut or ()):
            if interval is not None:
                places[self.names[process]] = Place(interval, self.place_of(self.checker.tag(process, number)))
        why, known = self._why(number), report.known
        if known == "nothing":
            known, why = ("undecided", why) if why else (known, self._idle(number))
        return Outcome(known, places, "; ".join(why))

    def _why(self, question: int) -> List[str]:
        """Why nothing can be said for sure."""
        names = [self.names[process] for process in self.checker.questions[question]]
        absent = [name for name in names if name not in self._processes]
        running = [name for name in names if name in self._processes and self._processes[name].is_open]
        why = [f"{', '.join(absent)} never began"] if absent else []
        why += [f"{', '.join(running)} had not ended"] if running else []
        if self._strays:
            told = ", ".join(f"{name} ({count} times)" for name, count in self._strays.items())
            why.append(f"held a condition, but is no process of the watch: {told}")
        return why + self._faults

    def _idle(self, question: int) -> List[str]:
        """Which processes never held a condition."""
        names = [self.names[process] for process in self.checker.questions[question]]
        idle = [name for name in names if not self._processes[name].has_held]
        return [f"{', '.join(idle)} never held a condition"] if idle else []

    def reports(self) -> Dict[Tuple[str, ...], Outcome]:
        """The report of each question, by the names of its processes."""
        return {tuple(self.names[process] for process in question): self.report(number)
                for number, question in enumerate(self.checker.questions)}

    @property
    def keeps_log(self) -> bool:
        """Whether the processes keep a log, as `write_log` needs it."""
        return self._lines is not None

    def write_log(self, path: Union[str, "os.PathLike[str]"]) -> None:
        """Writes what the processes did as a log with vector clocks, which `wcptrace --form lines` reads. The watch was
        opened with `logs=True`; else it is a `ValueError`."""
        if self._lines is None:
            raise ValueError("the watch keeps no log: open it with logs=True")
        with open(path, "w", encoding="ascii") as file:
            file.writelines([line + "\n" for line in list(self._lines)])
