"""The checker, and what it reports."""

import ctypes
import itertools
import struct
from typing import Callable, Collection, List, NamedTuple, Optional, Sequence, Tuple, Union

from ._library import FOUND, NOT_IN_CUT, NO_ROOM, NOTE_SIZE, NOTHING, RawChecker, RawNote, answer, library, word
from ._refusals import NoNote, OutOfRange, Stranger
from ._watch import Process, Watch, listed, watch_of

# A question is named by its number, or by the processes that it watches.
Question = Union[int, Collection[Process]]


class Report(NamedTuple):
    """What a checker's notes tell: `known` is "found", "nothing" or "undecided". Where a cut was found, `cut` has the
    interval of each process, `None` for one that is not watched: how many messages it had sent and received then.

    >>> checker = Checker(1, 3, watched=[1])
    >>> checker.report()
    Report(known='undecided', cut=None)
    >>> checker.take(Probe(1, 1, 3).observe(True))
    >>> checker.report().cut
    (None, 0, None)
    """

    known: str
    cut: Optional[Tuple[Optional[int], ...]] = None


class Checker:
    """Takes the notes of `processes` processes of the watch with the number `watch`, or of a `Watch`. Those in
    `watched` have the conditions that it looks for, or all.

    Notes of another watch are refused by `Stranger`, and those of a process that the checker watches, but whose probe
    was made with `watched=False`, by `NotAgreed`.

    >>> probes = [Probe(1, process, 2) for process in range(2)]
    >>> with Checker(1, 2) as checker:  # its memory is freed at the end
    ...     for probe in probes:
    ...         checker.take(probe.observe(False) or probe.close())
    ...     checker.report()
    Report(known='nothing', cut=None)

    One checker can ask several questions of the same notes, up to 1,024: one for each set of processes in `questions`,
    or with `pairs` one for each pair of processes. Each has a report of its own, as if it had a checker to itself.
    Where there is no memory for a note, a question that needs some is starved: it stays "undecided", `is_starved` says
    so, and the others go on.

    >>> watch = Watch(2, ["ada", "ben", "cyd"])
    >>> checker = Checker(watch, pairs=True)
    >>> checker.questions
    ((0, 1), (0, 2), (1, 2))
    >>> for name in ["ada", "ben"]:
    ...     checker.take(watch.probe(name).observe(True))
    >>> checker.report({"ada", "ben"})
    Report(known='found', cut=(0, 0, None))
    >>> [report.known for report in checker.reports()]
    ['found', 'undecided', 'undecided']
    >>> Checker(watch, questions=[{"ada"}, {"ada", "cyd"}]).questions
    ((0,), (0, 2))

    A checker is saved as bytes, and loaded from them, to go on after a restart; it can be pickled and copied too.

    >>> saved = checker.save()
    >>> Checker.load(saved, watch).reports() == checker.reports()
    True
    """

    def __init__(self, watch: Union[int, Watch], processes: Optional[int] = None,
                 watched: Optional[Sequence[Process]] = None, *, pairs: bool = False,
                 questions: Optional[Sequence[Collection[Process]]] = None) -> None:
        if (watched is not None) + pairs + (questions is not None) > 1:
            raise TypeError("more than one of watched, pairs and questions is given")
        told = watch_of(watch, processes)
        self.questions: Tuple[Tuple[int, ...], ...]
        self._hold(told, (tuple(range(told.processes)),))
        if pairs:
            self.questions = tuple((a, b) for a, b in itertools.combinations(range(told.processes), 2))
            answer(library.wcp_checker_new_pairs(self._at, told.number, told.processes))
        elif questions is not None:
            self.questions = tuple(self._numbers(question) for question in listed(questions, "the questions"))
            self._make(library.wcp_checker_new_sets, [_mask(question) for question in self.questions])
        elif watched is not None:
            self.questions = (self._numbers(watched),)
            self._make(library.wcp_checker_new_with, self.questions[0])
        else:
            answer(library.wcp_checker_new(self._at, told.number, told.processes))

    def _hold(self, watch: Watch, questions: Tuple[Tuple[int, ...], ...]) -> None:
        """An empty handle, of this watch."""
        self._memory = RawChecker()
        self._at = ctypes.pointer(self._memory)
        self.watch = watch
        self.processes = watch.processes
        # The numbers of the processes that each question watches.
        self.questions = questions

    def _make(self, make: Callable[..., int], numbers: Sequence[int]) -> None:
        """Makes the checker by a call that wants these numbers."""
        words = (ctypes.c_uint32 * max(1, len(numbers)))(*numbers)
        answer(make(self._at, self.watch.number, self.processes, words, len(numbers)))

    @property
    def watched(self) -> Tuple[int, ...]:
        """The numbers of the processes that some question watches, each once."""
        if len(self.questions) == 1:
            return self.questions[0]
        return tuple(sorted({process for question in self.questions for process in question}))

    def _numbers(self, question: Collection[Process]) -> Tuple[int, ...]:
        """The numbers of the processes of a question, each once and in order."""
        processes = listed(question, "the processes of a question")
        return tuple(sorted({self.watch.number_of(process) for process in processes}))

    def _question(self, question: Question) -> int:
        """The number of a question."""
        if isinstance(question, int):
            return word(question)
        if isinstance(question, str):
            if question not in (self.watch.names or ()):
                raise OutOfRange(f"no process is called {question!r}; a question of several is a set of their names")
            question = [question]
        numbers = self._numbers(question)
        if numbers not in self.questions:
            raise OutOfRange(f"no question watches just the processes {numbers}")
        return self.questions.index(numbers)

    def take(self, note: bytes) -> None:
        """Takes a note, the next of its process; those of different processes may come in any order."""
        if len(note) != NOTE_SIZE:
            raise NoNote()
        answer(library.wcp_checker_take(self._at, ctypes.pointer(RawNote.from_buffer_copy(note))))

    def lose(self, process: Process) -> None:
        """The process is gone, and its last note won't come: no more of its notes are taken, and the report is never
        "nothing". A cut of what it told may still be found."""
        answer(library.wcp_checker_lose(self._at, self.watch._told(process)))

    def report(self, question: Question = 0) -> Report:
        """What the notes taken tell of a question, which is given by its number or by the processes that it watches."""
        number = self._question(question)
        known = answer(library.wcp_checker_report_of(self._at, number))
        if known == FOUND:
            return Report("found", tuple(self._interval(number, process) for process in range(self.processes)))
        return Report("nothing" if known == NOTHING else "undecided")

    def reports(self) -> List[Report]:
        """The report of each question, in their order."""
        return [self.report(question) for question in range(len(self.questions))]

    def cut(self, question: Question = 0) -> Optional[Tuple[Optional[int], ...]]:
        """The cut that a question found, as in its report, or `None`."""
        return self.report(question).cut

    def _interval(self, question: int, process: int) -> Optional[int]:
        interval = ctypes.c_uint32()
        answered = library.wcp_checker_cut_of(self._at, question, process, ctypes.byref(interval))
        if answered == NOT_IN_CUT:
            return None
        answer(answered)
        return interval.value

    def tag(self, process: Process, question: Question = 0) -> int:
        """The tag of the process's note in the cut that a question found; 0 where it came without one."""
        tag = ctypes.c_uint64()
        number = self._question(question)
        answer(library.wcp_checker_tag_of(self._at, number, self.watch._told(process), ctypes.byref(tag)))
        return tag.value

    def tags(self, question: Question = 0) -> Optional[Tuple[Optional[int], ...]]:
        """The tags of the notes in the cut that a question found: for each process that of its note, `None` for one
        that the question does not watch. `None` where it found no cut.

        >>> checker = Checker(1, 2, questions=[{0}, {0, 1}])
        >>> checker.take(Probe(1, 0, 2).observe(True, tag=7))
        >>> checker.tags(0)
        (7, None)
        >>> checker.tags(1) is None
        True
        """
        number = self._question(question)
        cut = self.cut(number)
        if cut is None:
            return None
        return tuple(None if it is None else self.tag(process, number) for process, it in enumerate(cut))

    def is_starved(self, question: Question = 0) -> bool:
        """Whether a question was given up for want of memory. It stays "undecided", unless it had found a cut.

        >>> Checker(1, 2, pairs=True).is_starved(0)
        False
        """
        starved = ctypes.c_uint32()
        answer(library.wcp_checker_is_starved(self._at, self._question(question), ctypes.byref(starved)))
        return starved.value == 1

    def taken(self, process: Process) -> int:
        """How many snapshots of the process were taken."""
        count = ctypes.c_uint64()
        answer(library.wcp_checker_taken(self._at, self.watch._told(process), ctypes.byref(count)))
        return count.value

    def save(self) -> bytes:
        """All that the checker holds, as bytes, from which `load` makes it again. They are the same on every machine,
        and have the number of the watch, but no names."""
        wanted = ctypes.c_uint64()
        room = 0
        while True:
            saved = ctypes.create_string_buffer(max(1, room))
            answered = library.wcp_checker_save(self._at, saved, room, ctypes.byref(wanted))
            if answered != NO_ROOM:
                answer(answered)
                return saved.raw[:wanted.value]
            room = wanted.value

    @classmethod
    def load(cls, saved: bytes, watch: Optional[Watch] = None) -> "Checker":
        """The checker that was saved in these bytes: it goes on as that one does. `watch` has the names of the
        processes. Refused by `NoSaved` where the bytes are damaged, and by `Stranger` where they are of another
        watch."""
        checker = cls.__new__(cls)
        checker._hold(watch if watch is not None else Watch(0, 1), ())
        answer(library.wcp_checker_load(checker._at, saved, len(saved)))
        number, processes, checker.questions = _told_by(saved)
        if watch is None:
            checker.watch = Watch(number, processes)
        elif (number, processes) != (watch.number, watch.processes):
            raise Stranger()
        checker.processes = processes
        return checker

    def end(self) -> None:
        """Frees the memory; each later call is refused."""
        answer(library.wcp_checker_end(self._at))

    def __enter__(self) -> "Checker":
        return self

    def __exit__(self, *_: object) -> None:
        if self._memory.held:
            self.end()

    def __del__(self) -> None:
        if getattr(self, "_memory", None) is not None and self._memory.held:
            library.wcp_checker_end(self._at)

    def __reduce__(self) -> Tuple[Callable[..., "Checker"], Tuple[bytes, Watch]]:
        return type(self).load, (self.save(), self.watch)

    def __repr__(self) -> str:
        if len(self.questions) == 1:
            return f"Checker({self.watch!r}, watched={[self.watch.name_of(process) for process in self.watched]})"
        sets = [[self.watch.name_of(process) for process in question] for question in self.questions]
        return f"Checker({self.watch!r}, questions={sets})"


def _mask(numbers: Sequence[int]) -> int:
    """The mask of a set of processes."""
    return sum(1 << number for number in numbers)


def _told_by(saved: bytes) -> Tuple[int, int, Tuple[Tuple[int, ...], ...]]:
    """The number of the watch, how many processes it has, and which each question watches, of the bytes of a saved
    checker, which the library has tested."""
    words = struct.unpack(f"<{len(saved) // 8}Q", saved[:len(saved) // 8 * 8])
    number, count = words[2], words[4]
    questions = []
    place, processes = 5, 0
    for _ in range(count):
        processes = words[place + 3]
        marks = words[place + 6:place + 22]
        questions.append(tuple(process for process, mark in enumerate(marks) if mark))
        place += 1 + words[place]
    return number, processes, tuple(questions)
