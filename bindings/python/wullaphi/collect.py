"""Takes the notes of a watch from a Redis server, and says what they tell: what the command `wcpcollect` runs.

Started again, it reads the streams from their beginning; or it goes on from what it saved on the server.
"""

import itertools
import time
from dataclasses import dataclass, field
from typing import Any, Dict, List, NamedTuple, Optional, Sequence, Tuple, Union

from ._checker import Checker
from ._library import NOTE_SIZE
from ._note import Note
from ._streams import Gap, StartedAnew, Streams
from ._watch import Watch, listed
from .transport import TakenOver

__all__ = ["Collector", "Question", "Member", "Found", "Lost", "Anew", "Gap", "TakenOver"]


# What is saved in bytes, at most, however little came since it was saved last; beyond that, so many bytes a second.
SMALL = 65_536
BYTES_A_SECOND = 100_000


class Member(NamedTuple):
    """The part of a process in a cut: its interval, and the tag of the note that told of it."""

    process: str
    interval: int
    tag: int


@dataclass
class Found:
    """A cut was found, and stays."""

    cut: List[Member]


@dataclass
class Lost:
    """A process was silent for too long, and is called lost: no more of its notes are taken."""

    process: str
    seconds: float


@dataclass
class Anew:
    """All is read again, since the server has lost notes, or may have: what was found before is void unless it is found
    again."""

    why: str


Event = Union[Found, Lost, Anew]


@dataclass
class Question:
    """Could these processes have had their conditions at once?"""

    processes: Tuple[str, ...]
    number: int
    checker: Checker = field(repr=False)
    found: Optional[Found] = None
    untold: Optional[List[str]] = None
    """Those of the processes that may have done something that no note tells, once no cut can be found any more."""

    @property
    def known(self) -> str:
        """"found", "nothing" or "undecided". It is "undecided" too where there is no cut in what the processes told,
        and one of them may have left something out."""
        if self.found:
            return "found"
        known = self.checker.report(self.number).known
        return "undecided" if known == "nothing" and self.untold != [] else known


class Collector:
    """Takes the notes of the watch with the number `watch`, whose processes have told the server their names.

    It asks whether all processes with a condition could have had it at once; with `pairs`, each two of them; with
    `questions`, the processes named there. Before it is known which processes have a condition there are no questions:
    `absent` are those that haven't come. A process that shows for `lost_after` seconds that it isn't alive, and has
    not closed, is called lost.

    With a name in `save` it saves on the server, under this name, all that it has come to: at most once in
    `save_every` seconds while notes come, and more seldom where this is much: it writes no more than the notes that
    came since, and 100,000 bytes a second. A collector with the same name and questions goes on from there, also where
    the server was started anew, and the earlier one is `TakenOver`. With `trim` the notes behind what is saved are
    deleted at the same moment: other collectors of the watch then find a `Gap`.
    """

    def __init__(self, url: str, watch: int, questions: Sequence[Sequence[str]] = (), pairs: bool = False,
                 lost_after: Optional[float] = None, save: Optional[str] = None, trim: bool = False,
                 save_every: float = 1.0) -> None:
        if trim and save is None:
            raise ValueError("notes are deleted only behind what is saved")
        self._save_as, self._trims, self._save_every = save, trim, save_every
        self.watch = watch
        self.streams = Streams(url, watch)
        self.lost_after = lost_after
        self._asked = [_question(question) for question in listed(questions, "the questions")]
        self._pairs = pairs
        self._news: List[Event] = []
        self._begin()

    def _begin(self) -> None:
        self.questions: List[Question] = []
        self.absent: List[str] = []
        self.ended: Dict[str, str] = {}
        self._alive: Dict[str, Tuple[str, float]] = {}
        self._began = self._saved_at = time.monotonic()
        self._is_saved = True
        self._size = self._came = 0

    def poll(self, seconds: float = 0.0) -> List[Event]:
        """Takes the notes that are there, or waits so long for one. The answer says what is new."""
        try:
            if not self.questions and not self._prepare():
                time.sleep(min(seconds, 0.05))
                return []
            notes = self.streams.read(seconds)
            for note in notes:
                self._take(note)
            self._look_for_cuts()
            self._look_for_losses()
            if self._may_save(not notes):
                self.save()
            if not notes or self.is_done:
                self.streams.behind()
        except StartedAnew as error:
            self.streams.restart()
            self._begin()
            self._news.append(Anew(str(error)))
        news, self._news = self._news, []
        return news

    def _prepare(self) -> bool:
        """Makes the questions, once it is known which processes there are and which have conditions; or loads them."""
        if self._save_as is not None and self._load(self._save_as):
            return True
        conditions = self.streams.conditions()
        names = self.streams.names
        self.absent = [name for name, condition in zip(names, conditions) if condition is None]
        is_late = self.lost_after is not None and time.monotonic() - self._began > self.lost_after
        if not names or (self.absent and not self._asked and not is_late):
            return False
        with_one = [name for name, condition in zip(names, conditions) if condition is not False]
        asked = self._asked or (list(itertools.combinations(with_one, 2)) if self._pairs else [tuple(with_one)])
        for name in itertools.chain(*asked):
            if name not in names:
                raise ValueError(f"no process is called {name!r}: they are {', '.join(names)}")
            if name not in with_one:
                raise ValueError(f"{name} has no condition")
        if not any(asked):
            raise ValueError("too few processes have a condition")
        self._checker = Checker(Watch(self.watch, names), questions=asked)
        self._ask(asked)
        return True

    def _ask(self, asked: Sequence[Tuple[str, ...]]) -> None:
        self.questions = [Question(processes, number, self._checker) for number, processes in enumerate(asked)]

    def _load(self, name: str) -> bool:
        """Goes on from what was saved under this name, if anything was."""
        saved = self.streams.claim(name)
        if saved is None:
            return False
        told, checker = saved
        if (told["pairs"], told["given"]) != (self._pairs, [list(question) for question in self._asked]):
            raise ValueError(f"what is saved as {name!r} asks other questions")
        self._checker = Checker.load(checker, Watch(self.watch, self.streams.names))
        self._size = len(checker)
        self.ended = told["ended"]
        self._ask([tuple(question) for question in told["asked"]])
        self._look_for_cuts()
        return True

    def _may_save(self, is_idle: bool) -> bool:
        """Whether it is time to save what is known."""
        if self.is_done:
            return True
        seconds = time.monotonic() - self._saved_at
        is_cheap = self._size <= max(SMALL, self._came * NOTE_SIZE + seconds * BYTES_A_SECOND)
        return is_cheap and (is_idle or seconds >= self._save_every)

    def save(self) -> None:
        """Saves what is known and isn't saved yet; nothing, where no name was given for it."""
        if self._save_as is None or self._is_saved:
            return
        told: Dict[str, Any] = {"pairs": self._pairs, "given": self._asked, "ended": self.ended,
                                "asked": [question.processes for question in self.questions]}
        checker = self._checker.save()
        self.streams.save(told, checker, self._trims)
        self._saved_at, self._is_saved = time.monotonic(), True
        self._size, self._came = len(checker), 0

    def _take(self, note: Note) -> None:
        name = self.streams.names[note.process]
        self._alive.pop(name, None)
        if name in self.ended:
            return
        self._checker.take(note)
        self._is_saved = False
        self._came += 1
        if note.is_last:
            self.ended[name] = "closed"

    def _look_for_cuts(self) -> None:
        for question in self.questions:
            known = "found" if question.found else question.checker.report(question.number).known
            if known == "found" and question.found is None:
                question.found = Found([self._member(name, question) for name in question.processes])
                self._news.append(question.found)
            elif known == "nothing" and question.untold is None:
                untold = self.streams.untold()  # behind the last notes, with which a mark is taken away
                question.untold = [name for name in question.processes if name in untold]

    def _member(self, name: str, question: Question) -> Member:
        cut = self._checker.cut(question.number)
        interval = cut[self.streams.names.index(name)] if cut else None
        if interval is None:
            raise ValueError(f"{name} is in no cut of its question")
        return Member(name, interval, self._checker.tag(name, question.number))

    def _look_for_losses(self) -> None:
        if self.lost_after is None:
            return
        for process, seconds in self.silent().items():
            if seconds > self.lost_after:
                self.ended[process] = "lost"
                self._checker.lose(process)
                self._is_saved = False
                self._news.append(Lost(process, seconds))

    def silent(self) -> Dict[str, float]:
        """For each process that has not ended: for how many seconds it has shown no sign of life."""
        now = time.monotonic()
        for name, beat in zip(self.streams.names, self.streams.beats()):
            before, since = self._alive.get(name, ("", now))
            self._alive[name] = (beat, since if beat == before else now)
        return {name: now - self._alive[name][1] for name in self.streams.names if name not in self.ended}

    @property
    def taken(self) -> Dict[str, int]:
        """How many notes of each process were taken."""
        return dict(zip(self.streams.names, self.streams.places))

    @property
    def is_done(self) -> bool:
        """Whether no further note can change the report."""
        if not self.questions:
            return False
        return len(self.ended) == len(self.streams.names) or all(question.found for question in self.questions)


def _question(names: Sequence[str]) -> Tuple[str, ...]:
    """A question, which names each of its processes once."""
    question = listed(names, "the processes of a question")
    for name in question:
        if question.count(name) > 1:
            raise ValueError(f"a question names {name!r} twice")
    return question
