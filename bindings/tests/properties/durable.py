"""What processes did, as a test knows it, and what the notes and the report must be by that. No clock of the library is
used: which event happened before which follows from the messages alone."""

import itertools
from typing import Dict, List, NamedTuple, Optional, Sequence, Tuple, Union


class Observe(NamedTuple):
    """The process looked at its condition. `lasts` says whether it stays true."""

    holds: bool
    tag: int
    lasts: bool = False


class Send(NamedTuple):
    """It sent this message."""

    message: int


class Receive(NamedTuple):
    """It received this message."""

    message: int


class Write(NamedTuple):
    """The program wrote this in the same step."""

    word: int


class Close(NamedTuple):
    """It ended its part."""

    tag: int


Deed = Union[Observe, Send, Receive, Write, Close]
Deeds = Tuple[Deed, ...]


class Told(NamedTuple):
    """A note that a process must have given: its interval, and its tag. Of a last one the interval is how many notes
    came before."""

    interval: int
    tag: int
    is_last: bool = False


class Process:
    """What a process has come to by its deeds."""

    def __init__(self, deeds: Deeds, flag_of_sends: bool = False) -> None:
        self.events: List[Union[Send, Receive]] = []
        self.notes: List[Told] = []
        self.writes: List[int] = []
        self.true: Dict[int, int] = {}
        self.lasting: Optional[int] = None
        self._may_tell = True
        for deed in deeds:
            self._do(deed, flag_of_sends)

    def _do(self, deed: Deed, flag_of_sends: bool) -> None:
        if isinstance(deed, Observe):
            if deed.holds:
                self._tell(deed.tag)
            self.lasting = deed.tag if deed.holds and deed.lasts else None
        elif isinstance(deed, Write):
            self.writes.append(deed.word)
        elif isinstance(deed, Close):
            self.notes.append(Told(len(self.notes), deed.tag, is_last=True))
            self.lasting = None
        else:
            self.events.append(deed)
            self._may_tell = self._may_tell or isinstance(deed, Send) or not flag_of_sends
            if self.lasting is not None:
                self._tell(self.lasting)

    def _tell(self, tag: int) -> None:
        self.true.setdefault(len(self.events), tag)
        if self._may_tell:
            self.notes.append(Told(len(self.events), tag))
            self._may_tell = False

    @property
    def is_closed(self) -> bool:
        """Whether it ended its part."""
        return bool(self.notes) and self.notes[-1].is_last

    @property
    def state(self) -> Tuple[int, int, Optional[int]]:
        """What a saved probe tells of it."""
        return len(self.events), len(self.notes), self.lasting


class Impossible(Exception):
    """What no run can do: somebody received what nobody sent."""


class History:
    """What all processes did. `known` has the clock behind each number of events of each process."""

    def __init__(self, processes: Sequence[Process]) -> None:
        self.processes = processes
        sent = {event.message: (at, number + 1) for at, it in enumerate(processes)
                for number, event in enumerate(it.events) if isinstance(event, Send)}
        self.known = [[(0,) * len(processes)] for _ in processes]
        while any([self._advance(at, sent) for at in range(len(processes))]):
            pass
        if any(len(known) <= len(it.events) for known, it in zip(self.known, processes)):
            raise Impossible()

    def _advance(self, at: int, sent: Dict[int, Tuple[int, int]]) -> bool:
        """Adds the clock behind the next event of a process, as soon as it is known. Whether it was."""
        known, events = self.known[at], self.processes[at].events
        if len(known) > len(events):
            return False
        event, clock = events[len(known) - 1], list(known[-1])
        if isinstance(event, Receive):
            sender, number = sent.get(event.message, (at, len(events) + 1))
            if number >= len(self.known[sender]):
                return False
            clock = [max(pair) for pair in zip(clock, self.known[sender][number])]
        clock[at] = len(known)
        known.append(tuple(clock))
        return True

    def cut(self, asked: Sequence[int]) -> Optional[Dict[int, int]]:
        """The first interval of each of these processes that may be at once, of all in which their conditions hold."""
        for intervals in itertools.product(*(sorted(self.processes[at].true) for at in asked)):
            chosen = dict(zip(asked, intervals))
            if all(self.known[one][chosen[one]][other] <= chosen[other]
                   for one, other in itertools.permutations(asked, 2)):
                return chosen
        return None
