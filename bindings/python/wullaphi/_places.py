"""What is told of a meeting: who waits where, who came, who gave up, and whether they have met."""

import math
import threading
from typing import Callable, Dict, Iterable, List, Mapping, NamedTuple, Optional, Sequence, Tuple, Union

# Where a process waits: in this interval, at this label or place of what it holds, or wherever it holds something.
Where = Union[int, str, None]


class Place(NamedTuple):
    """Where a process was: how many events it had made, and the label, file and line of what it held.

    >>> Place(7, "transfer (bank.py:15)").at
    'transfer (bank.py:15)'
    """

    interval: int
    at: str


class GaveUp(NamedTuple):
    """A process that came to its place and went on without the others: its name, who was missing as it went on, and who
    had come before it and gone by then.

    >>> print(GaveUp("ben", ("ada",), ("ada",)))
    ben came while ada had gone
    >>> print(GaveUp("ada", ("ben",), ()))
    ada gave up while ben was missing
    """

    name: str
    missing: Tuple[str, ...]
    gone: Tuple[str, ...]

    def __str__(self) -> str:
        if self.gone:
            return f"{self.name} came while {listing(self.gone)} had gone"
        return f"{self.name} gave up while {listing(self.missing)} {'were' if len(self.missing) > 1 else 'was'} missing"


class Visit:
    """A process that stands at its place. `go_on` is called where it needn't wait any longer."""

    def __init__(self, name: str) -> None:
        self.name = name
        self.place = Place(0, "")
        self.go_on: Callable[[], object] = lambda: None
        self.gone: Tuple[str, ...] = ()
        # What it does besides, as it goes.
        self.leave: Callable[[], object] = lambda: None
        # Set once it stands there no longer, and never unset.
        self.is_over = False

    def go(self) -> None:
        """It stands there no longer. A signal's handler may call this in the midst of anything, so it takes no lock."""
        self.is_over = True
        self.leave()


class Meetings:
    """What is told of a meeting, wherever its processes are."""

    def __init__(self, places: Mapping[str, Where], patience: float) -> None:
        self.places: Dict[str, Where] = checked(places)
        self.patience = checked_patience(patience)

    @property
    def met(self) -> Optional[Dict[str, Place]]:
        """The moment that happened: the place of each. `None` where they haven't met."""
        raise NotImplementedError

    @property
    def came(self) -> Dict[str, int]:
        """How often each has come to its place."""
        raise NotImplementedError

    @property
    def gave_up(self) -> List[GaveUp]:
        """Each time that one went on without the others."""
        raise NotImplementedError

    def meet(self, visit: Visit) -> None:
        """The process of the visit waits at its place for the others."""
        raise NotImplementedError

    def end(self, name: str) -> None:
        """The process has ended, and won't come any more: nobody waits for it."""
        raise NotImplementedError

    @property
    def never_came(self) -> Tuple[str, ...]:
        """Who never came to its place."""
        return tuple(name for name, count in self.came.items() if not count)

    @property
    def why(self) -> str:
        """Why they haven't met, in a few words; nothing where they have."""
        if self.met is not None:
            return ""
        absent = self.never_came
        if absent:
            waited = [name for name in self.places if name not in absent]
            told = f"{listing(absent)} never came to {'their places' if len(absent) > 1 else 'its place'}"
            return f"{told} while {listing(waited)} waited" if waited else told
        gave_up = self.gave_up
        late = [it for it in gave_up if it.gone] or gave_up
        return str(late[0]) if late else f"{listing(list(self.places))} came"

    def check(self, names: Iterable[str]) -> None:
        """Refuses a watch that lacks a name of the meeting."""
        strange = [name for name in self.places if name not in names]
        if strange:
            raise ValueError(f"the meeting waits for {listing(strange)}, and the watch has no process of that name")

    def place_of(self, name: str, interval: int, held: Sequence[Tuple[str, str]]) -> Optional[Place]:
        """Where a process stands that has made so many events, and holds at these labels and places, the innermost
        last. `None` where it doesn't wait there."""
        where = self.places.get(name, -1)
        if isinstance(where, str):
            fitting = [at for label, at in held if where in (label, at)]
            return Place(interval, fitting[-1]) if fitting else None
        return Place(interval, held[-1][1]) if where is None or where == interval else None

    def __str__(self) -> str:
        met = self.met
        return f"not met: {self.why}" if met is None else f"met: {moment(met)}"

    def __repr__(self) -> str:
        return f"{type(self).__name__}({self.places!r}, patience={self.patience!r})"


def listing(names: Sequence[str]) -> str:
    """Names as they are told: "ada", "ada and ben", "ada, ben and cyd"."""
    return ", ".join(names) if len(names) < 2 else f"{', '.join(names[:-1])} and {names[-1]}"


def moment(places: Mapping[str, Place]) -> str:
    """Who was where, as it is told."""
    return ", ".join(f"{name} at {place.at}" for name, place in places.items())


def checked(places: Mapping[str, Where]) -> Dict[str, Where]:
    """The places of a meeting."""
    if not isinstance(places, Mapping) or not places:
        raise TypeError(f"the places of a meeting are a dict with a place for each name, and not {places!r}")
    for name, where in places.items():
        if not isinstance(name, str):
            raise TypeError(f"the name of a process is a text, and not {name!r}")
        if where is not None and (isinstance(where, bool) or not isinstance(where, (int, str))):
            raise TypeError(f"{name} waits in an interval, at a label, or at None, and not at {where!r}")
        if where == "" or (isinstance(where, int) and where < 0):
            raise ValueError(f"{name} waits in an interval from 0 on, or at a label, and not at {where!r}")
    return dict(places)


def checked_patience(patience: float) -> float:
    """How many seconds one waits at most."""
    if not 0 < patience < math.inf:
        raise ValueError(f"the patience of a meeting is a number of seconds above 0, and not {patience!r}")
    return min(float(patience), threading.TIMEOUT_MAX)
