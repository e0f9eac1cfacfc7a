"""A moment that was found is made to happen: its processes wait for each other where they could have been at once.

These are the rules alone, which need no library: who is there, who has gone, and when all have met.
"""

import threading
from typing import Dict, List, Mapping, Optional, Set

from ._places import GaveUp, Meetings, Place, Visit, Where


class Meeting(Meetings):
    """Processes meet at a moment: each waits at its place until all are there, for at most `patience` seconds each time
    that it comes. `places` has, for each name, where that is: an interval, which is how many events the process has
    made; the label of what it holds, or its label, file and line, as a report tells them; or `None` for wherever it
    holds something. A process waits at the end of its interval, before it calls the next thing that is watched.

    `met` is the moment, the place of each, and `None` where they haven't met. It is given only if at one point of the
    run all of them stood there, each between a true observation and its next call of the probe: then all conditions
    held at once. Who gave up waiting is no longer there. Who has ended won't come, and nobody waits for it.

    No places, or a place that is no number, text or `None`, is a `TypeError`; an empty label, a negative interval and a
    patience that isn't above 0 or is infinite are a `ValueError`. A meeting is for one run.

    >>> from wullaphi import threading
    >>> def work():
    ...     with holding("work"):
    ...         pass
    >>> meeting = Meeting({"ada": "work", "ben": None}, patience=600)
    >>> with watching(["ada", "ben"], meeting=meeting) as watch:
    ...     threads = [threading.Thread(target=work, name=name) for name in watch.names]
    ...     for thread in threads:
    ...         thread.start()
    ...     for thread in threads:
    ...         thread.join()
    >>> sorted(meeting.met)
    ['ada', 'ben']
    """

    def __init__(self, places: Mapping[str, Where], patience: float = 0.2) -> None:
        super().__init__(places, patience)
        self._met: Optional[Dict[str, Place]] = None
        self._came: Dict[str, int] = dict.fromkeys(self.places, 0)
        self._gave_up: List[GaveUp] = []
        self._there: Dict[str, Visit] = {}
        self._ended: Set[str] = set()
        self._has_begun = False
        self._is_over = False
        self._lock = threading.Lock()

    @property
    def met(self) -> Optional[Dict[str, Place]]:
        """The moment that happened: the place of each. `None` where they haven't met."""
        return self._met

    @property
    def came(self) -> Dict[str, int]:
        """How often each has come to its place."""
        return dict(self._came)

    @property
    def gave_up(self) -> List[GaveUp]:
        """Each time that one went on without the others."""
        return list(self._gave_up)

    def begin(self) -> None:
        """The run begins."""
        with self._lock:
            if self._has_begun:
                raise RuntimeError("the meeting has had its run: make another one")
            self._has_begun = True

    def meet(self, visit: Visit) -> None:
        """The process of the visit waits at its place for the others."""
        others = threading.Event()
        visit.go_on = others.set
        try:
            if self.come(visit):
                others.wait(self.patience)
        except BaseException:
            self.end(visit.name)  # whoever is interrupted comes no more
            raise
        finally:
            self.leave(visit)

    def come(self, visit: Visit) -> bool:
        """The process of the visit stands at its place from now on. Whether it waits there; `leave` comes before it
        goes on."""
        with self._lock:
            if visit.is_over or self._is_over:
                return False
            self._came[visit.name] += 1
            self._there[visit.name] = visit
            visit.gone = tuple(name for name, count in self._came.items() if count and not self._is_there(name))
            if all(self._is_there(name) for name in self.places):
                self._met = {name: self._there[name].place for name in self.places}
                self._end()
            return not self._is_over and not self._ended

    def leave(self, visit: Visit) -> None:
        """The process goes on, and is no longer there."""
        with self._lock:
            visit.is_over = True
            if self._there.get(visit.name) is visit:
                del self._there[visit.name]
                if self._met is None:
                    missing = tuple(name for name in self.places if name != visit.name and not self._is_there(name))
                    self._gave_up.append(GaveUp(visit.name, missing, visit.gone))

    def end(self, name: str) -> None:
        """The process has ended, and won't come any more: nobody waits for it."""
        with self._lock:
            if name in self.places:
                self._ended.add(name)
                self._let_go()

    def close(self) -> None:
        """The run is over."""
        with self._lock:
            self._end()

    def _is_there(self, name: str) -> bool:
        """Whether a process stands at its place."""
        visit = self._there.get(name)
        return visit is not None and not visit.is_over

    def _end(self) -> None:
        """Nobody waits from now on."""
        self._is_over = True
        self._let_go()

    def _let_go(self) -> None:
        for visit in self._there.values():
            visit.go_on()
