"""What the report of a mesh must say, by brute force over what each worker durably did. No clock of the library is
used: which event happened before which follows from the messages alone.

The log of a worker has what it did in turn: ["send", MESSAGE], ["receive", MESSAGE], ["holds", TAG], ["free"] and
["close"]. Its events are its sends and receives; interval N is the time behind N of them.
"""

from __future__ import annotations

import itertools
from typing import Any, List, Optional, Sequence, Tuple

# What a worker did in turn; and a moment, which is an interval with its tag.
Log = Sequence[Tuple[Any, ...]]
Moment = Tuple[int, int]


class Impossible(Exception):
    """Logs that no run can have: somebody received what nobody sent."""


class History:
    """The logs of all workers. With `lasts` what holds stays true in later intervals, until it is said to be free."""

    def __init__(self, logs: Sequence[Log], lasts: bool) -> None:
        self._events = [[it for it in log if it[0] in ("send", "receive")] for log in logs]
        self._true = [tags_of(log, lasts) for log in logs]
        self._sent = {name: (worker, at + 1) for worker, events in enumerate(self._events)
                      for at, (kind, name) in enumerate(events) if kind == "send"}
        self._known: List[List[List[int]]] = [[[0] * len(logs)] for _ in logs]
        while any([self._advance(worker) for worker in range(len(logs))]):
            pass
        late = [name for known, events in zip(self._known, self._events) for _, name in events[len(known) - 1:][:1]]
        if late:
            raise Impossible(f"{', '.join(late)} received before the send, or never sent")

    def _advance(self, worker: int) -> bool:
        """Says of a worker's next events how many of each worker's happened before, as far as that is known by now.
        Whether it is for one at least."""
        events, known = self._events[worker], self._known[worker]
        before = len(known)
        for kind, name in events[before - 1:]:
            latest = list(known[-1])
            if kind == "receive":
                sender, at = self._sent.get(name, (worker, len(events)))
                if at >= len(self._known[sender]):
                    break
                latest = [max(pair) for pair in zip(latest, self._known[sender][at])]
            latest[worker] = len(known)
            known.append(latest)
        return len(known) > before

    def earliest(self, one: int, other: int) -> Optional[Tuple[Moment, Moment]]:
        """The first two intervals, each with its tag, that could have been at once: of all pairs in which both hold.
        None: there are none. The first of one worker and of the other are in one pair."""
        for its, at in itertools.product(sorted(self._true[one]), sorted(self._true[other])):
            if self._known[one][its][other] <= at and self._known[other][at][one] <= its:
                return (its, self._true[one][its]), (at, self._true[other][at])
        return None

    def report(self, names: Sequence[str]) -> List[str]:
        """The lines of `wcpcollect --pairs`, in the order of the alphabet."""
        return sorted(self._line(names, pair) for pair in itertools.combinations(range(len(names)), 2))

    def _line(self, names: Sequence[str], pair: Tuple[int, int]) -> str:
        found = self.earliest(*pair)
        if found is None:
            return "none " + ", ".join(names[it] for it in pair)
        return "found " + ", ".join(f"{names[it]} {interval} tag {tag}" for it, (interval, tag) in zip(pair, found))


def tags_of(log: Log, lasts: bool) -> dict[int, int]:
    """The intervals in which a worker held, each with the tag of the first time."""
    true: dict[int, int] = {}
    interval, holding = 0, None
    for kind, *told in log:
        if kind in ("send", "receive"):
            interval += 1
            if holding is not None:
                true[interval] = holding
        elif kind == "holds":
            true.setdefault(interval, told[0])
            holding = told[0] if lasts else None
        else:
            holding = None
    return true
