"""The rules of a meeting, alone: each order in which up to three processes come, give up and end, beside what the
words say of it."""

from __future__ import annotations

from typing import Dict, Iterator, List, Set, Tuple

import pytest

from wullaphi import GaveUp, Meeting, Place
from wullaphi._places import Visit

NAMES = ["ada", "ben", "cyd"]
# How many moves are tried of so many processes.
MOVES = {1: 4, 2: 8, 3: 6}

# Who does what.
Move = Tuple[str, str]


class Words:
    """What the words say: who is there, and what came of it."""

    def __init__(self, names: List[str]) -> None:
        self.names = names
        self.there: Set[str] = set()
        self.came: Set[str] = set()
        self.ended: Set[str] = set()
        self.is_met = False
        # Of each that is there, who had gone as it came.
        self.gone: Dict[str, Tuple[str, ...]] = {}
        self.gave_up: List[GaveUp] = []

    def moves(self) -> Iterator[Move]:
        """What can be done next: whoever is there may give up, and whoever isn't may come or end."""
        for name in [] if self.is_met else self.names:
            if name in self.there:
                yield name, "leave"
            elif name not in self.ended:
                yield name, "come"
                yield name, "end"

    def move(self, name: str, what: str) -> None:
        if what == "end":
            self.ended.add(name)
        elif what == "leave":
            self._leaves(name)
        else:
            self.gone[name] = tuple(it for it in self.names if it in self.came - self.there - {name})
            self.came.add(name)
            self.there.add(name)
            self.is_met = len(self.there) == len(self.names)
            if self.ended:
                self._leaves(name)

    def _leaves(self, name: str) -> None:
        self.there.remove(name)
        missing = tuple(it for it in self.names if it not in self.there and it != name)
        self.gave_up.append(GaveUp(name, missing, self.gone[name]))


class Run:
    """A meeting to which processes come, each with its visit."""

    def __init__(self, names: List[str]) -> None:
        self.meeting = Meeting(dict.fromkeys(names))
        self.visits: Dict[str, Visit] = {}
        # Who waits, and who of these needn't any more.
        self.waiting: Set[str] = set()
        self.told: Set[str] = set()

    def move(self, name: str, what: str) -> None:
        if what == "end":
            self.meeting.end(name)
        elif what == "leave":
            self.meeting.leave(self.visits[name])
            self.waiting.discard(name)
            self.told.discard(name)
        else:
            visit = self.visits[name] = Visit(name)
            visit.place, visit.go_on = Place(7, f"place of {name}"), lambda: self.told.add(name)
            if self.meeting.come(visit):
                self.waiting.add(name)
            elif self.meeting.met is None:
                self.meeting.leave(visit)


def orders(names: List[str], count: int) -> Iterator[List[Move]]:
    """Each list of so many moves, one after another, or of fewer where no more are left."""
    lists: List[List[Move]] = [[]]
    while lists:
        moves = lists.pop()
        words = Words(names)
        for move in moves:
            words.move(*move)
        more = [[*moves, move] for move in words.moves()] if len(moves) < count else []
        lists += more
        if not more:
            yield moves


def compare(run: Run, words: Words) -> None:
    """What the meeting does is what the words say."""
    moment = {name: Place(7, f"place of {name}") for name in words.names}
    assert run.meeting.met == (moment if words.is_met else None)
    if words.is_met or words.ended:
        assert run.told >= run.waiting, "nobody waits any longer"
    else:
        assert (run.waiting, run.told) == (words.there, set()), "all that are there wait"
    assert run.meeting.gave_up == words.gave_up
    assert set(run.meeting.never_came) == set(words.names) - words.came
    assert bool(run.meeting.why) != words.is_met


@pytest.mark.parametrize("count", MOVES)
def test_each_order(count: int) -> None:
    names, met, tried = NAMES[:count], 0, 0
    for moves in orders(names, MOVES[count]):
        run, words = Run(names), Words(names)
        for move in moves:
            run.move(*move)
            words.move(*move)
            compare(run, words)
        met += words.is_met
        tried += 1
    assert 0 < met < tried
