"""Threads that meet at a moment: who is there, and whether they have met."""

from __future__ import annotations

import threading as plain
import time
from typing import Any, Callable, Dict, Optional, Tuple, Union

import pytest
from meetings import LONG, NAMES, SHORT, hold, run, until
from watched import Body

import wullaphi
from wullaphi import GaveUp, Meeting, queue, threading

RUNS = 100


def test_two_that_share_nothing() -> None:
    found = run(None, hold, hold)
    assert found.known == "found"
    places = {name: place.interval for name, place in found.moment.items()}
    for _ in range(RUNS):
        meeting = Meeting(places, LONG)
        assert run(meeting, hold, hold) == found
        assert meeting.met == found.moment
    assert str(meeting) == f"met: ada at {found.moment['ada'].at}, ben at {found.moment['ben'].at}"
    assert (meeting.came, meeting.gave_up, meeting.never_came) == ({"ada": 1, "ben": 1}, [], ())


def under_one_lock() -> Tuple[Body, Body]:
    """Two under one plain lock, which the watch doesn't see."""
    lock = plain.Lock()

    def work() -> None:
        with lock, wullaphi.holding("holds"):
            pass

    return work, work


@pytest.mark.parametrize("where", ["interval", "label", "place", None])
def test_two_under_a_plain_lock(where: Optional[str]) -> None:
    found = run(None, *under_one_lock())
    assert found.known == "found", "no stamp shows the lock"
    ways: Dict[Optional[str], Callable[[wullaphi.Place], Union[int, str, None]]] = {
        "interval": lambda it: it.interval, "label": lambda it: "holds", "place": lambda it: it.at,
        None: lambda it: None}
    for _ in range(RUNS):
        meeting = Meeting({name: ways[where](place) for name, place in found.moment.items()}, SHORT)
        run(meeting, *under_one_lock())
        first, last = (it.name for it in meeting.gave_up)
        assert (meeting.met, {first, last}) == (None, set(NAMES))
        assert str(meeting) == f"not met: {last} came while {first} had gone"


def put_and_got() -> Tuple[Body, Body]:
    """One is true, sends, and stays true; the other is true once it has received that."""
    items: queue.Queue[int] = queue.Queue()

    def ada() -> None:
        with wullaphi.holding("a"):
            items.put(1)

    def ben() -> None:
        items.get()
        with wullaphi.holding("b"):
            pass

    return ada, ben


def test_one_that_sends_and_stays_true() -> None:
    found = run(None, *put_and_got())
    for _ in range(30):
        meeting = Meeting({name: place.interval for name, place in found.moment.items()}, LONG)
        run(meeting, *put_and_got())
        assert meeting.met == found.moment


def test_one_that_comes_again() -> None:
    """Before it sends nobody can come; it comes again behind that."""
    meeting = Meeting({"ada": "a", "ben": "b"}, 1.0)
    run(meeting, *put_and_got())
    assert meeting.gave_up[0] == GaveUp("ada", ("ben",), ())
    assert meeting.met is not None and meeting.met["ada"].interval == 1


def test_three() -> None:
    names = ["ada", "ben", "cyd"]
    meeting = Meeting(dict.fromkeys(names), LONG)
    run(meeting, hold, hold, hold, names=names)
    assert set(meeting.met or ()) == set(names)


def test_some_of_those_that_are_watched() -> None:
    meeting = Meeting({"ada": None, "cyd": None}, LONG)
    run(meeting, hold, lambda: None, hold, names=["ada", "ben", "cyd"])
    assert set(meeting.met or ()) == {"ada", "cyd"}


def nested() -> None:
    with wullaphi.holding("outer"):
        with wullaphi.holding("inner"):
            pass


@pytest.mark.parametrize("label", ["outer", "inner"])
def test_the_labels_of_blocks_in_each_other(label: str) -> None:
    meeting = Meeting({"ada": label, "ben": None}, LONG)
    run(meeting, nested, hold)
    assert meeting.met is not None and meeting.met["ada"].at.startswith(f"{label} (test_meetings.py:")


def test_that_all_wait_until_the_last_one_comes() -> None:
    """What is behind their places comes behind the arrival of the last one."""
    names = ["ada", "ben", "cyd"]
    meeting = Meeting(dict.fromkeys(names), LONG)
    order = []

    def waits() -> None:
        hold()
        order.append("goes on")

    def cyd() -> None:
        until(lambda: meeting.came["ada"] and meeting.came["ben"])
        time.sleep(0.05)
        order.append("the last one comes")
        hold()

    run(meeting, waits, waits, cyd, names=names)
    assert order == ["the last one comes", "goes on", "goes on"]
    assert meeting.gave_up == []


def test_one_who_has_given_up() -> None:
    """It isn't there any more, though it still holds."""
    meeting = Meeting({"ada": "holds", "ben": "holds"}, SHORT)
    has_gone, is_over = plain.Event(), plain.Event()

    def ada() -> None:
        with wullaphi.holding("holds"):
            threading.Lock().acquire()
            has_gone.set()
            is_over.wait()

    def ben() -> None:
        has_gone.wait()
        hold()
        is_over.set()

    run(meeting, ada, ben)
    assert meeting.met is None
    assert meeting.gave_up[:2] == [GaveUp("ada", ("ben",), ()), GaveUp("ben", ("ada",), ("ada",))]


@pytest.mark.parametrize(("places", "patience", "error", "why"), [
    ({}, 1.0, TypeError, "a dict with a place for each name"), (["ada"], 1.0, TypeError, r"not \['ada'\]"),
    ("ada", 1.0, TypeError, "not 'ada'"), ({1: None}, 1.0, TypeError, "a text, and not 1"),
    ({"ada": 1.5}, 1.0, TypeError, "ada waits in an interval, at a label, or at None, and not at 1.5"),
    ({"ada": True}, 1.0, TypeError, "not at True"), ({"ada": ""}, 1.0, ValueError, "not at ''"),
    ({"ada": -1}, 1.0, ValueError, "from 0 on, or at a label, and not at -1"),
    ({"ada": None}, 0, ValueError, "above 0, and not 0"), ({"ada": None}, -1.0, ValueError, "not -1.0"),
    ({"ada": None}, float("inf"), ValueError, "not inf"), ({"ada": None}, float("nan"), ValueError, "not nan")],
    ids=str)
def test_meetings_that_are_refused(places: Any, patience: float, error: type[Exception], why: str) -> None:
    with pytest.raises(error, match=why):
        Meeting(places, patience)


def test_runs_that_are_refused() -> None:
    with pytest.raises(ValueError, match="^the meeting waits for cyd and dee, and the watch has no "):
        wullaphi.watching(NAMES, meeting=Meeting(dict.fromkeys(["ada", "cyd", "dee"])))
    other: Any = "ada"
    with pytest.raises(TypeError, match="meet by a wullaphi.Meeting, and not by 'ada'"):
        wullaphi.watching(NAMES, meeting=other)
    meeting = Meeting({"ada": None})
    run(meeting, hold, hold)
    with pytest.raises(RuntimeError, match="has had its run"):
        run(meeting, hold, hold)
    assert run(None, hold, hold).known == "found", "no watch is left behind"
