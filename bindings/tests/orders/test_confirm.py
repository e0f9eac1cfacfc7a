"""Programs that are run until a moment is found, and until it happens."""

from __future__ import annotations

import json
import pathlib
import threading as plain
import time
from typing import Any, Callable, List, Optional, Sequence

import pytest
from meetings import LONG, NAMES, SHORT
from watched import SECONDS, start_all

import wullaphi
from wullaphi import Confirmed, Meeting, Outcome, Place, queue, threading
from wullaphi._watching import Watching


Program = Callable[[], object]


def of_two(work: Callable[[], object], other: Optional[Callable[[], object]] = None) -> Program:
    """A program of two threads."""
    return lambda: start_all([threading.Thread(target=work, name="ada"),
                              threading.Thread(target=other or work, name="ben")])


def hold() -> None:
    with wullaphi.holding("holds"):
        pass


def under(lock: Any) -> Program:
    """Two under one lock."""
    def work() -> None:
        with lock, wullaphi.holding("holds"):
            pass
    return of_two(work)


def test_two_that_share_nothing() -> None:
    told = wullaphi.confirm(of_two(hold), NAMES, patience=LONG)
    line = hold.__code__.co_firstlineno + 1
    assert str(told) == (f"met in run 2: ada at holds (test_confirm.py:{line}), ben at holds (test_confirm.py:{line})")
    assert (told.outcome.known, told.found_in, told.runs, told.why) == ("found", 1, 2, {})


def test_two_under_a_watched_lock() -> None:
    told = wullaphi.confirm(under(threading.Lock()), NAMES, runs=5)
    assert str(told) == "no moment was found in 5 runs, of which the last tells none"
    assert (told.met, told.found_in) == (None, 0)


def test_two_under_a_plain_lock() -> None:
    """Whoever is first gives up, and the other one comes too late."""
    told = wullaphi.confirm(under(plain.Lock()), NAMES, 101, SHORT)
    assert told.met is None and sum(told.why.values()) == 100
    assert set(told.why) <= {"ben came while ada had gone", "ada came while ben had gone"}
    assert str(told).startswith("not met in 101 runs: ")
    assert str(told).endswith(" times); either an order isn't stamped or the runs never came there")


def in_turn() -> Program:
    """The first waits in vain, and then lets the second go, by what no watch sees."""
    flag = plain.Event()

    def ada() -> None:
        hold()
        flag.set()

    def ben() -> None:
        flag.wait()
        hold()

    return of_two(ada, ben)


def test_what_is_told_of_two_that_are_kept_apart() -> None:
    told = wullaphi.confirm(lambda: in_turn()(), NAMES, 4, SHORT)
    assert str(told) == ("not met in 4 runs: ben came while ada had gone (3 times); either an order "
                         "isn't stamped or the runs never came there")


def test_one_that_doesnt_come_again() -> None:
    """It holds in the first run alone."""
    held: List[int] = []

    def ben() -> None:
        if not held:
            hold()
        held.append(1)

    told = wullaphi.confirm(of_two(hold, ben), NAMES, 4, SHORT)
    assert str(told) == ("not met in 4 runs: ben never came to its place while ada waited (3 times); "
                         "either an order isn't stamped or the runs never came there")


class Orders:
    """Two whose order changes from run to run: in all runs but some a queue keeps them apart."""

    def __init__(self, apart: Sequence[bool]) -> None:
        self.apart = list(apart)

    def __call__(self) -> None:
        items: queue.Queue[int] = queue.Queue()
        apart = self.apart.pop(0)

        def ada() -> None:
            hold()
            items.put(1)

        def ben() -> None:
            if apart:
                items.get()
            hold()

        of_two(ada, ben)()


def test_runs_that_find_nothing_are_passed_over() -> None:
    told = wullaphi.confirm(Orders([True, True, False, False]), NAMES, patience=LONG)
    assert (told.found_in, told.runs, set(told.met or ())) == (3, 4, set(NAMES))


def test_a_moment_in_the_last_run() -> None:
    told = wullaphi.confirm(Orders([True, False]), NAMES, runs=2)
    assert str(told) == "found in run 2, the last one, so that no run was left to meet in"


def test_a_process_that_never_begins() -> None:
    told = wullaphi.confirm(of_two(hold), [*NAMES, "cyd"], runs=2)
    assert str(told) == "no moment was found in 2 runs, of which the last tells undecided: cyd never began"


class Moves:
    """A process whose moment is in another interval, or at another place, in each run."""

    def __init__(self, sends: Sequence[int], labels: Sequence[str]) -> None:
        self.sends, self.labels = list(sends), list(labels)

    def __call__(self) -> None:
        items: queue.Queue[int] = queue.Queue()
        sends, label = self.sends.pop(0), self.labels.pop(0)

        def ada() -> None:
            for number in range(sends):
                items.put(number)
            with wullaphi.holding(label):
                pass

        of_two(ada, hold)()


@pytest.mark.parametrize(("sends", "labels", "run"), [
    ([1, 1], "aa", 2), ([1, 2, 2], "aaa", 3), ([1, 2, 2, 2], "abbb", 4)],
    ids=["in its interval", "at its place", "anywhere"])
def test_ways_to_meet(sends: List[int], labels: str, run: int) -> None:
    """By interval, by label, anywhere, in turn. Whoever ends elsewhere is waited for no longer."""
    told = wullaphi.confirm(Moves(sends, labels), NAMES, runs=run, patience=LONG)
    assert (told.runs, set(told.met or ())) == (run, set(NAMES)), told


def test_pairs() -> None:
    """Of three, of whom two are kept apart, the first pair that is found meets."""
    lock = threading.Lock()

    def apart() -> None:
        with lock:
            hold()

    def program() -> None:
        start_all([threading.Thread(target=body, name=name)
                   for name, body in (("ada", apart), ("ben", apart), ("cyd", hold))])

    told = wullaphi.confirm(program, ["ada", "ben", "cyd"], 3, LONG, pairs=True)
    assert set(told.met or ()) == {"ada", "cyd"}
    told = wullaphi.confirm(program, ["ada", "ben", "cyd"], 3, LONG, questions=[{"ada", "ben"}, {"ben", "cyd"}])
    assert set(told.met or ()) == {"ben", "cyd"}


def own_watch(meeting: Optional[Meeting], **words: Any) -> Watching:
    with wullaphi.watching(NAMES, meeting=meeting, **words) as watch:
        of_two(hold)()
    return watch


def test_a_program_that_opens_its_watch() -> None:
    told = wullaphi.confirm(own_watch, patience=LONG)
    assert (told.runs, set(told.met or ())) == (2, set(NAMES))


@pytest.mark.parametrize("own", [True, False], ids=["its own watch", "names"])
def test_the_log_of_the_run_that_met(tmp_path: pathlib.Path, own: bool) -> None:
    path = tmp_path / "met.log"
    told = (wullaphi.confirm(lambda meeting: own_watch(meeting, logs=True), patience=LONG, log=path) if own else
            wullaphi.confirm(of_two(hold), NAMES, patience=LONG, log=path))
    assert told.met is not None
    events = [(it["host"], it["event"]) for it in map(json.loads, path.read_text().splitlines())]
    assert {(name, f"holds {place.at}") for name, place in told.met.items()} < set(events)


def test_that_no_log_is_written_where_they_dont_meet(tmp_path: pathlib.Path) -> None:
    wullaphi.confirm(under(threading.Lock()), NAMES, runs=2, log=tmp_path / "met.log")
    assert list(tmp_path.iterdir()) == []


@pytest.mark.parametrize(("call", "error", "why"), [
    (lambda: wullaphi.confirm(hold, NAMES, runs=0), ValueError, "at least once, and not 0 times"),
    (lambda: wullaphi.confirm(hold, NAMES, patience=0), ValueError, "above 0, and not 0"),
    (lambda: wullaphi.confirm(hold, pairs=True), TypeError, "for a watch of names"),
    (lambda: wullaphi.confirm(lambda _: None), TypeError, "returns its watch, and not None"),
    (lambda: wullaphi.confirm(lambda _: own_watch(None), runs=2), ValueError, "is without the meeting"),
    (lambda: wullaphi.confirm(own_watch, log="met.log"), ValueError, "keeps no log"),
    (lambda: wullaphi.confirm(hold, ["ada", "ada"]), ValueError, "the same name")],
    ids=["no run", "no patience", "pairs without names", "no watch", "a watch without the meeting", "no log", "names"])
def test_calls_that_are_refused(call: Callable[[], object], error: type[Exception], why: str) -> None:
    with pytest.raises(error, match=why):
        call()


def test_a_program_that_fails() -> None:
    def program() -> None:
        raise OSError("it fails")

    with pytest.raises(OSError, match="it fails"):
        wullaphi.confirm(program, NAMES)
    assert wullaphi.confirm(of_two(hold), NAMES, patience=LONG).met, "no watch is left behind"


class Bank:
    """Accounts under one lock; an audit that isn't careful forgets it."""

    def __init__(self, is_careful: bool) -> None:
        self.balance = [100] * 4
        self.lock = threading.Lock()
        self.is_careful = is_careful

    def transfer(self, a: int, b: int, amount: int) -> None:
        with self.lock, wullaphi.holding("transfer"):
            self.balance[a] -= amount
            time.sleep(0)
            self.balance[b] += amount

    def audit(self) -> int:
        if self.is_careful:
            with self.lock, wullaphi.holding("audit"):
                return sum(self.balance)
        with wullaphi.holding("audit"):
            return sum(self.balance)


def day(is_careful: bool) -> None:
    """Two workers take transfers and audits from one queue."""
    bank = Bank(is_careful)
    jobs: queue.Queue[Optional[int]] = queue.Queue()

    def work() -> None:
        while (job := jobs.get()) is not None:
            if job % 4 == 3:
                bank.audit()
            else:
                bank.transfer(job % 4, (job + 1) % 4, 5)
            jobs.task_done()

    workers = [threading.Thread(target=work, name=name) for name in ("w1", "w2")]
    for job in range(12):
        jobs.put(job)
    for worker in workers:
        jobs.put(None)
        worker.start()
    for worker in workers:
        worker.join(SECONDS)
        assert not worker.is_alive()


def test_the_bank() -> None:
    told = wullaphi.confirm(lambda: day(False), ["w1", "w2"], patience=0.3)
    assert "audit" in {place.at.split(" ")[0] for place in (told.met or {}).values()}, str(told)
    told = wullaphi.confirm(lambda: day(True), ["w1", "w2"], runs=5)
    assert (told.found_in, told.met) == (0, None)


def test_how_it_is_told() -> None:
    found = Outcome("found", {"ada": Place(0, "a"), "ben": Place(3, "b")}, "")
    assert str(Confirmed(found, 1, found.moment, 3, {"ben came while ada had gone": 1})) == (
        "met in run 3: ada at a, ben at b")
    assert str(Confirmed(found, 1, None, 21, {
        "ben never came to its place while ada waited": 7, "ben came while ada had gone": 13})) == (
        "not met in 21 runs: ben never came to its place while ada waited (7 times), ben came while "
        "ada had gone (13 times); either an order isn't stamped or the runs never came there")
