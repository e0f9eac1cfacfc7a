"""Each call of a checker and each of its refusals."""

from __future__ import annotations

import gc
import struct
import sys
from typing import Iterator

import pytest
from shared import observed, run_together

import wullaphi
from wullaphi import Checker, Note, Probe

WORD = 2 ** 32
LOST = 3


@pytest.mark.parametrize("taker", [1, 2])
def test_a_queue_of_jobs(taker: int) -> None:
    """Who takes a job knows of what came before it, whoever that is: no cut has both states."""
    probes = [Probe(7, process, 3) for process in range(3)]
    with Checker(7, 3, [0, taker]) as checker:
        checker.take(observed(probes[0]))
        probes[taker].receive(probes[0].stamp())
        checker.take(observed(probes[taker]))
        for probe in probes:
            checker.take(probe.close())
        assert checker.report() == wullaphi.Report("nothing")


@pytest.mark.parametrize("words", [
    (7, 0), (7, 17), (7, 2, [2]), (7, 2, []), (-1, 2), (2 ** 64, 2), (1, WORD + 1), (1, WORD + 1, [0]), (1, 2, [WORD])],
    ids=str)
def test_a_checker_that_is_out_of_range(words: tuple[int, int, list[int]]) -> None:
    with pytest.raises(wullaphi.OutOfRange):
        Checker(*words)


def test_a_checker_of_no_processes() -> None:
    with pytest.raises(TypeError):
        Checker(7)


@pytest.fixture
def told() -> tuple[Note, Note, Note, Note, bytes]:
    """Two notes of process 0, the first of 1, which knows of the first, the last of 0, and the stamp between them."""
    a, b = Probe(7, 0, 2), Probe(7, 1, 2)
    first, stamp = observed(a), a.stamp(1)
    second = observed(a)
    b.receive(stamp)
    return first, second, observed(b), a.close(), stamp


def test_notes_in_turn(told: tuple[Note, Note, Note, Note, bytes]) -> None:
    first, second, third, last, _ = told
    checker = Checker(7, 2)
    assert checker.report() == wullaphi.Report("undecided"), "undecided"
    with pytest.raises(wullaphi.OutOfTurn):
        checker.take(second)
    checker.take(first)
    with pytest.raises(wullaphi.TakenAlready):
        checker.take(first)
    checker.take(third)
    assert checker.report().known == "undecided", "the first state of a precedes that of b"
    assert checker.taken(0) == 1 and checker.taken(1) == 1, "taken"
    for process in (2, WORD, -WORD):
        with pytest.raises(wullaphi.OutOfRange):
            checker.taken(process)
    checker.take(second)
    assert checker.report() == wullaphi.Report("found", (1, 1)), "found"
    checker.take(last)
    for note in (first, second, last):
        with pytest.raises(wullaphi.TakenAlready):
            checker.take(note)
    with pytest.raises(wullaphi.Ended):
        checker.lose(0)


def test_notes_that_are_refused(told: tuple[Note, Note, Note, Note, bytes]) -> None:
    first, stamp = told[0], told[4]
    for bad in (stamp, first + b"x"):
        with pytest.raises(wullaphi.NoNote):
            Checker(7, 2).take(bad)
    with pytest.raises(wullaphi.OtherWatch):
        Checker(7, 3).take(first)
    for watch in (8, 7 + WORD):
        with pytest.raises(wullaphi.Stranger):
            Checker(watch, 2).take(first)


def test_a_checker_that_has_ended() -> None:
    checker = Checker(7, 2)
    checker.end()
    with pytest.raises(wullaphi.NoChecker):
        checker.end()
    with pytest.raises(wullaphi.NoChecker):
        checker.report()
    with pytest.raises(wullaphi.NoChecker):
        checker.take(observed(Probe(7, 0, 2)))


def test_who_is_watched_must_be_agreed() -> None:
    quiet = Probe(7, 0, 2, watched=False).close()
    with pytest.raises(wullaphi.NotAgreed):
        Checker(7, 2).take(quiet)
    for note in (quiet, Probe(7, 0, 2).close()):
        with Checker(7, 2, [1]) as checker:
            checker.take(note)
            assert checker.report().known == "undecided", "a process that the checker doesn't watch"


def test_a_cut_of_one_process() -> None:
    with Checker(7, 3, [1]) as checker:
        checker.take(observed(Probe(7, 1, 3)))
        assert checker.report() == wullaphi.Report("found", (None, 0, None))


def test_nothing() -> None:
    a, b = Probe(7, 0, 2), Probe(7, 1, 2)
    notes = [observed(a)]
    b.receive(a.stamp(1))
    notes += [observed(b), a.close(), b.close()]
    with Checker(7, 2) as checker:
        for note in notes:
            checker.take(note)
        assert checker.report() == wullaphi.Report("nothing")


def test_probes_of_two_threads() -> None:
    notes: dict[int, list[Note]] = {0: [], 1: []}

    def work(process: int) -> None:
        probe = Probe(9, process, 2)
        for _ in range(20000):
            notes[process].append(observed(probe))
            probe.stamp(1 - process)
        notes[process].append(probe.close())

    run_together(lambda: work(0), lambda: work(1))
    with Checker(9, 2) as checker:
        for process in range(2):
            for note in notes[process]:
                checker.take(note)
        assert checker.taken(0) == 20000 and checker.taken(1) == 20000, "all notes are taken"
        assert checker.report() == wullaphi.Report("found", (0, 0)), "found in two threads"


def test_a_note_of_which_a_byte_is_damaged() -> None:
    """Each byte in turn: it is refused, or harmless."""
    note = observed(Probe(7, 0, 3))
    for place in range(len(note)):
        damaged = note[:place] + bytes([note[place] ^ 0x80]) + note[place + 1:]
        with Checker(7, 3) as checker:
            try:
                checker.take(damaged)
            except wullaphi.Refused:
                pass
            assert checker.report().known == "undecided", f"the checker goes on after a note that is damaged at {place}"


@pytest.fixture
def of_lost() -> tuple[Note, Note, bytes]:
    """A snapshot, the last note behind it, and the mark of a lost process in its place, which only a watch can make."""
    probe = Probe(1, 0, 2)
    snapshot, closed = observed(probe), probe.close()
    return snapshot, closed, closed[:12] + struct.pack("=I", LOST) + closed[16:]


def test_the_mark_of_a_lost_process(of_lost: tuple[Note, Note, bytes]) -> None:
    snapshot, closed, mark = of_lost
    assert wullaphi.is_last(mark), "a lost process tells nothing more"
    for bad in (mark[:-1], mark + b"x"):
        with pytest.raises(wullaphi.NoNote):
            wullaphi.is_last(bad)
    with Checker(1, 2) as checker:
        checker.take(snapshot)
        checker.take(mark)
        with pytest.raises(wullaphi.Ended):
            checker.take(closed)
        with pytest.raises(wullaphi.TakenAlready):
            checker.take(mark)
        with pytest.raises(wullaphi.Ended):
            checker.lose(0)


def test_a_process_that_is_called_lost(of_lost: tuple[Note, Note, bytes]) -> None:
    snapshot, closed, mark = of_lost
    with Checker(1, 2) as checker:
        checker.take(snapshot)
        for process in (2, WORD):
            with pytest.raises(wullaphi.OutOfRange):
                checker.lose(process)
        checker.lose(0)
        with pytest.raises(wullaphi.Ended):
            checker.take(closed)
        for note in (snapshot, mark):
            with pytest.raises(wullaphi.TakenAlready):
                checker.take(note)
        checker.take(Probe(1, 1, 2).close())
        assert checker.report().known == "undecided", "of a lost process nothing is certain"


@pytest.fixture
def unraisable() -> Iterator[list[object]]:
    """What is raised where nobody can catch it."""
    told: list[object] = []
    hook, sys.unraisablehook = sys.unraisablehook, told.append
    yield told
    sys.unraisablehook = hook


def test_that_a_checker_is_freed_once(unraisable: list[object]) -> None:
    """When it is ended, left or forgotten; and a checker that was never made isn't."""
    with Checker(1, 2) as left:
        pass
    with pytest.raises(wullaphi.NoChecker):
        left.report()
    with Checker(1, 2) as ended:
        ended.end()
    with ended:
        pass
    forgotten = Checker(1, 2)
    memory = forgotten._memory
    assert memory.held, "the memory of a checker"
    del left, ended, forgotten
    with pytest.raises(TypeError):
        Checker()  # type: ignore[call-arg]
    with pytest.raises(wullaphi.OutOfRange):
        Checker(1, 2, [2])
    gc.collect()
    assert not memory.held, "a checker that is forgotten is freed"
    assert unraisable == [], "nothing is raised where a checker is freed"
