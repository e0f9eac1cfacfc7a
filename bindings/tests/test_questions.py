"""Several questions of one checker, and checkers that are saved."""

from __future__ import annotations

import itertools
import random
from typing import Any, Callable

import pytest
from shared import observed

import wullaphi
from wullaphi import Checker, Note, Probe, Watch

COMPUTATIONS = 20_000
SAVED_RUNS = 200
WATCH = 7


def computation(rng: random.Random, processes: int, steps: int, close: bool) -> list[Note]:
    """The notes of a random computation, in an order that keeps those of each process in theirs."""
    probes = [Probe(WATCH, p, processes, flag_of_sends=rng.random() < 0.5) for p in range(processes)]
    flying: list[tuple[int, bytes]] = []
    notes: list[Note] = []
    for _ in range(steps):
        p = rng.randrange(processes)
        choice = rng.random()
        if choice < 0.5:
            note = probes[p].observe(rng.random() < 0.3, tag=rng.randrange(4))
            if note is not None:
                notes.append(note)
        elif choice < 0.75 and processes > 1:
            to = (p + rng.randrange(1, processes)) % processes
            flying.append((to, probes[p].stamp(to)))
        elif flying:
            to, stamp = flying.pop(rng.randrange(len(flying)))
            probes[to].receive(stamp)
    return notes + [probe.close() for probe in probes] if close else notes


def told(checker: Checker, question: int) -> tuple[object, object, object]:
    """All that a question tells."""
    return checker.report(question), checker.cut(question), checker.tags(question)


def test_that_pairs_are_told_as_alone() -> None:
    rng = random.Random(1)
    found = 0
    for number in range(COMPUTATIONS):
        processes = rng.randrange(2, 5)
        notes = computation(rng, processes, rng.randrange(30), number % 2 == 1)
        panel = Checker(WATCH, processes, pairs=True)
        for note in notes:
            panel.take(note)
        for question, pair in enumerate(itertools.combinations(range(processes), 2)):
            alone = Checker(WATCH, processes, watched=pair)
            for note in notes:
                alone.take(note)
            assert told(panel, question) == told(alone, 0), f"pair {pair} of computation {number}"
            found += alone.report().known == "found"
        assert panel.report(pair) == panel.reports()[-1] and len(panel.reports()) == question + 1, "by its processes"
    assert found > COMPUTATIONS // 10, f"{found} pairs have a cut"


@pytest.mark.parametrize("asked", ["all", "pairs", "questions", "watched"])
def test_that_what_is_saved_goes_on(asked: str) -> None:
    """A checker that is saved and loaded before each note tells what one tells that lived on."""
    rng = random.Random(f"2 {asked}")
    for number in range(SAVED_RUNS // 4):
        processes = rng.randrange(2, 6)
        notes = computation(rng, processes, 60, number % 2 == 1)
        everyone = range(processes)
        questions = [rng.sample(everyone, rng.randrange(1, processes + 1)) for _ in range(3)]
        settings: dict[str, Any] = {"pairs": True, "questions": questions, "watched": [0]}
        words: dict[str, Any] = {} if asked == "all" else {asked: settings[asked]}
        whole, saved = (Checker(WATCH, processes, **words) for _ in range(2))
        for note in notes:
            again = Checker.load(saved.save())
            assert again.save() == saved.save() and again.questions == saved.questions, f"loaded in run {number}"
            saved = again
            whole.take(note)
            saved.take(note)
        assert saved.reports() == whole.reports(), f"the reports of run {number}"
        for question in range(len(whole.questions)):
            assert told(saved, question) == told(whole, question), f"question {question} of run {number}"
        assert [saved.taken(p) for p in everyone] == [whole.taken(p) for p in everyone], "what was taken"


@pytest.fixture
def saved() -> bytes:
    """What a checker saves that has taken notes."""
    checker = Checker(WATCH, 3, pairs=True)
    for note in computation(random.Random(3), 3, 40, False):
        checker.take(note)
    return checker.save()


@pytest.mark.parametrize("flip", [1, 0x80, 0xFF], ids=hex)
def test_that_a_byte_is_damaged(saved: bytes, flip: int) -> None:
    for place in range(len(saved)):
        other = bytearray(saved)
        other[place] ^= flip
        with pytest.raises(wullaphi.NoSaved):
            Checker.load(bytes(other))


def test_that_bytes_are_missing_or_too_many(saved: bytes) -> None:
    for bad in (*(saved[:length] for length in range(0, len(saved), 7)), saved + b"\0", b""):
        with pytest.raises(wullaphi.NoSaved):
            Checker.load(bad)


def test_random_bytes() -> None:
    rng = random.Random(3)
    for _ in range(1000):
        with pytest.raises(wullaphi.NoSaved):
            Checker.load(rng.randbytes(rng.randrange(200)))


NAMED = Watch(WATCH, ["ada", "ben", "cyd"])


@pytest.fixture
def checker() -> Checker:
    """A checker of three questions, by names and by numbers."""
    return Checker(NAMED, questions=[{"ada", "ben"}, {2}, ["cyd", 0, "ada"]])


def test_questions_by_names_and_numbers(checker: Checker) -> None:
    assert checker.questions == ((0, 1), (2,), (0, 2)) and checker.watched == (0, 1, 2), "names and numbers"
    assert checker.report({0, "ben"}) == checker.report(0) and checker.report("cyd") == checker.report(1), "by them"
    questions: list[Any] = [0, 1, {"ada", "cyd"}]
    assert [checker.is_starved(question) for question in questions] == [False] * 3, "none is starved"
    assert checker.tags(1) is None and checker.cut(1) is None, "nothing is found yet"
    assert Checker.load(checker.save()).watch == Watch(WATCH, 3), "a checker from bytes has no names"


def test_a_question_that_was_not_asked(checker: Checker) -> None:
    questions: list[Any] = [3, {"ada"}, {"dan"}]
    for question in questions:
        with pytest.raises(wullaphi.OutOfRange):
            checker.report(question)
    with pytest.raises(wullaphi.OutOfRange):
        checker.cut(-1)
    with pytest.raises(wullaphi.OutOfRange):
        checker.tags(1 << 40)
    with pytest.raises(wullaphi.OutOfRange):
        checker.is_starved(3)
    with pytest.raises(wullaphi.NotInCut):
        checker.tag("ada", 0)


@pytest.mark.parametrize("questions", [[], [[]], [{3}], [{0}] * 1025, [{"dan"}], [[], {0}]],
                         ids=["none", "of nobody", "of a stranger", "1,025", "of a strange name", "of nobody, and one"])
def test_questions_that_are_out_of_range(questions: Any) -> None:
    with pytest.raises(wullaphi.OutOfRange):
        Checker(NAMED, questions=questions)


def test_the_most_questions() -> None:
    assert len(Checker(NAMED, questions=[{0}] * 1024).reports()) == 1024
    assert len(Checker(1, 16, pairs=True).questions) == 120, "the pairs of 16"


@pytest.mark.parametrize("processes", [1, 17])
def test_pairs_of_too_few_or_too_many(processes: int) -> None:
    with pytest.raises(wullaphi.OutOfRange):
        Checker(1, processes, pairs=True)


@pytest.mark.parametrize("words", [{"watched": [0]}, {"questions": [{0}]}], ids=["watched", "questions"])
def test_that_pairs_are_asked_alone(words: dict[str, Any]) -> None:
    with pytest.raises(TypeError):
        Checker(NAMED, pairs=True, **words)


def test_that_who_is_watched_must_be_agreed(checker: Checker) -> None:
    quiet = Probe(NAMED, "cyd", watched=False).close()
    with pytest.raises(wullaphi.NotAgreed):
        checker.take(quiet)
    Checker(NAMED, questions=[{0}, {1}]).take(quiet)


@pytest.mark.parametrize("watch", [Watch(8, ["ada", "ben", "cyd"]), Watch(WATCH, 2)], ids=["number", "processes"])
def test_what_another_watch_saved(checker: Checker, watch: Watch) -> None:
    with pytest.raises(wullaphi.Stranger):
        Checker.load(checker.save(), watch)


@pytest.mark.parametrize("name", ["report", "reports", "cut", "tags", "save", "is_starved"])
def test_a_call_after_the_end(checker: Checker, name: str) -> None:
    checker.end()
    call: Callable[[], object] = getattr(checker, name)
    with pytest.raises(wullaphi.NoChecker):
        call()


@pytest.mark.parametrize("checker_of", [
    lambda: Checker(WATCH, 2), lambda: Checker(WATCH, 2, questions=[{0, 1}, {0, 1}])], ids=["one question", "two"])
def test_spent_tags(checker_of: Callable[[], Checker]) -> None:
    """The tags of snapshots that can't be in a cut any more are dropped: a checker doesn't grow with them."""
    checker = checker_of()
    probes = [Probe(WATCH, 0, 2), Probe(WATCH, 1, 2)]
    sizes = []
    for turn in range(1, 5_001):
        here = turn % 2
        checker.take(observed(probes[here], tag=turn))
        probes[1 - here].receive(probes[here].stamp(1 - here))
        sizes.append(len(checker.save()))
    assert all(report.known == "undecided" for report in checker.reports()), "no cut of those who take turns"
    assert max(sizes[1_000:]) <= max(sizes[:1_000])
