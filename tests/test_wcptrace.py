"""What `wcptrace` answers to words and a log: answers, faults, each moment, and the events at which conditions hold."""
import json
import pathlib

import pytest
from logs import ALL, ANSWERS, FAULTS, Row, found, name_of, none
from programs import ask, label

# The texts of a client of a lock, who is alice.
CLIENT = [
    "asks for the lock",
    "holds the lock",
    "writes",
    "gives the lock back",
    "asks for the lock",
    "holds the lock, gives the lock back",
    "",
]

# Words, and a `+` for each event of the client at which the condition that they say holds, and a `-` where it doesn't.
MARKS = [
    (["--while", "alice=holds the lock"], "-+---+-"),
    (["--at", "alice=holds the lock"], "-+---+-"),
    (["--while", "alice=^holds the lock$"], "-+-----"),
    (["--while", "alice=lock"], "++-+++-"),
    (["--while", "alice="], "+++++++"),
    (["--while", "alice=^$"], "------+"),
    (["--while", "alice=x=y"], "-------"),
    (["--from", "alice=holds", "--until", "alice=gives"], "-++--++"),
    # A text that matches both turns the condition round.
    (["--from", "alice=lock", "--until", "alice=lock"], "+--+-++"),
    (["--from", "alice=^$", "--until", "alice="], "------+"),
    # Before the first event it doesn't hold, and an until alone begins nothing.
    (["--from", "alice=never", "--until", "alice=gives"], "-------"),
]


def many_hosts() -> list[Row]:
    """Three hundred hosts with an event each, of which sixteen are watched, and two hundred."""
    log = "".join(f'h{number} {{"h{number}":1}}\nholds\n' for number in range(100, 400))
    rows = []
    for last in 116, 300:
        answer = found(*(f"h{number} line {2 * number - 198} holds" for number in range(100, last)))
        for options in ["--while"], ["--at"], ["--from", "--until"]:
            rows.append(Row(watching(options, range(100, last)), log, answer))
        mixed = watching(["--while"], range(100, 108)) + watching(["--from", "--until"], range(108, last))
        rows.append(Row(mixed, log, answer))
    return rows


def watching(options: list[str], numbers: range) -> list[str]:
    """The words that name each of these hosts by each of these options."""
    return [word for number in numbers for option in options for word in (option, f"h{number}=holds")]


def marked(words: list[str], texts: list[str], marks: str) -> list[Row]:
    """The client's log, cut after each event: an event at which the condition holds is one more that has matched."""
    rows = []
    log = '{"host":"zed","clock":{"zed":1},"event":"waits"}\n'
    for count, text in enumerate(texts, 1):
        log += json.dumps({"host": "alice", "clock": {"alice": count}, "event": text}) + "\n"
        answer = none(f"alice events {count} matched {marks[:count].count('+')}", "zed events 1 matched 0")
        rows.append(Row([*words, "--at", "zed=never", "--form", "lines"], log, answer))
    return rows


@pytest.mark.parametrize("row", ANSWERS, ids=name_of)
def test_answers(wcptrace: pathlib.Path, row: Row) -> None:
    assert ask(wcptrace, row.words, row.log) == row.answer


@pytest.mark.parametrize("row", FAULTS, ids=name_of)
def test_faults(wcptrace: pathlib.Path, row: Row) -> None:
    assert ask(wcptrace, row.words, row.log) == row.answer


@pytest.mark.parametrize("row", ALL, ids=name_of)
def test_each_moment(wcptrace: pathlib.Path, row: Row) -> None:
    assert ask(wcptrace, row.words, row.log) == row.answer


@pytest.mark.parametrize("row", many_hosts(), ids=lambda row: label(row.words[0], len(row.words)))
def test_many_hosts(wcptrace: pathlib.Path, row: Row) -> None:
    assert ask(wcptrace, row.words, row.log) == row.answer


@pytest.mark.parametrize("words, marks", MARKS, ids=[label(words) for words, _ in MARKS])
def test_where_a_condition_holds(wcptrace: pathlib.Path, words: list[str], marks: str) -> None:
    for row in marked(words, CLIENT, marks):
        assert ask(wcptrace, row.words, row.log) == row.answer


def test_an_equals_sign_in_a_text(wcptrace: pathlib.Path) -> None:
    for row in marked(["--while", "alice=state=leader"], ["state=leader", "leader", "state=follower"], "+--"):
        assert ask(wcptrace, row.words, row.log) == row.answer
