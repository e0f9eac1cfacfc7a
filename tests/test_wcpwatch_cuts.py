"""What `wcpwatch` answers to texts that are cut off at each of their bytes."""
import pathlib
from dataclasses import dataclass
from typing import Iterator

import pytest
from programs import Answer, ask
from worked_texts import ANSWERED, REFUSED, Row, refused

# How many lines of each head are `wcp 1` and `procs N`.
OPENING = 2

# How many steps a text may have.
MOST_STEPS = 65_536

# The head of a text of one process, and its step.
HEAD = "wcp 1\nprocs 1\n"
STEP = "p 0 true\n"


# What a text gives that ends with so many whole lines.


@dataclass(frozen=True)
class Told:
    """The replies to its steps, if it is a schedule, then this report, and this status."""

    report: str
    status: int


@dataclass(frozen=True)
class Wrong:
    """The fault of one of these lines. It stays, whatever follows."""

    fault: str


@dataclass(frozen=True)
class Wanting:
    """A fault at the end, which may go where more follows: a line of the head is missing, or a send."""

    fault: str


@dataclass(frozen=True)
class Unfit:
    """The relays don't fit. This is found at the end too, and also where a step begins."""

    fault: str


Front = Told | Wrong | Wanting | Unfit

# No line.
EMPTY = Wanting("line 1: header")
# The line `wcp 1`.
VERSION = Wanting("line 2: header")
# A workload of two processes that emit nothing.
NOTHING = Told("none\nprocess 0 emitted 0 taken 0\nprocess 1 emitted 0 taken 0\ntotal emitted 0 taken 0\n", 1)
# The first of two processes emitted a snapshot, and the other one none.
ONE = Told("none\nprocess 0 emitted 1 taken 1\nprocess 1 emitted 0 taken 0\ntotal emitted 1 taken 1\n", 1)
# The first of two processes emitted two snapshots, and the other one none.
TWO = Told("none\nprocess 0 emitted 2 taken 2\nprocess 1 emitted 0 taken 0\ntotal emitted 2 taken 2\n", 1)
# A schedule of two processes that emitted nothing.
UNDECIDED = Told("undecided\nprocess 0 emitted 0 taken 0\nprocess 1 emitted 0 taken 0\ntotal emitted 0 taken 0\n", 1)
# The first of two processes emitted a snapshot, of which nothing was taken.
FIRST = Told("undecided\nprocess 0 emitted 1 taken 0\nprocess 1 emitted 0 taken 0\ntotal emitted 1 taken 0\n", 1)
# Each of two processes emitted a snapshot.
EACH = Told("undecided\nprocess 0 emitted 1 taken 0\nprocess 1 emitted 1 taken 0\ntotal emitted 2 taken 0\n", 1)
# The first of two processes emitted another one.
ANOTHER = Told("undecided\nprocess 0 emitted 2 taken 0\nprocess 1 emitted 1 taken 0\ntotal emitted 3 taken 0\n", 1)


@dataclass(frozen=True)
class Fronts:
    """What texts give that have the same answers to their first lines: to no line, to the first one, to the first two,
    and so on. The answer to all the lines of a text is in its row."""

    names: list[str]
    answers: list[Front]


# What the first lines of each worked text give that is cut.
WORKED = [
    Fronts(["true again after a send"], [EMPTY, VERSION, NOTHING, ONE, ONE, TWO, TWO]),
    Fronts(
        ["a chain of eight relays"],
        [
            EMPTY,
            VERSION,
            NOTHING,
            NOTHING,
            Unfit("line 4: plan"),
            Unfit("line 5: plan"),
            Unfit("line 6: plan"),
            Unfit("line 7: plan"),
            Unfit("line 8: plan"),
            Unfit("line 9: plan"),
            Unfit("line 10: plan"),
            Unfit("line 11: plan"),
            Unfit("line 12: plan"),
            NOTHING,
            ONE,
            ONE,
            TWO,
            TWO,
        ],
    ),
    Fronts(
        ["a newest-first hold would lose the cut"],
        [
            EMPTY,
            VERSION,
            UNDECIDED,
            FIRST,
            FIRST,
            EACH,
            EACH,
            EACH,
            EACH,
            ANOTHER,
            ANOTHER,
            ANOTHER,
            ANOTHER,
            ANOTHER,
            ANOTHER,
            ANOTHER,
            ANOTHER,
            Told("undecided\nprocess 0 emitted 2 taken 1\nprocess 1 emitted 1 taken 0\ntotal emitted 3 taken 1\n", 1),
            Told("found 0 0\nprocess 0 emitted 2 taken 1\nprocess 1 emitted 1 taken 1\ntotal emitted 3 taken 2\n", 0),
        ],
    ),
]

# What the first lines of each text give that is refused.
OF_REFUSED = [
    Fronts(["an empty text"], []),
    Fronts(["only the version"], [EMPTY]),
    Fronts(["another version"], [EMPTY, Wrong("line 1: header")]),
    Fronts(["a leading zero", "seventeen processes", "procs of three words"], [EMPTY, VERSION]),
    Fronts(
        [
            "no truth value",
            "a last line without its line feed",
            "a process that is no number",
            "no such process",
            "a send to itself",
            "cap too large",
            "a step of a schedule in a workload",
            "a parent that is no number",
            "a relay before its turn",
        ],
        [EMPTY, VERSION, NOTHING],
    ),
    Fronts(
        ["a step of a workload in a schedule", "a process of a schedule that is no number"],
        [EMPTY, VERSION, UNDECIDED],
    ),
    Fronts(
        ["a head line after a step"],
        [
            EMPTY,
            VERSION,
            Told("none\nprocess 0 emitted 0 taken 0\ntotal emitted 0 taken 0\n", 1),
            Told("found 0\nprocess 0 emitted 1 taken 1\ntotal emitted 1 taken 1\n", 0),
        ],
    ),
    Fronts(["a mutual receive"], [EMPTY, VERSION, NOTHING, Wanting("line 3: stuck")]),
    Fronts(
        ["a mutual receive after a step that can be done"],
        [EMPTY, VERSION, NOTHING, ONE, Wanting("line 4: stuck")],
    ),
    Fronts(["a receive of a message that is never sent"], [EMPTY, VERSION, NOTHING, NOTHING, NOTHING]),
    Fronts(["a head out of its order"], [EMPTY, VERSION, NOTHING, NOTHING]),
    Fronts(["an unattached process"], [EMPTY, VERSION, NOTHING, Unfit("line 3: plan"), Unfit("line 4: plan")]),
    Fronts(["no such process to attach"], [EMPTY, VERSION, NOTHING, Unfit("line 3: plan")]),
]


def replies(row: Row, lines: int) -> str:
    """The replies to the steps of so many lines, which are those that the whole text has to them."""
    if row.word != "replay":
        return ""
    return "".join(row.answer.output.splitlines(keepends=True)[: max(lines - OPENING, 0)])


def ended(row: Row, lines: int, front: Front) -> Answer:
    """The answer to so many whole lines, which give this."""
    if isinstance(front, Told):
        return Answer(front.status, replies(row, lines) + front.report)
    return refused(front.fault)


def broken_off(lines: int, front: Front, first: str) -> Answer:
    """The answer to so many whole lines, which give this, and to one behind them that lacks its LF: the fault of that
    line, which its number tells, or of one before it. Where the relays don't fit, its first word matters: in the texts
    that are cut it is that of a step if its first letter is `p`."""
    if isinstance(front, Wrong) or isinstance(front, Unfit) and first == "p":
        return refused(front.fault)
    kind = "header" if lines < OPENING else "line"
    return refused(f"line {lines + 1}: {kind}")


def cuts(row: Row, fronts: list[Front]) -> Iterator[tuple[str, Answer]]:
    """The text of a row cut off before each of its bytes, with the answers. There is a front for each of its lines."""
    before = ""
    lines = row.text.splitlines(keepends=True)
    assert len(lines) == len(fronts)
    for number, (line, front) in enumerate(zip(lines, fronts)):
        yield before, ended(row, number, front)
        for length in range(1, len(line)):
            yield before + line[:length], broken_off(number, front, line[0])
        before += line


FRONTS = [(row, fronts.answers) for row in ANSWERED + REFUSED for fronts in WORKED + OF_REFUSED
          if row.name in fronts.names and fronts.answers]


def test_each_refused_text_is_cut() -> None:
    assert sorted(it for fronts in OF_REFUSED for it in fronts.names) == sorted(row.name for row in REFUSED)
    assert {it for fronts in WORKED for it in fronts.names} <= {row.name for row in ANSWERED}


@pytest.mark.parametrize("word, row, fronts",
                         [(word, row, fronts) for row, fronts in FRONTS for word in row.readers],
                         ids=[f"{row.name}, {word}" for row, _ in FRONTS for word in row.readers])
def test_cut_at_each_byte(wcpwatch: pathlib.Path, word: str, row: Row, fronts: list[Front]) -> None:
    for text, answer in cuts(row, fronts):
        assert ask(wcpwatch, [word], text) == answer, f"cut at {len(text)}"


def test_the_most_steps(wcpwatch: pathlib.Path) -> None:
    answer = Answer(0, "found 0\nprocess 0 emitted 1 taken 1\ntotal emitted 1 taken 1\n")
    assert ask(wcpwatch, [], HEAD + MOST_STEPS * STEP) == answer


@pytest.mark.parametrize("length", range(1, len(STEP) + 1))
def test_a_step_too_many(wcpwatch: pathlib.Path, length: int) -> None:
    """Where the line of one more lacks its LF, that is its fault."""
    fault = "toolong" if length == len(STEP) else "line"
    text = HEAD + MOST_STEPS * STEP + STEP[:length]
    assert ask(wcpwatch, [], text) == refused(f"line {MOST_STEPS + OPENING + 1}: {fault}")
