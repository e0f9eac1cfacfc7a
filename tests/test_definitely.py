"""Whether conditions must have held at once: `wcptrace --definitely`."""
import pathlib

import pytest
from logs import BOTH, RUNS_OUT, WAITED_FOR, Row, fault, first_lines, name_of, no_host, none
from programs import TOP, Answer, ask
from test_wcptrace_pipes import before_the_end

EXAMPLES = TOP / "examples"
SPANS = ["--from", "ada=holds", "--until", "ada=gives", "--from", "ben=holds", "--until", "ben=gives"]
LINES = ["--form", "lines", "--definitely", "--while", "a=holds", "--while", "b=holds"]


def definitely(*runs: str) -> Answer:
    return Answer(0, "".join(line + "\n" for line in ("definitely", *runs)))


def possibly(*events: str) -> Answer:
    return Answer(1, "".join(line + "\n" for line in ("possibly", *events)))


def event(host: str, clock: str, text: str) -> str:
    return '{"host":"%s","clock":{%s},"event":"%s"}\n' % (host, clock, text)


# Each learns of the other while it holds.
A_HOLDS, B_HOLDS = event("a", '"a":1', "holds"), event("b", '"b":1', "holds")
A_LEARNS, B_LEARNS = event("a", '"a":2,"b":1', "holds on"), event("b", '"b":2,"a":1', "holds on")
A_ENDS, B_ENDS = event("a", '"a":2,"b":1', "ends"), event("b", '"b":2,"a":1', "ends")
# They end, and only one of them knows of the other.
A_ENDS_ALONE = event("a", '"a":2', "ends")

ANSWERS = [
    Row(LINES, A_HOLDS + B_HOLDS, definitely("a line 1 on holds", "b line 2 on holds")),
    # The end of a run counts, and not its last event.
    Row(LINES, A_HOLDS + B_HOLDS + A_ENDS + B_ENDS, definitely("a lines 1 to 3 holds", "b lines 2 to 4 holds")),
    Row(LINES, A_HOLDS + B_HOLDS + B_ENDS + A_LEARNS, definitely("a line 1 on holds", "b lines 2 to 3 holds")),
    Row(LINES, A_HOLDS + B_HOLDS + A_ENDS_ALONE + B_ENDS, possibly("a line 1 holds", "b line 2 holds")),
    # Of two runs the first is over too early.
    Row(LINES, A_HOLDS + A_ENDS_ALONE + event("a", '"a":3', "holds again") + B_HOLDS,
        definitely("a line 3 on holds again", "b line 4 on holds")),
    Row(LINES, A_HOLDS + A_ENDS_ALONE + event("b", '"b":1,"a":2', "holds"), none(
        "a events 2 matched 1", "b events 1 matched 1")),
    Row(LINES, A_HOLDS, no_host("b", "a")),
    # One host alone must have held it once.
    Row(["--form", "lines", "--definitely", "--while", "a=holds"], A_HOLDS, definitely("a line 1 on holds")),
    # An event forgets.
    Row(LINES, A_HOLDS + event("b", '"b":1,"a":1', "holds") + event("c", '"c":1,"b":1', "goes on"),
        fault("line 3: forgets: it knows the event of line 2, but not all that this knew")),
    Row(["--definitely", *BOTH], WAITED_FOR, none("ann events 2 matched 1", "ben events 2 matched 1")),
    Row(["--definitely", *BOTH], RUNS_OUT, possibly("ann line 8 holds the lease", "ben line 14 holds the lease")),
]

# Known before the log ends: each knows of the other in a run that isn't over, or at its end.
EARLY = [
    Row(LINES, A_HOLDS + B_HOLDS + A_LEARNS + B_LEARNS, definitely("a line 1 on holds", "b line 2 on holds")),
    Row(LINES, A_HOLDS + B_HOLDS + A_ENDS + B_LEARNS, definitely("a lines 1 to 3 holds", "b line 2 on holds")),
    Row(LINES, A_HOLDS + B_HOLDS + A_LEARNS + B_ENDS, definitely("a line 1 on holds", "b lines 2 to 4 holds")),
]


@pytest.mark.parametrize("row", ANSWERS + EARLY, ids=name_of)
def test_answers(wcptrace: pathlib.Path, row: Row) -> None:
    assert ask(wcptrace, row.words, row.log) == row.answer


@pytest.mark.parametrize("row", EARLY, ids=name_of)
def test_it_is_told_at_the_event_that_makes_it_known(wcptrace: pathlib.Path, row: Row) -> None:
    assert before_the_end(wcptrace, row) == row.answer
    shorter = first_lines(row.log, 3)
    assert ask(wcptrace, row.words, shorter).status == 0, "at the end of a log it is known earlier"


@pytest.mark.parametrize("file, wanted", [
    ("lease_told.log", definitely("ada line 8 on holds the lease", "ben line 16 on holds the lease")),
    ("lease.log", possibly("ada line 8 holds the lease", "ben line 18 holds the lease")),
    ("lease_waited.log", none("ada events 4 matched 2", "ben events 4 matched 2")),
])
def test_the_examples(wcptrace: pathlib.Path, file: str, wanted: Answer) -> None:
    assert ask(wcptrace, ["--definitely", *SPANS, EXAMPLES / file]) == wanted


@pytest.mark.parametrize("log, output, status", [
    (A_HOLDS + B_HOLDS + A_ENDS + B_LEARNS, '{"answer":"definitely","runs":['
     '{"host":"a","line":1,"over":3,"event":"holds"},{"host":"b","line":2,"event":"holds"}]}\n', 0),
    (A_HOLDS + B_HOLDS + A_ENDS_ALONE + B_ENDS, '{"answer":"possibly","moment":['
     '{"host":"a","line":1,"event":"holds"},{"host":"b","line":2,"event":"holds"}]}\n', 1),
    (A_HOLDS + event("b", '"b":1', "ends"), '{"answer":"none","hosts":['
     '{"host":"a","events":1,"matched":1},{"host":"b","events":1,"matched":0}]}\n', 1),
], ids=["definitely", "possibly", "none"])
def test_json(wcptrace: pathlib.Path, log: str, output: str, status: int) -> None:
    assert ask(wcptrace, ["--json", *LINES], log) == Answer(status, output)
