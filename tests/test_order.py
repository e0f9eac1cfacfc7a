"""What `wcptrace --order` answers beside each combination of other words, and of clocks that forget."""
import pathlib
from functools import partial

import pytest
from logs import usage
from oracles import any_two, asked, hosts, ordered
from programs import Answer, label
from test_combinations import (ANSWERED, ANY_TWO, EVENTS, HOLDS, IN_LINES, LEASE, SHOWN, TABLE, answer_of,
                               known_of_two, matching)

OF_ONE_MOMENT = "--order is of one moment: leave out --all, and give the conditions in place of --questions"
LINES_OR_JSON = "--order gives lines or JSON: a page plays the order by its button Play"
OF_A_MOMENT = "--order is of a moment: leave out --definitely"

# Ben counts the event of the keeper, and neither of those of ada that this one counts.
FORGOTTEN = """\
ada {"ada":1}
holds the lease
ada {"ada":2}
gives it back
keeper {"keeper":1, "ada":2}
lends to ben
ben {"ben":1, "keeper":1}
holds the lease
"""
# The same with as many events in both clocks, and the later one first.
EVEN = """\
ben {"ben":1, "keeper":1}
works
keeper {"keeper":1, "ada":1}
lends to ben
ben {"ben":2, "keeper":1, "ada":1}
holds the lease
"""


def said(asked_of: str, moments: str, reasons: str, view: str) -> str:
    """What is said where `--order` is refused beside these."""
    if asked_of == "a file" or moments == "all":
        return OF_ONE_MOMENT
    if view in ("page", "SVG"):
        return LINES_OR_JSON
    if asked_of == "definitely":
        return OF_A_MOMENT
    return ANY_TWO if (asked_of, reasons) == ("any two", "why") else ANSWERED


WITH_ORDER = [(*row[:4], said(*row[:4])) for row in TABLE]
ANSWERS = [row[:4] for row in WITH_ORDER if row[4] == ANSWERED]
REFUSALS = [row for row in WITH_ORDER if row[4] != ANSWERED]


def in_order(asked_of: str, reasons: str) -> Answer:
    """The answer with the schedule of the first moment, of the events that were read until it was known."""
    answer = IN_LINES[asked_of, "first", reasons]("shiviz", EVENTS)
    if asked_of == "hosts":
        known, moment = hosts.first_known(EVENTS, LEASE), hosts.earliest(EVENTS, LEASE)
    else:
        known = known_of_two(EVENTS)
        found = any_two.answer(EVENTS, any_two.in_order(EVENTS, "ab"), partial(matching, HOLDS), True)
        moment = found[1] if found else None
    assert moment is not None
    return ordered.in_order("shiviz", EVENTS[:known], moment, answer)


@pytest.mark.parametrize("asked_of, moments, reasons, view", ANSWERS, ids=[label(*row) for row in ANSWERS])
def test_is_answered(wcptrace: pathlib.Path, tmp_path: pathlib.Path, asked_of: str, moments: str, reasons: str,
                     view: str) -> None:
    wanted = in_order(asked_of, reasons)
    shown = wanted._replace(output=SHOWN[view](asked_of, wanted))
    assert answer_of(wcptrace, tmp_path, asked_of, moments, reasons, view, "--order") == shown


@pytest.mark.parametrize("asked_of, moments, reasons, view, why", REFUSALS, ids=[label(*row[:4]) for row in REFUSALS])
def test_is_refused(wcptrace: pathlib.Path, tmp_path: pathlib.Path, asked_of: str, moments: str, reasons: str,
                    view: str, why: str) -> None:
    assert answer_of(wcptrace, tmp_path, asked_of, moments, reasons, view, "--order") == usage(why)


@pytest.mark.parametrize("log, line", [(FORGOTTEN, 6), (EVEN, 4)], ids=["fewer", "as many"])
def test_clocks_that_forget_have_no_order(wcptrace: pathlib.Path, log: str, line: int) -> None:
    wanted = f"wcptrace: line {line}: an event counts this one, and no more events than this one does\n"
    for json in (list[str](), ["--json"]):
        assert asked.answer_to(wcptrace, ["--order", *json, "--while", "ben=holds"], log) == Answer(2, "", wanted)


@pytest.mark.parametrize("words", [["--while", "ben=never"], ["--any-two", "ben|keeper=never"]], ids=label)
def test_without_a_moment_it_is_the_same(wcptrace: pathlib.Path, words: list[str]) -> None:
    plain = asked.answer_to(wcptrace, words, FORGOTTEN)
    assert plain.output.startswith("none\n")
    assert asked.answer_to(wcptrace, ["--order", *words], FORGOTTEN) == plain
