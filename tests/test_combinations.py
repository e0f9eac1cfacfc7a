"""What `wcptrace` answers to each combination of what is asked, which moments, with which reasons, and in which view.

On one log, each answer is compared byte by byte with that of programs written from the pages, and each refusal with its
line."""
import itertools
import json
import pathlib
import re
from collections.abc import Callable
from functools import partial

import pytest
from answers_in_json import objects
from logs import usage
from oracles import all_moments, any_two, definitely, explained, hosts, questions
from page_helper import Options, data_of, page_with, read_shiviz
from programs import TOP, Answer, ask, label
from trace_logs import Event

FOLDER = TOP / "examples"
LOG = read_shiviz(FOLDER / "lease.log")
EVENTS: list[Event] = [(event.host, event.clock, event.text) for event in LOG]
HOLDS = "holds|writes"

QUESTIONS = """\
[[question]]
name = "lease"
while = ["ada=holds|writes", "ben=holds|writes"]

[[question]]
name = "two"
any-two = "^[ab]=holds|writes"

[[question]]
name = "a lent lease is free"
while = ["keeper=is free$", "ben=holds|writes"]
"""

ASKED = {
    "hosts": [f"--while=ada={HOLDS}", f"--while=ben={HOLDS}"],
    "any two": [f"--any-two=^[ab]={HOLDS}"],
    "definitely": ["--definitely", f"--while=ada={HOLDS}", f"--while=ben={HOLDS}"],
    "a file": ["--questions=questions.toml"],
}
MOMENTS: dict[str, list[str]] = {"first": [], "all": ["--all"]}
REASONS: dict[str, list[str]] = {"-": [], "why": ["--explain"]}
VIEWS: dict[str, list[str]] = {"lines": [], "JSON": ["--json"], "page": ["--page"], "SVG": ["--svg"]}

ANSWERED = ""
SEVERAL_IN_A_VIEW = "--all gives several moments, as lines or JSON: leave out --page and --svg"
ANY_TWO = "--any-two gives one answer: leave out --questions and --all; for --explain name the two hosts"
DEFINITELY = "--definitely gives one answer: leave out --all and --explain"
WHY_IN_WORDS = "--explain says why in words: give --page in place of --svg"
WHY_OF_ONE = "--explain says why one moment stands: leave out --all"
FILE_IN_A_VIEW = "--questions gives several answers: for --page and --svg name one of them by --question"
ALL_OF_A_FILE = "--all is of one question: give its conditions in place of --questions"

# What is asked, which moments, with which reasons, in which view; and what is said where it is refused.
TABLE = [
    ("hosts", "first", "-", "lines", ANSWERED),
    ("hosts", "first", "-", "JSON", ANSWERED),
    ("hosts", "first", "-", "page", ANSWERED),
    ("hosts", "first", "-", "SVG", ANSWERED),
    ("hosts", "first", "why", "lines", ANSWERED),
    ("hosts", "first", "why", "JSON", ANSWERED),
    ("hosts", "first", "why", "page", ANSWERED),
    ("hosts", "first", "why", "SVG", WHY_IN_WORDS),
    ("hosts", "all", "-", "lines", ANSWERED),
    ("hosts", "all", "-", "JSON", ANSWERED),
    ("hosts", "all", "-", "page", SEVERAL_IN_A_VIEW),
    ("hosts", "all", "-", "SVG", SEVERAL_IN_A_VIEW),
    ("hosts", "all", "why", "lines", WHY_OF_ONE),
    ("hosts", "all", "why", "JSON", WHY_OF_ONE),
    ("hosts", "all", "why", "page", SEVERAL_IN_A_VIEW),
    ("hosts", "all", "why", "SVG", SEVERAL_IN_A_VIEW),
    ("any two", "first", "-", "lines", ANSWERED),
    ("any two", "first", "-", "JSON", ANSWERED),
    ("any two", "first", "-", "page", ANSWERED),
    ("any two", "first", "-", "SVG", ANSWERED),
    ("any two", "first", "why", "lines", ANY_TWO),
    ("any two", "first", "why", "JSON", ANY_TWO),
    ("any two", "first", "why", "page", ANY_TWO),
    ("any two", "first", "why", "SVG", ANY_TWO),
    ("any two", "all", "-", "lines", ANY_TWO),
    ("any two", "all", "-", "JSON", ANY_TWO),
    ("any two", "all", "-", "page", SEVERAL_IN_A_VIEW),
    ("any two", "all", "-", "SVG", SEVERAL_IN_A_VIEW),
    ("any two", "all", "why", "lines", ANY_TWO),
    ("any two", "all", "why", "JSON", ANY_TWO),
    ("any two", "all", "why", "page", SEVERAL_IN_A_VIEW),
    ("any two", "all", "why", "SVG", SEVERAL_IN_A_VIEW),
    ("definitely", "first", "-", "lines", ANSWERED),
    ("definitely", "first", "-", "JSON", ANSWERED),
    ("definitely", "first", "-", "page", ANSWERED),
    ("definitely", "first", "-", "SVG", ANSWERED),
    ("definitely", "first", "why", "lines", DEFINITELY),
    ("definitely", "first", "why", "JSON", DEFINITELY),
    ("definitely", "first", "why", "page", DEFINITELY),
    ("definitely", "first", "why", "SVG", DEFINITELY),
    ("definitely", "all", "-", "lines", DEFINITELY),
    ("definitely", "all", "-", "JSON", DEFINITELY),
    ("definitely", "all", "-", "page", SEVERAL_IN_A_VIEW),
    ("definitely", "all", "-", "SVG", SEVERAL_IN_A_VIEW),
    ("definitely", "all", "why", "lines", DEFINITELY),
    ("definitely", "all", "why", "JSON", DEFINITELY),
    ("definitely", "all", "why", "page", SEVERAL_IN_A_VIEW),
    ("definitely", "all", "why", "SVG", SEVERAL_IN_A_VIEW),
    ("a file", "first", "-", "lines", ANSWERED),
    ("a file", "first", "-", "JSON", ANSWERED),
    ("a file", "first", "-", "page", FILE_IN_A_VIEW),
    ("a file", "first", "-", "SVG", FILE_IN_A_VIEW),
    ("a file", "first", "why", "lines", ANSWERED),
    ("a file", "first", "why", "JSON", ANSWERED),
    ("a file", "first", "why", "page", FILE_IN_A_VIEW),
    ("a file", "first", "why", "SVG", WHY_IN_WORDS),
    ("a file", "all", "-", "lines", ALL_OF_A_FILE),
    ("a file", "all", "-", "JSON", ALL_OF_A_FILE),
    ("a file", "all", "-", "page", ALL_OF_A_FILE),
    ("a file", "all", "-", "SVG", ALL_OF_A_FILE),
    ("a file", "all", "why", "lines", ALL_OF_A_FILE),
    ("a file", "all", "why", "JSON", ALL_OF_A_FILE),
    ("a file", "all", "why", "page", ALL_OF_A_FILE),
    ("a file", "all", "why", "SVG", ALL_OF_A_FILE),
]
ANSWERS = [row[:4] for row in TABLE if row[4] == ANSWERED]
REFUSALS = [row for row in TABLE if row[4] != ANSWERED]


def matching(expression: str, texts: list[str]) -> list[bool]:
    """At which of these texts the condition of a state of `--while` holds."""
    return [re.search(expression, text) is not None for text in texts]


def watched(**expressions: str) -> list[hosts.Watched]:
    """Hosts whose conditions are those of `--while`."""
    return [(name, partial(matching, expression), True) for name, expression in expressions.items()]


LEASE = watched(ada=HOLDS, ben=HOLDS)
FREE = watched(keeper="is free$", ben=HOLDS)


def moment_of_hosts(form: str, log: list[Event], asked: list[hosts.Watched] = LEASE) -> Answer:
    return hosts.expected(form, log, [], asked)


def moment_of_two(form: str, log: list[Event]) -> Answer:
    return any_two.expected(form, log, "^[ab]", "ab", partial(matching, HOLDS), True)


def decided(form: str, log: list[Event]) -> Answer:
    return definitely.decided(form, log, [], LEASE)


def known_of_two(log: list[Event]) -> int | None:
    return any_two.first_two_known(log, any_two.in_order(log, "ab"), partial(matching, HOLDS), True)[0]


def each_moment(form: str, log: list[Event]) -> Answer:
    return all_moments.answer(form, log, [], LEASE)


# Why a lent lease is never free, as read off the log: each state of ben, at lines 18 and 22, is over at line 28, of
# which the keeper knows where the lease is free again, and ben knows that it was lent.
NOT_FREE = ["why: no state of ben is left",
            "ben line 18 is over at line 32 of keeper, which knows ben up to line 28",
            "ben line 22 is over at line 32 of keeper, which knows ben up to line 28"]


def with_reasons(form: str, log: list[Event], asked: list[hosts.Watched] = LEASE) -> Answer:
    """The moment of the hosts, and why there is one, or none."""
    answer, moment = moment_of_hosts(form, log, asked), hosts.earliest(log, asked)
    read = explained.Read(form, log[: hosts.first_known(log, asked)], asked)
    why = NOT_FREE if moment is None else read.why_found(moment)
    return answer._replace(output=answer.output + "".join(line + "\n" for line in why))


def of_a_file(form: str, log: list[Event], answer: Callable[..., Answer] = moment_of_hosts) -> Answer:
    def of_hosts(name: str, asked: list[hosts.Watched]) -> questions.Question:
        return name, [], partial(hosts.first_known, watched=asked), partial(answer, asked=asked)

    two = "two", list[str](), known_of_two, moment_of_two
    return questions.answers(form, log, [of_hosts("lease", LEASE), two, of_hosts("a lent lease is free", FREE)])


# The answers in lines to what is asked, which moments, and with which reasons.
IN_LINES: dict[tuple[str, str, str], Callable[[str, list[Event]], Answer]] = {
    ("hosts", "first", "-"): moment_of_hosts,
    ("hosts", "first", "why"): with_reasons,
    ("hosts", "all", "-"): each_moment,
    ("any two", "first", "-"): moment_of_two,
    ("definitely", "first", "-"): decided,
    ("a file", "first", "-"): of_a_file,
    ("a file", "first", "why"): partial(of_a_file, answer=with_reasons),
}


# What a page says is asked, and the answer that it and a picture name.
NAMED = {"hosts": ("all", "found"), "any two": ("two", "found"), "definitely": ("definitely", "possible")}


def in_lines(_: str, answer: Answer) -> str:
    return answer.output


def in_json(_: str, answer: Answer) -> str:
    lines = (json.dumps(it, ensure_ascii=False, separators=(",", ":")) for it in objects(answer.output))
    return "".join(line + "\n" for line in lines)


def as_page(asked: str, answer: Answer) -> str:
    """The page of the log, which shows the answer in lines."""
    data = data_of(LOG, Options({name: ("while", HOLDS) for name in ("ada", "ben")}, title="lease.log"))
    asks, name = NAMED[asked]
    assert answer.output.partition("\n")[2].startswith(data["words"].partition("\n")[2])
    return page_with({**data, "asks": asks, "answer": name, "words": answer.output})


def as_picture(asked: str, _: Answer) -> str:
    """The picture that the pages show."""
    picture = (TOP / "docs" / "pictures" / "lease.svg").read_text(encoding="utf-8")
    return picture.replace("found: ", f"{NAMED[asked][1]}: ")


SHOWN = {"lines": in_lines, "JSON": in_json, "page": as_page, "SVG": as_picture}


def answer_of(file: pathlib.Path, folder: pathlib.Path, asked: str, moments: str, reasons: str, view: str,
              *more: str) -> Answer:
    """What the program answers, called in a folder with the log and the file of questions."""
    (folder / "questions.toml").write_text(QUESTIONS, encoding="utf-8")
    (folder / "lease.log").symlink_to(FOLDER / "lease.log")
    words = [*ASKED[asked], *MOMENTS[moments], *REASONS[reasons], *VIEWS[view], *more, "lease.log"]
    return ask(file, words, cwd=folder)


def test_the_table_has_each_combination() -> None:
    assert [row[:4] for row in TABLE] == list(itertools.product(ASKED, MOMENTS, REASONS, VIEWS))


@pytest.mark.parametrize("asked, moments, reasons, view", ANSWERS, ids=[label(*row) for row in ANSWERS])
def test_is_answered(wcptrace: pathlib.Path, tmp_path: pathlib.Path, asked: str, moments: str, reasons: str,
                     view: str) -> None:
    wanted = IN_LINES[asked, moments, reasons]("shiviz", EVENTS)
    shown = wanted._replace(output=SHOWN[view](asked, wanted))
    assert answer_of(wcptrace, tmp_path, asked, moments, reasons, view) == shown


@pytest.mark.parametrize("asked, moments, reasons, view, why", REFUSALS, ids=[label(*row[:4]) for row in REFUSALS])
def test_is_refused(wcptrace: pathlib.Path, tmp_path: pathlib.Path, asked: str, moments: str, reasons: str, view: str,
                    why: str) -> None:
    assert answer_of(wcptrace, tmp_path, asked, moments, reasons, view) == usage(why)
