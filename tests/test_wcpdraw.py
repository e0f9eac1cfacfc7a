"""What `wcpdraw` answers to words and texts: pictures, pages, each fault, help and the version."""
import pathlib
from dataclasses import dataclass
from typing import Any

import pytest
from drawn import FOUND, NONE
from programs import Answer, ask, data_of, label

Json = dict[str, Any]

# The words that ask for the picture of two processes.
TWO = ["--names", "ann,ben"]

# Each character that has a meaning in XML, and three that XML doesn't have.
MARKS = ["--names", "a&b<c>d\"e,\x01\x1f\ufffe"]
MARKED = [">a&amp;b&lt;c&gt;d&quot;e</text>", ">\ufffd\ufffd\ufffd</text>"]


@dataclass(frozen=True)
class Shown:
    """Words and a text, the status, how the answer begins, and what stands in it."""

    words: list[str]
    text: str
    status: int
    front: str
    part: str


SHOWN = [
    Shown(TWO, FOUND, 0, "<svg ", ">found 1 1</text>"),
    Shown(TWO, FOUND, 0, "<svg ", ">ben</text>"),
    Shown(TWO, NONE, 1, "<svg ", ">none</text>"),
    Shown([], FOUND, 0, "<svg ", ">process 0</text>"),
    Shown([], FOUND, 0, "<svg ", ">process 1</text>"),
    Shown(["--svg"], FOUND, 0, "<svg ", ">process 0</text>"),
    Shown(["--svg", "--names", "ann,ben"], FOUND, 0, "<svg ", ">ann</text>"),
    Shown(["--names", "ann,ben", "--svg"], FOUND, 0, "<svg ", ">ben</text>"),
    Shown(["--names=-1,+1", "--svg"], FOUND, 0, "<svg ", ">-1</text>"),
    *(Shown(MARKS, FOUND, 0, "<svg ", part) for part in MARKED),
    Shown(["--help"], "", 0, "Examples:\n", "--names <LIST>"),
    Shown(["--version"], "", 0, "wcpdraw 0.3.0\n", "rattle-kit-13f"),
]


@dataclass(frozen=True)
class Refused:
    """Words and a text, and why there is no picture of it."""

    words: list[str]
    text: str
    fault: str


UNKNOWN = "usage: unexpected argument '--png' found; a similar argument exists: '--page'"

REFUSED = [
    Refused(["--png"], FOUND, UNKNOWN),
    Refused(["--names"], FOUND, "usage: a value is required for '--names <LIST>' but none was supplied"),
    Refused(["--names", "-a,"], FOUND, "usage: unexpected argument '-a' found; to pass '-a' as a value, use '-- -a'"),
    Refused(["--name", "a,"], FOUND,
            "usage: unexpected argument '--name' found; a similar argument exists: '--names'"),
    Refused(["--columns", "9"], FOUND, "usage: invalid value '9' for '--columns <N>': 9 is not in 10..=1000"),
    Refused(["--columns", "1001"], FOUND, "usage: invalid value '1001' for '--columns <N>': 1001 is not in 10..=1000"),
    Refused(["--columns", "x"], FOUND, "usage: invalid value 'x' for '--columns <N>': invalid digit found in string"),
    Refused(["--svg", "--page"], FOUND, "usage: the argument '--svg' cannot be used with '--page'"),
    Refused(["--events", "3"], FOUND, "usage: --events is of a page: give --page too"),
    Refused(
        ["--page", "--events", "x"],
        FOUND,
        "usage: invalid value 'x' for '--events <N>': invalid digit found in string",
    ),
    Refused(["--page", "--names", "ann"], FOUND, "names"),
    Refused(["--columns", "20", "--page"], FOUND, "usage: the argument '--columns <N>' cannot be used with '--page'"),
    Refused(["-", "two.txt"], FOUND, "usage: unexpected argument 'two.txt' found"),
    # the words are looked at before the text
    Refused(["--png"], "", UNKNOWN),
    Refused(TWO, "", "line 1: header"),
    Refused(TWO, "wcp 1\nprocs 2\np 0 true\np 0 send 2\n", "line 4: process"),
    Refused(["--names", "ann"], FOUND, "names"),
    Refused(["--names", "ann,ben,cid"], NONE, "names"),
    Refused(["--names", "ann,"], FOUND, "names"),
    Refused(["--names", ",ann"], FOUND, "names"),
    Refused(["--names", ""], FOUND, "names"),
    # the text is looked at before the names
    Refused(["--names", "ann"], "wcp 1\nprocs 2\np 0 send 0\n", "line 3: process"),
    Refused(["--names", "ann"], "wcp 1\nprocs 2\np 0 true\np 0 send 2\n", "line 4: process"),
]


def event(host: int, line: int, text: str, clock: list[list[int]], *flags: str) -> Json:
    """An event as the data of a page has it."""
    return {"host": host, "line": line, "text": text, "clock": clock} | {flag: True for flag in flags}


def data(answer: str, words: str, names: list[str], events: list[Json], moment: list[int] | None,
         messages: list[Json], before: int = 0) -> Json:
    """The data of a page of a workload whose processes are all watched."""
    return {
        "program": "wcpdraw",
        "title": "",
        "unit": "line",
        "asks": "all",
        "answer": answer,
        "words": words,
        "hosts": [{"name": name, "rule": "while", "condition": "observed true"} for name in names],
        "events": events,
        "moment": moment,
        "over": [],
        "left_out": {"before": before, "after": 0, "more": False},
        "messages": messages,
    }


# Names that would end the script, or begin a comment, where they stood as they are.
HOSTILE = ["</script><b>&amp;", '<!--"\\\u2028']

ANN = event(0, 3, "true", [[0, 1]], "holds")
SENDS = event(0, 4, f"send to {HOSTILE[1]}", [[0, 2]])
AGAIN = event(0, 5, "true", [[0, 3]], "holds")
TAKES = event(1, 6, f"receive from {HOSTILE[0]}", [[0, 2], [1, 1]])
BEN = event(1, 7, "true", [[0, 2], [1, 2]], "holds")

# The last event is the second member of the moment; the first member is far from it where two events are shown.
WHOLE = data("found", "found 1 1\n", HOSTILE, [ANN, SENDS, AGAIN, TAKES, BEN], [2, 4], [{"from": 1, "to": 3}])
LAST = data(
    "found",
    "found 1 1\n",
    HOSTILE,
    [AGAIN | {"far": True}, TAKES, BEN],
    [0, 2],
    [{"from": None, "from_host": 0, "to": 1}],
    before=3,
)

# A message is never received, and there is no moment.
LOST = "wcp 1\nprocs 2\np 0 true\np 0 send 1\np 1 false\n"
NO_MOMENT = data(
    "none",
    "none\n",
    ["ann", "ben"],
    [ANN, event(0, 4, "send to ben", [[0, 2]]), event(1, 5, "false", [[1, 1]])],
    None,
    [{"from": 1, "to": None, "to_host": 1}],
)

NAMES = ["--names", ",".join(HOSTILE)]

# The words and the text of a page, the status, and the data that are wanted.
PAGES = {
    "whole": (["--page", *NAMES], FOUND, 0, WHOLE),
    "as many events as there are": (["--page", "--events", "5", *NAMES], FOUND, 0, WHOLE),
    "the last two events": (["--page", "--events", "2", *NAMES], FOUND, 0, LAST),
    "no moment": (["--page", *TWO], LOST, 1, NO_MOMENT),
}


@pytest.mark.parametrize("row", SHOWN, ids=lambda row: label(row.words, row.part))
def test_shows(wcpdraw: pathlib.Path, row: Shown) -> None:
    status, output, errors = ask(wcpdraw, row.words, row.text)
    assert (status, errors) == (row.status, "")
    assert output.startswith(row.front) and row.part in output


@pytest.mark.parametrize("row", REFUSED, ids=lambda row: label(row.words, row.fault))
def test_refuses(wcpdraw: pathlib.Path, row: Refused) -> None:
    assert ask(wcpdraw, row.words, row.text) == Answer(2, "", f"wcpdraw: {row.fault}\n")


@pytest.mark.parametrize("words, text, status, wanted", PAGES.values(), ids=PAGES)
def test_page(wcpdraw: pathlib.Path, words: list[str], text: str, status: int, wanted: Json) -> None:
    ended, output, errors = ask(wcpdraw, words, text)
    assert (ended, errors) == (status, "")
    assert data_of(output) == wanted
