"""What `wcptrace --form messages` answers to logs without clocks, in lines and as JSON."""
import pathlib

import pytest
from answers_in_json import says
from logs import Row, fault, found, name_of, no_host, none
from programs import Answer, ask, data_of, label

# A keeper lends to one who asks, without clocks.
MESSAGES = """\
{"host":"ada","event":"asks","send":"m1"}
{"host":"keeper","event":"lends","recv":"m1","send":"m2"}
{"host":"ada","event":"holds","recv":"m2"}
{"host":"ben","event":"asks","send":3}
{"host":"keeper","event":"lends","recv":"3","send":["m4","m5"]}
{"host":"ben","event":"holds","recv":"m4"}
{"host":"ada","event":"gives"}
"""
HOLD = ["--form", "messages", "--while", "ada=holds", "--while", "ben=holds"]
LENT = found("ada line 3 holds", "ben line 6 holds")
# Ben gets a message that no line sends.
LOST = MESSAGES.replace('"recv":"m4"', '"recv":"m7"')
# Lines wait for one another, and one for a message that no line sends.
ROUND = """\
{"host":"ada","event":"holds","recv":"m2","send":"m1"}
{"host":"ben","event":"holds","recv":"m1","send":"m2"}
"""
WAITS_FOR_ANOTHER = """\
{"host":"ada","event":"holds","recv":"m1"}
{"host":"ada","event":"ends"}
{"host":"ben","event":"holds","recv":"lost"}
{"host":"ben","event":"gives","send":"m1"}
"""
ONE_HOST = ["--form", "messages", "--while", "a=x"]


def unknown(line: str, count: int) -> Answer:
    """The answer where so many lines wait at the end of the log."""
    return Answer(2, f"unknown\n{line}\nlines that wait: {count}\n", "")


# The words, a log without clocks, and the answer.
WITHOUT_CLOCKS = [
    Row(HOLD, MESSAGES, LENT),
    Row([*HOLD, "--strict"], MESSAGES, LENT),
    # The lines of the keeper come last.
    Row(
        HOLD,
        "".join(sorted(MESSAGES.splitlines(keepends=True), key=lambda line: "keeper" in line)),
        found("ada line 2 holds", "ben line 4 holds"),
    ),
    # Ben hears from Ada that she gave the lease back.
    Row(
        HOLD,
        MESSAGES.replace('"gives"', '"gives","send":"m6"').replace('"recv":"m4"', '"recv":"m6"'),
        none("ada events 3 matched 1", "ben events 2 matched 1"),
    ),
    # What nobody sent waits, with what stands behind it: whether there is a moment isn't known.
    Row(HOLD, LOST + '{"host":"ben","event":"gives"}\n', unknown("line 6 waits for m7", 2)),
    Row(["--explain", *HOLD], LOST, unknown("line 6 waits for m7", 1)),
    Row(
        [*HOLD, "--strict"],
        LOST,
        fault("line 7: order: lines that wait for a message that nobody sent: 1; line 6 waits for m7"),
    ),
    # With --assume-sent nothing is waited for that no line sends, and none can be said.
    Row([*HOLD, "--assume-sent"], LOST, found("ada line 3 holds", "ben line 6 holds")),
    Row([*ONE_HOST, "--assume-sent"], '{"host":"a","event":"y","recv":"m1"}\n', none("a events 1 matched 0")),
    Row([*HOLD, "--assume-sent"], MESSAGES, LENT),
    Row([*HOLD, "--assume-sent"], WAITS_FOR_ANOTHER, none("ada events 2 matched 1", "ben events 2 matched 1")),
    Row([*HOLD, "--assume-sent"], ROUND, unknown("line 1 waits for m2", 2)),
    Row(
        ["--all", *HOLD, "--assume-sent"],
        LOST,
        Answer(0, "found\nada line 3 holds\nben line 6 holds\nmoments 1\n", ""),
    ),
    Row(
        [*HOLD, "--assume-sent", "--strict"],
        LOST,
        fault("usage: --assume-sent takes what --strict refuses: give one of them"),
    ),
    Row(["--form", "lines", "--assume-sent", "--while", "a=x"], "",
        fault("usage: --assume-sent is of --form messages")),
    # A moment that is known stays one.
    Row(HOLD, MESSAGES + '{"host":"carl","event":"gets","recv":"m9"}\n', LENT),
    # Of the lines that wait the first is named whose message no line sends, and else the first of all.
    Row(HOLD, WAITS_FOR_ANOTHER, unknown("line 3 waits for lost", 4)),
    Row(HOLD, ROUND, unknown("line 1 waits for m2", 2)),
    # A host of which each line waits isn't told as one that logs nothing.
    Row(ONE_HOST, '{"host":"b","event":"starts"}\n{"host":"a","event":"x","recv":"m1"}\n',
        unknown("line 2 waits for m1", 1)),
    Row(ONE_HOST, '{"host":"b","event":"starts"}\n', no_host("a", "b")),
    # The moments that are known are told, and then that there may be more.
    Row(
        ["--all", *HOLD],
        MESSAGES + '{"host":"carl","event":"gets","recv":"m9"}\n',
        Answer(2, LENT.output + unknown("line 8 waits for m9", 1).output, ""),
    ),
    Row(["--all", *HOLD], MESSAGES, Answer(0, LENT.output + "moments 1\n", "")),
    Row(["--all", *HOLD], LOST, unknown("line 6 waits for m7", 1)),
    Row(["--form", "messages", "--any-two", "^(ada|ben)$=holds"], LOST, unknown("line 6 waits for m7", 1)),
    Row(["--form", "messages", "--any-two", "^zoe$=holds"], LOST, unknown("line 6 waits for m7", 1)),
    # Where the log is cut before the line that waits, none does.
    Row([*HOLD, "--to-line", "5"], LOST, none("ada events 2 matched 1", "ben events 1 matched 0")),
    Row([*HOLD, "--from-line", "2"], MESSAGES, unknown("line 2 waits for m1", 5)),
]

TWO = """\
[[question]]
name = "ada"
while = "ada=holds"
[[question]]
name = "both"
while = ["ada=holds", "ben=holds"]
[[question]]
name = "nobody"
while = "zoe=holds"
"""

# Questions about a log without clocks of which a line waits, and the answers.
SEVERAL = [
    (TWO, LOST, 2, "ada: found\nada line 3 holds\nboth: unknown\nline 6 waits for m7\nlines that wait: 1\n"
     "nobody: unknown\nline 6 waits for m7\nlines that wait: 1\n", ""),
    (TWO, MESSAGES, 2, "ada: found\nada line 3 holds\nboth: found\nada line 3 holds\nben line 6 holds\n",
     "wcptrace: nobody: nohost zoe\nwcptrace: the log has ada, keeper, ben\n"),
]


@pytest.mark.parametrize("row", WITHOUT_CLOCKS, ids=name_of)
def test_answers(wcptrace: pathlib.Path, row: Row) -> None:
    assert ask(wcptrace, row.words, row.log) == row.answer


@pytest.mark.parametrize("row", [row for row in WITHOUT_CLOCKS if "--explain" not in row.words], ids=name_of)
def test_json(wcptrace: pathlib.Path, row: Row) -> None:
    says(wcptrace, row.words, row.log, row.answer)


@pytest.mark.parametrize("asked, log, status, output, errors", SEVERAL, ids=[label(it[3]) for it in SEVERAL])
def test_several_questions(wcptrace: pathlib.Path, tmp_path: pathlib.Path, asked: str, log: str, status: int,
                           output: str, errors: str) -> None:
    questions = tmp_path / "questions.toml"
    questions.write_text(asked)
    words = ["--form", "messages", "--questions", str(questions)]
    answer = Answer(status, output, errors)
    assert ask(wcptrace, words, log) == answer
    says(wcptrace, words, log, answer)


def test_a_page_says_that_the_answer_isnt_known(wcptrace: pathlib.Path) -> None:
    status, page, errors = ask(wcptrace, ["--page", *HOLD], LOST)
    assert (status, errors) == (2, "")
    assert data_of(page)["words"] == unknown("line 6 waits for m7", 1).output


def test_a_picture_is_drawn_where_the_answer_isnt_known(wcptrace: pathlib.Path) -> None:
    status, picture, errors = ask(wcptrace, ["--svg", *HOLD], LOST)
    assert (status, errors) == (2, "") and picture.startswith("<svg"), picture[:80]
