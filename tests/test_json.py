"""What `wcptrace --json` writes: what the lines say, of the tables of logs and of questions."""
import pathlib

import pytest
from answers_in_json import says
from asked_questions import ANSWERS as QUESTIONS
from logs import ALL, ANSWERS, BOTH, FAULTS, Row, name_of
from programs import Answer, ask, label

# A text with what JSON escapes, and an LF within it.
ODD = '{"host":"a\\"b","clock":{"a\\"b":1},"event":"x\\ny\\t\\u0001<\\\\"}\n'

# Words that don't go with --json, and why.
BESIDE = "--json and a page or a picture are two answers: give one of them"


@pytest.mark.parametrize("row", ANSWERS + FAULTS + ALL, ids=name_of)
def test_says_what_the_lines_say(wcptrace: pathlib.Path, row: Row) -> None:
    says(wcptrace, row.words, row.log, row.answer)


@pytest.mark.parametrize("text, log, status, output, errors", QUESTIONS,
                         ids=[label(output or errors) for _, _, _, output, errors in QUESTIONS])
def test_of_questions(wcptrace: pathlib.Path, tmp_path: pathlib.Path, text: str, log: str, status: int, output: str,
                      errors: str) -> None:
    questions = tmp_path / "questions.toml"
    questions.write_text(text)
    says(wcptrace, ["--questions", str(questions)], log, Answer(status, output, errors))


def test_escapes(wcptrace: pathlib.Path) -> None:
    written = '{"answer":"found","moment":[{"host":"a\\"b","line":1,"event":"x\\ny\\t\\u0001<\\\\"}]}\n'
    assert ask(wcptrace, ["--form", "lines", "--json", "--while", 'a"b=x'], ODD) == Answer(0, written)


@pytest.mark.parametrize("beside", ["--page", "--svg"])
def test_beside_a_page(wcptrace: pathlib.Path, beside: str) -> None:
    assert ask(wcptrace, ["--json", beside, *BOTH]) == Answer(2, "", f"wcptrace: usage: {BESIDE}\n")
