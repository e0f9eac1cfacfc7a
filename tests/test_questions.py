"""What `wcptrace --questions` answers to a file of questions and a log: each answer when it is known, what has none,
files that ask no question, and readers that go."""
import os
import pathlib
import select
import subprocess
from typing import IO

import pytest
from asked_questions import ANSWERS, ANY_SPAN, ANY_TWO, DEFINITELY, EARLY, EARLY_FOUND, HOLDERS, HOLDERS_FOUND, NEVER
from asked_questions import NOBODY, TOGETHER
from logs import RUNS_OUT as LOG
from programs import SECONDS, TOP, Answer, as_bytes, ask, label

KEYS = "a question has name, and while, from, until, at and definitely, or any-two, or any-two-from and any-two-until"
NOT_OF_TWO = 'key "definitely" asks about hosts by their names: give the conditions of two in place of "any-two"'
NOT_AT_POINTS = 'key "definitely" is of states that last: give "while", or "from" and "until", in place of "at"'

# Files that ask no question, and why.
NO_QUESTIONS: list[tuple[str | bytes, str]] = [
    (b"# \n\xff", "line 2: the text isn't UTF-8"),
    ("", "there is no [[question]]"),
    ("# none\n", "there is no [[question]]"),
    ('name = "lease"\n', 'there is no key "name": a file has only questions, each under [[question]]'),
    ('[question]\nname = "lease"\n', 'key "question": each question stands under [[question]]'),
    ('[[question]]\nname = "a"\nwhlie = "ann=x"\n', f'question 1 (a): there is no key "whlie": {KEYS}'),
    ('[[question]]\nwhile = "ann=x"\n', 'question 1: key "name" is missing: each question has one'),
    # A control character of a key isn't handed on to a terminal.
    ('[[question]]\nname = "a"\n"b\\u007f\\u001b" = "x"\n',
     f'question 1 (a): there is no key "b\\u007F\\u001B": {KEYS}'),
    ('[[question]]\nname = 3\n', 'question 1: key "name": a name is a text'),
    ('[[question]]\nname = ""\n', 'question 1: key "name": a name isn\'t empty and has no control character'),
    ('[[question]]\nname = "a\\nb"\n', 'question 1: key "name": a name isn\'t empty and has no control character'),
    (HOLDERS + HOLDERS, 'question 2 (holders): key "name": question 1 has this name too'),
    ('[[question]]\nname = "a"\nwhile = 3\n',
     'question 1 (a): key "while": a text HOST=REGEX or an array of such texts is wanted'),
    ('[[question]]\nname = "a"\nwhile = "ann"\n', 'question 1 (a): key "while": "ann" is not HOST=REGEX'),
    ('[[question]]\nname = "a"\nfrom = "ann=x"\n', 'question 1 (a): "from" ann needs an "until" ann'),
    (HOLDERS + '[[question]]\nname = "b"\nat = "ann=("\n', "question 2 (b): expression ann: "),
    ('[[question]]\nname = "a"\nany-two = "x"\n', 'question 1 (a): key "any-two": "x" is not HOSTS=REGEX'),
    ('[[question]]\nname = "a"\nany-two-from = "=x"\nany-two-until = ""\n',
     'question 1 (a): key "any-two-from": "=x" is not HOSTS=REGEX'),
    ('[[question]]\nname = "a"\nany-two = ["a=x"]\n', 'question 1 (a): key "any-two": a text HOSTS=REGEX is wanted'),
    ('[[question]]\nname = "a"\nany-two-from = "a=x"\nany-two-until = 1\n',
     'question 1 (a): key "any-two-until": a text REGEX is wanted'),
    ('[[question]]\nname = "a"\nany-two-from = "a=x"\n',
     'question 1 (a): "any-two-from" and "any-two-until" need each other'),
    ('[[question]]\nname = "a"\nany-two-until = "x"\n',
     'question 1 (a): "any-two-from" and "any-two-until" need each other'),
    ('[[question]]\nname = "a"\nany-two = "a=x"\nany-two-until = "x"\n',
     'question 1 (a): "any-two" and "any-two-from" are two questions: ask one of them'),
    ('[[question]]\nname = "a"\nany-two = "a=x"\nwhile = "ann=x"\n',
     'question 1 (a): key "while" doesn\'t go with "any-two", which asks about any two hosts alone'),
    ('[[question]]\nname = "a"\nany-two = "a=x"\nany = "x"\n', f'question 1 (a): there is no key "any": {KEYS}'),
    (HOLDERS + '[[question]]\nname = "b"\nany-two = "a(=x"\n', "question 2 (b): expression a(: "),
    (HOLDERS + '[[question]]\nname = "b"\nany-two = "a=("\n', "question 2 (b): expression a: "),
    *((HOLDERS + f'[[question]]\nname = "b"\nwhile = "ann=x"\ndefinitely = {value}\n',
       'question 2 (b): key "definitely": true or false is wanted') for value in ("1", '"true"', "[true]")),
    (ANY_TWO + "definitely = 1\n", 'question 1 (any two): key "definitely": true or false is wanted'),
    (NEVER + DEFINITELY, f"question 1 (never): {NOT_AT_POINTS}"),
    (HOLDERS + TOGETHER + 'at = "zoe=x"\n', f"question 2 (together): {NOT_AT_POINTS}"),
    (ANY_TWO + DEFINITELY, f"question 1 (any two): {NOT_OF_TWO}"),
    (HOLDERS + ANY_SPAN + DEFINITELY, f"question 2 (any span): {NOT_OF_TWO}"),
    (HOLDERS + '[[question]]\nname = "b"\ndefinitely = true\n',
     'question 2 (b): no host has a condition: give "while", "from" and "until", or "at"'),
    (HOLDERS + TOGETHER.replace("ben=holds", "ben=("), "question 2 (together): expression ben: "),
    ('[[question]]\nname = "a\n', "line 2, column "),
    ('[[question]]\nname = "a"\nname = "b"\n', "line 3, column "),
]

# Words that don't go with a file of questions, and why.
NOT_TOGETHER = [
    (["--while", "ann=x"], "--questions asks alone: put the conditions into its file"),
    (["--until", "ann=x"], "--questions asks alone: put the conditions into its file"),
    (["--page"], "--questions gives several answers: for --page and --svg name one of them by --question"),
    (["--svg"], "--questions gives several answers: for --page and --svg name one of them by --question"),
    (["--page", "--svg"], "--page and --svg are two answers: give one of them"),
    (["--question", "never", "--all"], "--all is of one question: give its conditions in place of --questions"),
    (["--definitely"], "--definitely is of one question: in the file of --questions write definitely = true"),
]


def file_of(folder: pathlib.Path, text: str | bytes) -> str:
    """The name of a file with these questions."""
    file = folder / "questions.toml"
    file.write_bytes(as_bytes(text))
    return str(file)


@pytest.fixture
def three(tmp_path: pathlib.Path) -> str:
    """The name of a file with three questions."""
    return file_of(tmp_path, HOLDERS + EARLY + NEVER)


@pytest.mark.parametrize("text, log, status, output, errors", ANSWERS,
                         ids=[label(output or errors) for _, _, _, output, errors in ANSWERS])
def test_answers(wcptrace: pathlib.Path, tmp_path: pathlib.Path, text: str, log: str, status: int, output: str,
                 errors: str) -> None:
    assert ask(wcptrace, ["--questions", file_of(tmp_path, text)], log) == Answer(status, output, errors)


@pytest.mark.parametrize("text, why", NO_QUESTIONS, ids=[label(why) for _, why in NO_QUESTIONS])
def test_no_questions(wcptrace: pathlib.Path, tmp_path: pathlib.Path, text: str | bytes, why: str) -> None:
    """Of what a library says the beginning is compared."""
    name = file_of(tmp_path, text)
    status, output, errors = ask(wcptrace, ["--questions", name], LOG)
    assert (status, output) == (2, "")
    said = f"wcptrace: {name}: {why}"
    if why.endswith((" ", ": ")):
        assert errors.startswith(said) and errors.count("\n") == 1, errors
    else:
        assert errors == said + "\n"


def test_a_folder(wcptrace: pathlib.Path, tmp_path: pathlib.Path) -> None:
    assert ask(wcptrace, ["--questions", tmp_path], LOG) == Answer(2, "", f"wcptrace: {tmp_path}: read\n")


def test_no_file(wcptrace: pathlib.Path, tmp_path: pathlib.Path) -> None:
    absent = tmp_path / "absent.toml"
    fault = f"wcptrace: {absent}: No such file or directory (os error 2)\n"
    assert ask(wcptrace, ["--questions", absent], LOG) == Answer(2, "", fault)


@pytest.mark.parametrize("words, why", NOT_TOGETHER, ids=[label(words) for words, _ in NOT_TOGETHER])
def test_words_that_dont_go_together(wcptrace: pathlib.Path, three: str, words: list[str], why: str) -> None:
    assert ask(wcptrace, ["--questions", three, *words], LOG) == Answer(2, "", f"wcptrace: usage: {why}\n")


def test_a_question_without_a_file(wcptrace: pathlib.Path) -> None:
    fault = "wcptrace: usage: --question is of a file of questions: give --questions too\n"
    assert ask(wcptrace, ["--question", "never", "--while", "ann=x"], LOG) == Answer(2, "", fault)


def test_one_question_of_a_file(wcptrace: pathlib.Path, three: str) -> None:
    """It is answered as if the file had no other."""
    never = "never: none\nann events 3 matched 0\nben events 2 matched 1\n"
    assert ask(wcptrace, ["--questions", three, "--question", "early"], LOG) == Answer(0, EARLY_FOUND)
    assert ask(wcptrace, ["--questions", three, "--question", "never"], LOG) == Answer(1, never)


def test_no_question_has_the_name(wcptrace: pathlib.Path, three: str) -> None:
    fault = f"wcptrace: {three}: there is no question 'late'; the questions are holders, early, never\n"
    assert ask(wcptrace, ["--questions", three, "--question", "late"], LOG) == Answer(2, "", fault)


# Questions, and the words that ask the same.
SHOWN = [
    ("holders", HOLDERS, ["--while", "ann=holds", "--while", "ben=holds"]),
    ("any two", ANY_TWO, ["--any-two", "^(ann|ben)$=holds"]),
    ("together", TOGETHER, ["--definitely", "--while", "ann=holds", "--while", "ben=holds"]),
    ("never", NEVER, ["--at", "ann=sleeps", "--at", "ben=holds"]),
]


@pytest.mark.parametrize("view", [["--page"], ["--page", "--explain"], ["--svg"]], ids=label)
@pytest.mark.parametrize("name, _, words", SHOWN, ids=[name for name, _, _ in SHOWN])
def test_a_question_is_shown(wcptrace: pathlib.Path, tmp_path: pathlib.Path, view: list[str], name: str, _: str,
                             words: list[str]) -> None:
    """The page is that of the question alone, whatever else the file asks."""
    file = file_of(tmp_path, "".join(text for _, text, _ in SHOWN))
    asked = [it for it in view if it != "--explain" or name in ("holders", "never")]
    shown = ask(wcptrace, ["--questions", file, "--question", name, *asked], LOG)
    assert shown == ask(wcptrace, [*words, *asked], LOG)
    assert shown.output.startswith("<")


@pytest.mark.parametrize("words", [["--questions", "-"], ["--questions", "-", "-"]], ids=label)
def test_standard_input_twice(wcptrace: pathlib.Path, words: list[str]) -> None:
    fault = "wcptrace: usage: --questions - reads standard input: name the file of the log\n"
    assert ask(wcptrace, words, LOG) == Answer(2, "", fault)


def test_questions_on_standard_input(wcptrace: pathlib.Path) -> None:
    lease = TOP / "examples" / "lease.log"
    one = '[[question]]\nname = "one"\nwhile = "ben=holds"\n'
    found = "one: found\nben line 18 holds the lease\n"
    assert ask(wcptrace, ["--questions", "-", lease], one) == Answer(0, found)


def test_lines_of_the_log(wcptrace: pathlib.Path, three: str) -> None:
    answer = EARLY_FOUND + "holders: none\nann events 2 matched 1\nben events 1 matched 0\n"
    answer += "never: none\nann events 2 matched 0\nben events 1 matched 0\n"
    assert ask(wcptrace, ["--questions", three, "--to-line", "12"], LOG) == Answer(0, answer)


def read_until(pipe: IO[bytes], size: int) -> str:
    """So many bytes of a pipe, or fewer where they don't come within the time."""
    given = b""
    while len(given) < size and select.select([pipe], [], [], SECONDS)[0]:
        more = os.read(pipe.fileno(), size - len(given))
        if not more:
            break
        given += more
    return given.decode()


def test_answers_as_known(wcptrace: pathlib.Path, three: str) -> None:
    """Each answer comes while the writer holds the log, with the line that makes it known and no later one."""
    with subprocess.Popen([wcptrace, "--questions", three], stdin=subprocess.PIPE, stdout=subprocess.PIPE) as program:
        assert program.stdin and program.stdout
        try:
            for lines, wanted in (slice(0, 4), EARLY_FOUND), (slice(4, 14), HOLDERS_FOUND):
                program.stdin.write("".join(LOG.splitlines(keepends=True)[lines]).encode())
                program.stdin.flush()
                assert read_until(program.stdout, len(wanted)) == wanted
            assert not select.select([program.stdout], [], [], 0.2)[0], "more than is known"
            rest, _ = program.communicate(timeout=SECONDS)
        finally:
            program.kill()
    never = b"never: none\nann events 2 matched 0\nben events 2 matched 1\n"
    assert (rest, program.returncode) == (never, 0)


@pytest.mark.parametrize("text", [HOLDERS + EARLY + NEVER, NOBODY + NEVER], ids=["", "and a host without an event"])
def test_a_reader_that_has_gone(wcptrace: pathlib.Path, tmp_path: pathlib.Path, text: str) -> None:
    """The program ends without a word."""
    reader, writer = os.pipe()
    os.close(reader)
    with open(writer, "wb") as output:
        ran = subprocess.run([wcptrace, "--questions", file_of(tmp_path, text)], input=LOG.encode(), stdout=output,
                             stderr=subprocess.PIPE, timeout=SECONDS, check=False)
    assert (ran.returncode, ran.stderr) == (141, b"")
