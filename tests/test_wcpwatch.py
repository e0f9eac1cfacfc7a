"""What `wcpwatch` answers to worked texts and to words. Workloads are run in threads a hundred times."""
import pathlib
import subprocess
import tempfile

import pytest
from programs import SECONDS, Answer, as_text, ask, label
from worked_texts import ANSWERED, REFUSED, THREE_TWICE, Row, refused

# How often a text is run in threads: each time they may get on in another order.
RUNS = 100

# A text of one process, and its answer.
TEXT = "wcp 1\nprocs 1\np 0 true\n"
ANSWER = Answer(0, "found 0\nprocess 0 emitted 1 taken 1\ntotal emitted 1 taken 1\n")

# Words that are not understood.
OTHER_WORDS = [
    ["double"],
    ["Single"],
    [""],
    ["--verbose"],
    ["single", "double"],
    ["single", "--verbose"],
    ["double", "single"],
    ["run", "double"],
    ["replay", "double"],
    ["ring"],
    ["ring", "--procs", "2"],
    ["ring", "--rounds", "1"],
    ["ring", "--procs", "1", "--rounds", "1"],
    ["ring", "--procs", "17", "--rounds", "1"],
    ["ring", "--procs", "2", "--rounds", "0"],
    ["ring", "--procs", "2", "--rounds", "1001"],
    ["ring", "--procs", "two", "--rounds", "1"],
    ["ring", "--fault"],
    ["ring", "2", "1"],
    ["ring", "--procs", "2", "--rounds", "1", "2"],
    ["ring", "--procs", "2", "--procs", "2", "--rounds", "1"],
    ["ring", "--procs", "-2", "--rounds", "1"],
    # Two more than there are numbers of 32 bits, and of 64.
    ["ring", "--procs", "4294967298", "--rounds", "1"],
    ["ring", "--procs", "2", "--rounds", "18446744073709551618"],
]

# What a newcomer needs.
PARTS = [
    "single",
    "runs it in threads",
    "replay",
    "ring",
    "p 0 send 1",
    "found 1 1",
    "wcpwatch: usage",
    "wcpwatch: run",
    "stuck",
    "byte order mark",
    "CR LF",
    "single < FILE",
]

# The program's name and version, and what it is proved with.
VERSION = "wcpwatch 0.3.0\nrattle-kit-13f logic dac8208d650f15bf\n"

# Words for the ring workloads that the program prints, and these.
RINGS = [
    (
        ["ring", "--procs", "2", "--rounds", "1"],
        "wcp 1\nprocs 2\np 0 true\np 0 false\np 0 send 1\np 1 recv 0\np 1 true\np 1 false\n",
    ),
    (
        ["ring", "--procs", "2", "--rounds", "1", "--fault"],
        "wcp 1\nprocs 2\np 1 true\np 1 false\np 0 true\np 0 false\np 0 send 1\np 1 recv 0\np 1 true\np 1 false\n",
    ),
    (["ring", "--procs", "3", "--rounds", "2"], THREE_TWICE),
    (["ring", "--rounds=2", "--procs=3"], THREE_TWICE),
    (
        ["ring", "--fault", "--rounds", "2", "--procs", "3"],
        THREE_TWICE.replace("procs 3\n", "procs 3\np 1 true\np 1 false\np 2 true\np 2 false\n"),
    ),
]

WORKLOADS = [row for row in ANSWERED if row.word != "replay"]


def name_of(row: Row) -> str:
    return row.name


@pytest.mark.parametrize("row", ANSWERED, ids=name_of)
def test_answers(wcpwatch: pathlib.Path, row: Row) -> None:
    assert ask(wcpwatch, [row.word], row.text) == row.answer


@pytest.mark.parametrize("row", [row for row in ANSWERED if row.word == "single"], ids=name_of)
def test_answers_without_a_word(wcpwatch: pathlib.Path, row: Row) -> None:
    assert ask(wcpwatch, [], row.text) == row.answer


@pytest.mark.parametrize("row", WORKLOADS, ids=name_of)
def test_runs_in_threads(wcpwatch: pathlib.Path, row: Row) -> None:
    for number in range(RUNS):
        assert ask(wcpwatch, ["run"], row.text) == row.answer, f"run {number}"


@pytest.mark.parametrize("word, row", [(word, row) for row in REFUSED for word in row.readers],
                         ids=[f"{row.name}, {word}" for row in REFUSED for word in row.readers])
def test_refuses(wcpwatch: pathlib.Path, word: str, row: Row) -> None:
    assert ask(wcpwatch, [word], row.text) == row.answer


def called(file: pathlib.Path, words: list[str]) -> tuple[Answer, int]:
    """What a call with these words answers where its input is a file, and how many bytes of that it reads."""
    with tempfile.TemporaryFile(buffering=0) as given:
        given.write(TEXT.encode())
        given.seek(0)
        ran = subprocess.run([file, *words], stdin=given, capture_output=True, timeout=SECONDS, check=False)
        return Answer(ran.returncode, as_text(ran.stdout), as_text(ran.stderr)), given.tell()


@pytest.mark.parametrize("words", OTHER_WORDS, ids=label)
def test_refuses_words_and_reads_nothing(wcpwatch: pathlib.Path, words: list[str]) -> None:
    assert called(wcpwatch, words) == (refused("usage"), 0)


@pytest.mark.parametrize("word", ["help", "-h", "--help"])
def test_help(wcpwatch: pathlib.Path, word: str) -> None:
    answer, read = called(wcpwatch, [word])
    assert [part for part in PARTS if part not in answer.output] == []
    assert (answer.status, answer.errors, read) == (0, "", 0)


@pytest.mark.parametrize("word", ["-V", "--version"])
def test_version(wcpwatch: pathlib.Path, word: str) -> None:
    assert called(wcpwatch, [word]) == (Answer(0, VERSION), 0)


@pytest.mark.parametrize("words, text", RINGS, ids=[label(words) for words, _ in RINGS])
def test_prints_rings(wcpwatch: pathlib.Path, words: list[str], text: str) -> None:
    assert called(wcpwatch, words) == (Answer(0, text), 0)


def test_reads_the_whole_text(wcpwatch: pathlib.Path) -> None:
    assert called(wcpwatch, ["single"]) == (ANSWER, len(TEXT))
