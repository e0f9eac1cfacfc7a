"""What `wcptrace` and `wcpdraw` do at their edges: a file that a call names, an input that is a terminal, an output
that nobody reads or that is full."""
import os
import pathlib
import pty
import select
import subprocess
import time
from dataclasses import dataclass
from typing import IO

import pytest
from programs import SECONDS, Answer, as_text, ask, builds


@dataclass(frozen=True)
class Program:
    """A program, the words of a call that has an answer, the input, the first words of the answer, and what is said of
    a folder in the place of a file."""

    name: str
    words: list[str]
    given: str
    front: str
    folder: str

    def is_answered_by(self, answer: Answer) -> bool:
        """Whether this is the answer, and nothing is said."""
        return (answer.status, answer.errors) == (0, "") and answer.output.startswith(self.front)


PROGRAMS = [
    Program("wcptrace", ["--while", "ann=holds"], 'ann {"ann":1}\nholds\n', "found\nann line 2 holds\n",
            "/: is a directory"),
    Program("wcpdraw", ["--names", "ann,ben"], "wcp 1\nprocs 2\np 0 true\np 1 true\n", "<svg ", "read"),
]


@dataclass(frozen=True)
class Build:
    """A build of one of the programs."""

    program: Program
    file: pathlib.Path


def pytest_generate_tests(metafunc: pytest.Metafunc) -> None:
    proved = metafunc.config.getoption("proved")
    each = [Build(program, file) for program in PROGRAMS for file in builds(program.name, proved)]
    metafunc.parametrize("build", each, ids=lambda build: str(build.file.name))
    if "words" in metafunc.fixturenames:
        metafunc.parametrize("words", [[], ["--help"], ["--version"]], ids=["an answer", "help", "version"])


@pytest.mark.parametrize("before", [True, False], ids=["before the other words", "behind them"])
def test_reads_a_file(build: Build, before: bool, tmp_path: pathlib.Path) -> None:
    """Standard input isn't read then."""
    (tmp_path / "a log").write_text(build.program.given)
    words = ["a log", *build.program.words] if before else [*build.program.words, "--", "a log"]
    answer = ask(build.file, words, "not this\n", cwd=tmp_path)
    assert build.program.is_answered_by(answer), answer


def test_a_hyphen_is_standard_input(build: Build, tmp_path: pathlib.Path) -> None:
    """It is beside a file of this name too."""
    (tmp_path / "-").write_text("not this\n")
    answer = ask(build.file, [*build.program.words, "-"], build.program.given, cwd=tmp_path)
    assert build.program.is_answered_by(answer), answer


def test_reads_no_folder(build: Build) -> None:
    program = build.program
    answer = Answer(2, "", f"{program.name}: {program.folder}\n")
    assert ask(build.file, [*program.words, "/"], program.given) == answer


def test_misses_a_file(build: Build) -> None:
    """A file that isn't there is named, with the reason."""
    program = build.program
    answer = Answer(2, "", f"{program.name}: no log: No such file or directory (os error 2)\n")
    assert ask(build.file, [*program.words, "no log"], program.given, cwd="/") == answer


@pytest.mark.parametrize("word", ["--help", "--version"])
def test_opens_nothing_for(build: Build, word: str) -> None:
    """Help and the version open no file, and read no terminal."""
    ours, its = pty.openpty()
    try:
        ran = subprocess.run([build.file, word, "no log"], cwd="/", stdin=its, capture_output=True, timeout=SECONDS,
                             check=False)
    finally:
        os.close(its)
        os.close(ours)
    assert (ran.returncode, ran.stderr) == (0, b"") and ran.stdout != b"", ran


def test_tells_of_a_terminal(build: Build) -> None:
    """An input that is typed is read to its end, and a line before it says that it is."""
    ours, its = pty.openpty()
    call = [str(build.file), *build.program.words]
    with subprocess.Popen(call, stdin=its, stdout=subprocess.PIPE, stderr=subprocess.PIPE) as running:
        assert running.stderr
        os.close(its)
        told = running.stderr.readline().decode()
        os.write(ours, build.program.given.encode() + b"\4")
        output, errors = running.communicate(timeout=SECONDS)
    os.close(ours)
    assert told == f"{build.program.name}: reads from the terminal, until Ctrl-D at the start of a line\n"
    answer = Answer(running.returncode, as_text(output), as_text(errors))
    assert build.program.is_answered_by(answer), answer


def writes_to(build: Build, words: list[str], output: int | IO[bytes]) -> tuple[int, str]:
    """The status of a call whose output goes there, and what it says. Without words it answers."""
    ran = subprocess.run([str(build.file), *(words or build.program.words)], input=build.program.given.encode(),
                         stdout=output, stderr=subprocess.PIPE, timeout=SECONDS, check=False)
    return ran.returncode, as_text(ran.stderr)


def test_writes_to_nobody(build: Build, words: list[str]) -> None:
    """Where the other end of the pipe is closed the program ends without a word, as one that SIGPIPE has ended."""
    reader, writer = os.pipe()
    os.close(reader)
    closed = select.poll()
    closed.register(writer, 0)
    try:
        # What another thread starts meanwhile has the reader too, until it runs its program.
        while not closed.poll(1_000):
            pass
        assert writes_to(build, words, writer) == (141, "")
    finally:
        os.close(writer)


def test_writes_to_a_full_device(build: Build, words: list[str]) -> None:
    with open("/dev/full", "wb") as full:
        assert writes_to(build, words, full) == (2, f"{build.program.name}: write\n")


def test_says_nothing_of_a_pause(build: Build) -> None:
    """Nothing is said of an input that pauses, where no terminal shows it."""
    lines = build.program.given.splitlines(keepends=True)
    call = [str(build.file), *build.program.words]
    with subprocess.Popen(call, stdin=subprocess.PIPE, stdout=subprocess.PIPE, stderr=subprocess.PIPE) as running:
        assert running.stdin
        for part in "", *lines[:2], "".join(lines[2:]):
            running.stdin.write(part.encode())
            running.stdin.flush()
            time.sleep(1.5)
        output, errors = running.communicate(timeout=SECONDS)
    answer = Answer(running.returncode, as_text(output), as_text(errors))
    assert build.program.is_answered_by(answer), answer
