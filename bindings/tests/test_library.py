"""The library behind the module: which one is loaded, the texts that it answers, its refusals, and where memory runs
out."""

from __future__ import annotations

import os
import pathlib
import re
import subprocess
import sys

import pytest

import wullaphi
from wullaphi._library import answer, library
from wullaphi._refusals import BY_NUMBER

BINDINGS = pathlib.Path(__file__).resolve().parent.parent
FIRST_REFUSAL = 16
MOST_BYTES = 2097152
# A program that takes longer has hung.
SECONDS = 600

# Each is a program of its own, since it limits its memory. A call that is refused has changed nothing, so the same
# call is made once more when there is memory again.
START = """
import resource
import sys
sys.path.insert(0, sys.argv[1])
import wullaphi

def limit_memory():
    with open("/proc/self/statm") as sizes:
        size = int(sizes.read().split()[0]) * resource.getpagesize()
    resource.setrlimit(resource.RLIMIT_AS, (size, resource.RLIM_INFINITY))

def free_memory():
    resource.setrlimit(resource.RLIMIT_AS, (resource.RLIM_INFINITY, resource.RLIM_INFINITY))
"""
LONG_TEXT = START + """
text = b"wcp 1\\nprocs 2\\n" + b"p 0 true\\n" * 60000
limit_memory()
try:
    print(wullaphi.single(text).status)
except MemoryError:
    free_memory()
    print("refused, and then", wullaphi.single(text).status)
"""
MANY_NOTES = START + """
probe, checker, notes, refused = wullaphi.Probe(1, 0, 2), wullaphi.Checker(1, 2), [], 0
for _ in range(100000):
    notes.append(probe.observe(True))
    probe.stamp(1)
limit_memory()
for note in notes:
    try:
        checker.take(note)
    except MemoryError:
        free_memory()
        refused += 1
        checker.take(note)
print("refused", refused, "and taken", checker.taken(0))
"""
STARVED = START + """
probe, checker, notes = wullaphi.Probe(1, 0, 2), wullaphi.Checker(1, 2, questions=[{0, 1}, {0}]), []
for _ in range(100000):
    notes.append(probe.observe(True))
    probe.stamp(1)
limit_memory()
for note in notes:
    checker.take(note)
free_memory()
for it in checker, wullaphi.Checker.load(checker.save()):
    print([(it.report(question).known, it.is_starved(question)) for question in range(2)], it.taken(0))
"""
STARVED_TOLD = "[('undecided', True), ('found', False)] 100000\n"


def in_python(program: str, **variables: str) -> tuple[str, str]:
    """What a program prints that has the module, and what it says on standard error."""
    words = [sys.executable, "-c", program, str(BINDINGS / "python")]
    ran = subprocess.run(words, env={**os.environ, **variables}, capture_output=True, text=True, check=False,
                         timeout=SECONDS)
    return ran.stdout, ran.stderr


def test_that_each_refusal_of_the_header_has_a_class() -> None:
    text = (BINDINGS / "wullaphi.h").read_text(encoding="utf-8")
    numbered = {int(number): "".join(word.title() for word in name.split("_"))
                for name, number in re.findall(r"^#define WCP_([A-Z_]+) ([0-9]+) +/[*]", text, re.M)
                if int(number) >= FIRST_REFUSAL}
    names = {number: refusal.__name__ for number, refusal in BY_NUMBER.items()}
    assert {**names, 22: "NoMemory", 24: "NoRoom"} == numbered


@pytest.mark.parametrize("number", BY_NUMBER, ids=lambda number: BY_NUMBER[number].__name__)
def test_the_text_of_a_refusal(number: int) -> None:
    refusal = BY_NUMBER[number]
    with pytest.raises(refusal) as raised:
        answer(number)
    assert str(raised.value) == refusal.__doc__ or refusal is MemoryError


def test_that_no_two_refusals_have_the_same_text() -> None:
    texts = set()
    for number, refusal in BY_NUMBER.items():
        with pytest.raises(refusal) as raised:
            answer(number)
        texts.add(str(raised.value))
    assert len(texts) == len(BY_NUMBER)


def test_texts_of_refusals_that_are_made() -> None:
    assert str(wullaphi.Refused()) == wullaphi.Refused.__doc__, "of no kind"
    assert str(wullaphi.OutOfRange("17")) == "17", "a text of the caller's own"


@pytest.mark.parametrize(("line", "said"), [(b"x", b"line 3: line"), (b"p 0 true\n", b"line 65539: toolong")],
                         ids=["one line", "many lines"])
def test_the_longest_text(line: bytes, said: bytes) -> None:
    """A text as long as `wcpwatch` reads, with what it answers; and the same, a byte longer."""
    head = b"wcp 1\nprocs 2\n"
    room = MOST_BYTES - len(head)
    text = head + (line * room)[:room]
    assert wullaphi.single(text) == (2, b"wcpwatch: " + said + b"\n"), "a text as long as is read"
    assert wullaphi.single(text + b"p") == (2, b"wcpwatch: toolarge\n"), "a text that is a byte too long"


@pytest.mark.parametrize(("program", "told"), [
    (LONG_TEXT, "refused, and then 1\n"), (MANY_NOTES, "refused 1 and taken 100000\n"), (STARVED, 2 * STARVED_TOLD)],
    ids=["a text", "a note", "a question"])
def test_that_there_is_no_memory_for_it(program: str, told: str) -> None:
    assert in_python(program) == (told, "")


def test_that_no_memory_is_an_error_of_memory() -> None:
    with pytest.raises(MemoryError):
        answer(22)


def test_a_library_that_is_not_there() -> None:
    """The module loads the library that the variable says, and no other. A call says that it isn't there."""
    for call in "Probe(1, 0, 2)", "Note(bytes(wullaphi.NOTE_SIZE))", "single(b'')", "library_version()":
        printed, said = in_python(f"{START}print('in')\nwullaphi.{call}\n", WULLAPHI_LIBRARY="/nowhere/libwullaphi.so")
        assert printed == "in\n"
        assert "/nowhere/libwullaphi.so" in said.splitlines()[-1], call


def test_a_library_that_is_there() -> None:
    assert in_python(START, WULLAPHI_LIBRARY=os.path.abspath(library._name)) == ("", "")
