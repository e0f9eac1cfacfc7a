"""What the examples in C and Python print."""

from __future__ import annotations

import os
import pathlib
import subprocess
import sys

import pytest

BINDINGS = pathlib.Path(__file__).resolve().parent.parent
EXAMPLES = BINDINGS / "examples"
# An example that takes longer has hung.
SECONDS = 600

NEVER_AT_ONCE = "the two threads never had the token at once\n"
AT_ONCE = "both threads had the token, thread 0 after 1 of its messages, thread 1 after 1\n"
PAIRS = """\
workers 0 and 2 could have held the lock at once
workers 1 and 2 could have held the lock at once
"""
MET = "met: process 0 at transfer (meeting.c:21), process 1 at audit (meeting.c:29)\n"
LOCK_KEPT = """\
processes 0 and 1 held the lock at once, 0 after 2 of its messages and 1 after 2
processes 1 and 2 held the lock at once, 1 after 2 of its messages and 2 after 1
"""
BANK = """\
w1 and w2 none
w1 and w3 none
w2 and w3 none
"""


def printed(words: list[str | pathlib.Path]) -> str:
    """What a program prints, which must end with status 0 and say nothing else."""
    ran = subprocess.run(words, capture_output=True, text=True, timeout=SECONDS, check=False)
    assert (ran.returncode, ran.stderr) == (0, "")
    return ran.stdout


@pytest.mark.parametrize(("name", "words", "wanted"), [
    ("token", [], NEVER_AT_ONCE), ("token", ["keep"], AT_ONCE), ("pairs", [], PAIRS),
    ("meeting", [], MET)], ids=["token", "token, kept", "pairs", "meeting"])
def test_an_example_in_c(tmp_path: pathlib.Path, name: str, words: list[str], wanted: str) -> None:
    """With the compiler's checks of addresses."""
    program = tmp_path / name
    subprocess.run([os.environ.get("CC", "cc"), "-std=c99", "-D_POSIX_C_SOURCE=200809L", "-Wall", "-Wextra", "-Werror",
                    "-O1", "-g", "-fsanitize=address,undefined", "-fno-sanitize-recover=all", "-o", program,
                    EXAMPLES / f"{name}.c", BINDINGS / "out" / "libwullaphi.a", "-lpthread"], check=True)
    assert printed([program, *words]) == wanted


@pytest.mark.parametrize(("name", "words", "wanted"), [
    ("lock", [], "no two processes ever held the lock at once\n"), ("lock", ["keep"], LOCK_KEPT), ("bank", [], BANK),
    ("services", [], "ada and ben were never both the primary\n"),
    ("services", ["hasty"], "ada and ben could both have been the primary\n")],
    ids=["lock", "lock, kept", "bank", "services", "services, hasty"])
def test_an_example_in_python(name: str, words: list[str], wanted: str) -> None:
    assert printed([sys.executable, EXAMPLES / f"{name}.py", *words]) == wanted
