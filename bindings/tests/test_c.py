"""The programs in C that use each call, with the compiler's checks of addresses and under valgrind, and the headers.

Each program takes the names of groups of checks, and counts the checks of each."""

from __future__ import annotations

import functools
import os
import pathlib
import re
import subprocess

import pytest

HERE = pathlib.Path(__file__).resolve().parent
BINDINGS = HERE.parent
LIBRARY = BINDINGS / "out" / "libwullaphi.a"
CC = os.environ.get("CC", "cc")
CXX = os.environ.get("CXX", "c++")
FLAGS = ["-std=c99", "-D_POSIX_C_SOURCE=200809L", "-O1", "-g"]
# The library has no such checks compiled in.
STRICT = ["-Wall", "-Wextra", "-Werror", "-fsanitize=address,undefined", "-fno-sanitize-recover=all"]
# A program that takes longer has hung.
SECONDS = 1500

PROGRAMS = sorted(it.stem for it in HERE.glob("*.c"))
GROUPS = [(name, group) for name in PROGRAMS
          for group in re.findall(r"^        GROUP\((\w+)\),$", (HERE / f"{name}.c").read_text(), re.M)]


@pytest.fixture(scope="module")
def room(tmp_path_factory: pytest.TempPathFactory) -> pathlib.Path:
    """A folder for what is compiled."""
    return tmp_path_factory.mktemp("c")


@functools.lru_cache(maxsize=None)
def compiled(room: pathlib.Path, name: str, is_strict: bool) -> pathlib.Path:
    """A program that is compiled in the room, once."""
    program = room / f"{name}{'' if is_strict else '.plain'}"
    subprocess.run([CC, *FLAGS, *(STRICT if is_strict else []), "-o", program, HERE / f"{name}.c", LIBRARY,
                    "-lpthread"], check=True)
    return program


def assert_that_it_passes(words: list[str | pathlib.Path]) -> None:
    ran = subprocess.run(words, capture_output=True, text=True, timeout=SECONDS, check=False)
    assert ran.returncode == 0, ran.stderr
    assert ran.stderr == ""
    assert re.fullmatch(r"[1-9][0-9]* passed, 0 failed\n", ran.stdout)


@pytest.mark.parametrize(("name", "group"), GROUPS)
def test_a_group_of_checks(room: pathlib.Path, name: str, group: str) -> None:
    assert_that_it_passes([compiled(room, name, True), group])


@pytest.mark.parametrize("name", ["questions", "damaged"])
def test_the_memory_of_the_library(room: pathlib.Path, name: str) -> None:
    """Under valgrind, which sees the library's own use of memory."""
    valgrind = ["valgrind", "-q", "--error-exitcode=9", "--leak-check=full"]
    assert_that_it_passes([*valgrind, compiled(room, name, False)])


@pytest.mark.parametrize("name", PROGRAMS)
def test_that_each_program_has_groups(name: str) -> None:
    assert [group for program, group in GROUPS if program == name]


@pytest.mark.parametrize("words", [
    [CC, "-std=c89", "-pedantic", "-Wno-long-long", "-x", "c", BINDINGS / "wullaphi.h"],
    [CXX, "-x", "c++", BINDINGS / "wullaphi_pthread.h"]], ids=["wullaphi.h in C89", "wullaphi_pthread.h in C++"])
def test_that_a_header_compiles(words: list[str]) -> None:
    compiler, *rest = words
    ran = subprocess.run([compiler, "-Wall", "-Wextra", "-Werror", "-fsyntax-only", *rest], capture_output=True,
                         text=True, check=False)
    assert (ran.returncode, ran.stderr) == (0, "")
