"""The example of the lock that runs out: two may write at once, as long as no fencing token or longer lock keeps them
apart. What `wcptrace` says of its log is what the collector says of each two workers; and two may hold the lock at
once, fenced or not, unless it lasts."""

from __future__ import annotations

import concurrent.futures
import itertools
import os
import pathlib
import subprocess
import sys
from dataclasses import dataclass

import pytest
from server import SECONDS, TOP, Server, collected
from traces import traced

EXAMPLE = TOP / "bindings" / "examples" / "redis_lock.py"
AT_ONCE = 8
RUNS = 50


def writing(name: str) -> list[str]:
    return ["--while", f"{name}=^writes"]


def holding(name: str) -> list[str]:
    return ["--from", f"{name}=^takes", "--until", f"{name}=^is done"]


@dataclass
class Answer:
    """What a run of the example has told."""

    ended: tuple[int, str]
    log: str
    status: int | str
    output: list[str]
    errors: str

    @property
    def known(self) -> set[str]:
        """The first words of what the collector says."""
        return {line.split()[0] for line in self.output}

    @property
    def found(self) -> list[tuple[str, str]]:
        """The pairs that the collector finds."""
        split = [line.replace(",", "").split() for line in self.output]
        return sorted((words[1], words[5]) for words in split if words[0] == "found")

    @property
    def writers(self) -> list[tuple[str, str]]:
        """The pairs that write at once by the log."""
        return [(a, b) for a, b in PAIRS if traced(self.log, [*writing(a), *writing(b)])]

    @property
    def holders(self) -> list[tuple[str, str]]:
        """The pairs that hold the lock at once by the log."""
        return [(a, b) for a, b in PAIRS if traced(self.log, [*holding(a), *holding(b)])]


PAIRS = list(itertools.combinations(("ada", "ben", "cleo", "dan"), 2))


def answer_of(server: Server, watch: int, log: pathlib.Path, words: list[str], seconds: str | None) -> Answer:
    variables = {} if seconds is None else {"LOCK_SECONDS": seconds}
    ran = subprocess.run([sys.executable, EXAMPLE, server.url, str(watch), *words, "--log", log], text=True,
                         env={**os.environ, **variables}, timeout=SECONDS, check=False, capture_output=True)
    status, output, errors = collected(server, "--watch", watch, "--pairs")
    return Answer((ran.returncode, ran.stderr), log.read_text(), status, output, errors)


@pytest.mark.parametrize(("words", "seconds", "runs"), [
    ([], None, RUNS), (["fenced"], None, RUNS), ([], "600", RUNS // 5)], ids=["lock", "fenced", "long lock"])
def test_a_lock_that_runs_out(forgetful_server: Server, tmp_path: pathlib.Path, words: list[str], seconds: str | None,
                              runs: int) -> None:
    is_kept = bool(words or seconds)
    with concurrent.futures.ThreadPoolExecutor(AT_ONCE) as pool:
        asked = [pool.submit(answer_of, forgetful_server, watch, tmp_path / str(watch), words, seconds)
                 for watch in range(runs)]
        answers = [it.result() for it in asked]
    for it in answers:
        assert (it.ended, it.errors) == ((0, ""), "")
        assert (it.status, "found" in it.known, "undecided" in it.known) == (int(is_kept), not is_kept, False)
        assert it.writers == it.found, "the writes in the log"
        assert bool(it.holders) == (seconds is None), "the holders in the log"
