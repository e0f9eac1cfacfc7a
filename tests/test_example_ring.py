"""Two workers of the ring of `crates/example_ring` meet with their tokens, where there are two, and else never do."""
import pathlib
import re
import resource
import time

import pytest
from programs import ask, builds

# The meetings of a run of the program.
PAIRS = [(0, 1), (0, 2), (1, 2)]

# How often each is tried. Hundred runs take a minute.
RUNS = 10

# So long a worker waits in vain, in seconds, and so often those of each pair wait where there is one token.
PATIENCE, WAITS = 0.2, {(0, 1): 5, (0, 2): 5, (1, 2): 4}


@pytest.fixture(scope="module")
def rings(pytestconfig: pytest.Config) -> list[pathlib.Path]:
    if not pytestconfig.getoption("proved"):
        pytest.skip("the program is built where it is proved")
    return builds("example_ring", proved=True)


def lines(ring: pathlib.Path, *words: str) -> list[str]:
    answer = ask(ring, words)
    assert (answer.status, answer.errors) == (0, "")
    return answer.output.splitlines()


def processor_seconds() -> float:
    """How long the programs that have ended have used a processor."""
    used = resource.getrusage(resource.RUSAGE_CHILDREN)
    return used.ru_utime + used.ru_stime


def test_two_with_a_token_each_meet(rings: list[pathlib.Path]) -> None:
    for ring in rings:
        found = [re.findall(r"worker (\d) after (\d)", line) for line in lines(ring, "two")]
        met_there = 0
        for _ in range(RUNS):
            told = lines(ring, "two", "--meet")
            assert len(told) == len(PAIRS)
            for (one, other), line in zip(PAIRS, told):
                place = r"in interval \d at label \d"
                met = rf"workers {one} and {other}: met: process {one} {place}, process {other} {place}"
                assert re.fullmatch(met, line)
            met_there += [re.findall(r"process (\d) in interval (\d)", line) for line in told] == found
        assert met_there, "no run has met in the intervals of the cut"


def test_one_token_is_never_at_two_workers(rings: list[pathlib.Path]) -> None:
    for ring in rings:
        assert lines(ring, "--meet") == [
            f"workers {one} and {other}: not met: process {one} came and gave up, process {other} came and gave up"
            for one, other in PAIRS]


def test_who_waits_uses_no_processor(rings: list[pathlib.Path]) -> None:
    for ring in rings:
        before, began = processor_seconds(), time.monotonic()
        lines(ring, "--meet")
        waited = PATIENCE * sum(WAITS.values())
        assert time.monotonic() - began >= waited
        assert processor_seconds() - before < waited / 4


def test_another_word_is_refused(rings: list[pathlib.Path]) -> None:
    for ring in rings:
        answer = ask(ring, ["two", "--meets"])
        assert (answer.status, answer.output) == (1, "")
        assert "usage: example_ring [two] [--meet | log]" in answer.errors
