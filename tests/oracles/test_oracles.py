"""The built `wcptrace` against programs that try each choice of events of random small logs.

`--logs` says how many of them, and `--seed` which: a run that says nothing draws a seed, and prints it at its end. A
difference names the log, so that it can be tried alone."""
import pathlib
import random
from collections import Counter
from types import ModuleType

import pytest

from . import (all_moments, any_two, cycles, definitely, explained, hosts, messages, ordered, questions, spans,
               spelling, unseen_order)

ORACLES = [hosts, all_moments, any_two, cycles, definitely, explained, messages, ordered, questions, spans, spelling]
# So many logs have each kind among them.
ENOUGH = 200


def rng_of(seed: int, number: int) -> random.Random:
    """What the log of this number is drawn by."""
    return random.Random(f"{seed} {number}")


@pytest.fixture
def seed(pytestconfig: pytest.Config) -> int:
    return int(pytestconfig.getoption("seed"))


@pytest.fixture
def logs(pytestconfig: pytest.Config) -> range:
    """The numbers of the logs: as many as are asked for, or the one."""
    one, count = pytestconfig.getoption("log"), pytestconfig.getoption("logs")
    return range(count) if one is None else range(one, one + 1)


@pytest.mark.parametrize("oracle", ORACLES, ids=lambda oracle: str(oracle.__name__).rpartition(".")[2])
def test_no_answer_differs(oracle: ModuleType, wcptrace: pathlib.Path, seed: int, logs: range) -> None:
    kinds: Counter[str] = Counter()
    for number in logs:
        try:
            kinds[oracle.compare(wcptrace, rng_of(seed, number))] += 1
        except AssertionError as difference:
            pytest.fail(f"--seed {seed} --log {number}: {difference}", pytrace=False)
    print(dict(kinds))
    if len(logs) >= ENOUGH:
        assert oracle.KINDS - kinds.keys() == set()


def test_less_order_keeps_each_cut(seed: int, logs: range) -> None:
    tried = [unseen_order.compare(rng_of(seed, number)) for number in logs]
    if len(logs) >= ENOUGH:
        assert all(map(sum, zip(*tried)))
