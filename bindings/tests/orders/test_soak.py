"""Random programs over all kinds of watched things: two threads that held at once by the clock are found in each. With
a condition that doesn't last over what its thread lets go and gets, some must be missed."""

from __future__ import annotations

import collections
from typing import Callable

import pytest
from random_programs import known_of, program

from wullaphi._process import Process

PROGRAMS = 1000


@pytest.fixture(autouse=True)
def many_switches(switch_every: Callable[[float], None]) -> None:
    switch_every(1e-5)


def test_that_what_was_at_once_is_found() -> None:
    seen: collections.Counter[tuple[str, str]] = collections.Counter()
    for seed in range(PROGRAMS):
        pairs, watch = program(seed)
        seen.update(("at once" if pair in pairs else "not at once", it) for pair, it in known_of(watch).items())
    assert seen["at once", "nothing"] + seen["at once", "undecided"] == 0, "at once by the clock, and not found"
    assert seen["not at once", "undecided"] == 0
    kinds = (("at once", "found"), ("not at once", "found"), ("not at once", "nothing"))
    assert min(seen[kind] for kind in kinds) > PROGRAMS // 20, f"there are pairs of each kind: {seen}"


def is_missed(seed: int) -> bool:
    """Whether a pair that was at once is missed in a program."""
    pairs, watch = program(seed)
    known = known_of(watch)
    return any(known[pair] == "nothing" for pair in pairs)


def test_that_a_condition_that_does_not_last_is_missed(monkeypatch: pytest.MonkeyPatch) -> None:
    monkeypatch.setattr(Process, "_go_on", lambda self: None)
    assert any(is_missed(seed) for seed in range(5 * PROGRAMS))
