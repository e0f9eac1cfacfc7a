"""The log that `crates/example_ring` makes of a run: what `wcptrace` finds in it, and that its clocks say what the
program does."""
import json
import pathlib
from typing import Any, Iterator

import pytest
from logs import found, none
from programs import ask, builds

WORKERS = [f"worker {number}" for number in range(3)]
ANY_TWO = ["--form", "lines", "--any-two-from", "^worker=takes", "--any-two-until", "passes"]
TAKES, PASSES = "takes a token", "passes it on"

# How many hops a token makes.
HOPS = 6

Event = dict[str, Any]


@pytest.fixture(scope="module")
def rings(pytestconfig: pytest.Config) -> list[pathlib.Path]:
    if not pytestconfig.getoption("proved"):
        pytest.skip("the program is built where it is proved")
    return builds("example_ring", proved=True)


def log_of(ring: pathlib.Path, *words: str) -> str:
    """The log of a run."""
    answer = ask(ring, [*words, "log"])
    assert (answer.status, answer.errors) == (0, "")
    return answer.output


def events_of(log: str) -> dict[str, list[Event]]:
    """The events of each worker, in their order. Each line is JSON as it is written without spaces."""
    events: dict[str, list[Event]] = {worker: [] for worker in WORKERS}
    for line in log.splitlines():
        event = json.loads(line)
        assert line == json.dumps(event, separators=(",", ":"))
        events[event["host"]].append(event)
    return events


def is_before(one: Event, other: Event) -> bool:
    """Whether one event happened before another, by their clocks."""
    host = one["host"]
    return one is not other and bool(one["clock"][host] <= other["clock"][host])


def hops(events: dict[str, list[Event]], tokens: int) -> Iterator[tuple[int, int, Event]]:
    """Each event, with the token that it is about and the hops that this has made: worker 0 lets in the tokens one
    after another, and each worker takes and passes on the tokens in this order."""
    for number, worker in enumerate(WORKERS):
        made = [(hop, token) for hop in range(number, HOPS + 1, len(WORKERS)) for token in range(tokens)]
        deeds = [(hop, token, deed) for hop, token in made for deed in [TAKES, PASSES][:1 if hop == HOPS else 2]]
        assert [it["event"] for it in events[worker]] == [deed for _, _, deed in deeds]
        yield from ((hop, token, event) for (hop, token, _), event in zip(deeds, events[worker]))


@pytest.mark.parametrize("words, tokens", [([], 1), (["two"], 2)], ids=["one token", "two tokens"])
def test_clocks_say_what_the_workers_do(rings: list[pathlib.Path], words: list[str], tokens: int) -> None:
    for ring in rings:
        events = events_of(log_of(ring, *words))
        for worker in WORKERS:
            assert [it["clock"][worker] for it in events[worker]] == list(range(1, len(events[worker]) + 1))
        told = list(hops(events, tokens))
        takes = {(hop, token): it for hop, token, it in told if it["event"] == TAKES}
        passes = {(hop, token): it for hop, token, it in told if it["event"] == PASSES}
        for (hop, token), event in passes.items():
            assert is_before(event, takes[hop + 1, token]) and not is_before(takes[hop + 1, token], event)
        for one, event in takes.items():
            others = [it for it in takes.values() if it is not event]
            unordered = [it for it in others if not is_before(event, it) and not is_before(it, event)]
            assert bool(unordered) == (tokens == 2 and one not in [(0, 0), (HOPS, 1)])


def test_one_token_is_never_at_two_workers(rings: list[pathlib.Path], wcptrace: pathlib.Path) -> None:
    matched = [f"worker {number} events {events} matched {takes}" for number, events, takes in
               [(0, 5, 3), (1, 4, 2), (2, 4, 2)]]
    for ring in rings:
        assert ask(wcptrace, ANY_TWO, log_of(ring)) == none(*matched)


def test_two_tokens_are(rings: list[pathlib.Path], wcptrace: pathlib.Path) -> None:
    wanted = found("worker 0 line 3 takes a token", "worker 1 line 11 takes a token")
    for ring in rings:
        assert ask(wcptrace, ANY_TWO, log_of(ring, "two")) == wanted


def test_every_run_has_one_log(rings: list[pathlib.Path]) -> None:
    """The workers take the tokens in an order that no thread can change."""
    assert len({log_of(ring) for ring in rings for _ in range(10)}) == 1
    assert len({log_of(ring, "two") for ring in rings for _ in range(10)}) == 1


def test_a_log_is_no_meeting(rings: list[pathlib.Path]) -> None:
    for ring in rings:
        for words in [["log", "--meet"], ["--meet", "log"]]:
            answer = ask(ring, words)
            assert (answer.status, answer.output) == (1, "")
            assert "usage: example_ring [two] [--meet | log]" in answer.errors
