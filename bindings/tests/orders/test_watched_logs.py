"""The log that a watch writes tells what its report tells: random programs, each pair judged by the clocks of the log
alone."""

from __future__ import annotations

import collections
import json
import pathlib
from typing import Callable, Dict, List, Tuple

import pytest
from random_programs import program
from watched import hold, watch_of

import wullaphi
from wullaphi import asyncio
from wullaphi._watching import Watching

PROGRAMS = 200

# The clock of an event, and its text.
Event = Tuple[Dict[str, int], str]
Events = Dict[str, List[Event]]


@pytest.fixture(autouse=True)
def many_switches(switch_every: Callable[[float], None]) -> None:
    switch_every(1e-5)


def events_of(path: pathlib.Path) -> Events:
    """The events of each host: its clock, and its text."""
    events: Events = collections.defaultdict(list)
    with open(path, encoding="ascii") as log:
        for line in log:
            it = json.loads(line)
            events[it["host"]].append((it["clock"], it["event"]))
    return events


def held(events: list[Event]) -> list[int]:
    """After which of its events a host holds something."""
    places, holds = [], False
    for number, (_, text) in enumerate(events, 1):
        holds = holds and not text.startswith("ends") or text.startswith("holds")
        if holds:
            places.append(number)
    return places


def at_once(events: Events, a: str, b: str) -> bool:
    """Whether the two could have held at once, by their clocks."""
    return any(events[a][i - 1][0].get(b, 0) <= j and events[b][j - 1][0].get(a, 0) <= i
               for i in held(events[a]) for j in held(events[b]))


def told(watch: Watching, folder: pathlib.Path) -> Events:
    """The events of a watch's log."""
    watch.write_log(folder / "log")
    return events_of(folder / "log")


def test_random_programs(tmp_path: pathlib.Path) -> None:
    seen: collections.Counter[str] = collections.Counter()
    for seed in range(PROGRAMS):
        _, watch = program(seed, logs=True)
        events = told(watch, tmp_path)
        known = {pair: report.known for pair, report in watch.reports().items()}
        assert {(a, b): "found" if at_once(events, a, b) else "nothing" for a, b in known} == known, f"program {seed}"
        seen.update(known.values())
    assert min(seen["found"], seen["nothing"]) > PROGRAMS // 10, f"there are pairs of each kind: {seen}"


def test_what_a_process_does(tmp_path: pathlib.Path) -> None:
    watch = watch_of(["ada"], lambda: hold("pay"), logs=True)
    texts = [text for _, text in told(watch, tmp_path)["ada"]]
    assert [text.replace("watched.py", "p").split(":")[0] for text in texts] == [
        "begins", "holds pay (p", "ends pay (p", "is done"]


@pytest.mark.parametrize("apart", [True, False], ids=["with a lock", "without one"])
def test_tasks(tmp_path: pathlib.Path, apart: bool) -> None:
    """Two tasks that wait while they hold."""
    async def work(lock: asyncio.Lock) -> None:
        async with lock:
            with wullaphi.holding("waits"):
                await asyncio.sleep(0.001)

    async def main() -> None:
        lock = asyncio.Lock()
        await asyncio.gather(*(asyncio.create_task(work(lock if apart else asyncio.Lock()), name=name)
                               for name in watch.names))

    with wullaphi.watching(["ada", "ben"], logs=True) as watch:
        asyncio.run(main())
    assert at_once(told(watch, tmp_path), "ada", "ben") is not apart
