"""Tasks that meet at a moment: their next steps are held back, and not their loop."""

from __future__ import annotations

import asyncio as plain
import threading as plain_threading
import time
from typing import Any, Callable, Coroutine, List, Optional

import pytest
from meetings import LONG, NAMES, SHORT
from watched import SECONDS, start_all

import wullaphi
from wullaphi import GaveUp, Meeting, asyncio, threading

RUNS = 30

Work = Callable[[], Coroutine[Any, Any, Any]]


def run(meeting: Optional[Meeting], *bodies: Work) -> wullaphi.Outcome:
    """What is told of tasks of these names, which meet there."""
    async def main() -> None:
        await asyncio.gather(*(asyncio.create_task(body(), name=name) for name, body in zip(NAMES, bodies)))

    with wullaphi.watching(NAMES, meeting=meeting) as watch:
        asyncio.run(main())
    return watch.report()


async def hold() -> None:
    with wullaphi.holding("holds"):
        await plain.sleep(0)


async def until(holds: Callable[[], object]) -> None:
    """Waits until this holds."""
    end = time.monotonic() + SECONDS
    while not holds():
        assert time.monotonic() < end, "it doesn't come to this"
        await plain.sleep(0.001)


def test_two_that_share_nothing() -> None:
    found = run(None, hold, hold)
    for _ in range(RUNS):
        meeting = Meeting({name: place.interval for name, place in found.moment.items()}, LONG)
        run(meeting, hold, hold)
        assert meeting.met == found.moment


def under_one_lock() -> Work:
    """A body for two tasks, under one plain lock, which the watch doesn't see."""
    locks: List[plain.Lock] = []

    async def work() -> None:
        locks[:] = locks or [plain.Lock()]
        async with locks[0]:
            await hold()
    return work


def test_two_under_a_plain_lock() -> None:
    work = under_one_lock()
    assert run(None, work, work).known == "found", "no stamp shows the lock"
    for _ in range(RUNS):
        meeting, work = Meeting(dict.fromkeys(NAMES), SHORT), under_one_lock()
        run(meeting, work, work)
        assert (meeting.met, str(meeting)) == (None, "not met: ben came while ada had gone")


def test_one_that_sends_and_stays_true() -> None:
    """It waits again behind what it has sent."""
    items: List[Any] = []

    async def ada() -> None:
        items[:] = items or [asyncio.Queue()]
        with wullaphi.holding("a"):
            await plain.sleep(0)
            await items[0].put(1)
            await plain.sleep(0)

    async def ben() -> None:
        await items[0].get()
        with wullaphi.holding("b"):
            await plain.sleep(0)

    found = run(None, ada, ben)
    for _ in range(RUNS):
        del items[:]
        meeting = Meeting({name: place.interval for name, place in found.moment.items()}, LONG)
        run(meeting, ada, ben)
        assert meeting.met == found.moment


def test_that_the_loop_goes_on() -> None:
    """While a task waits, others of its loop make steps; ben is held back until the last one comes."""
    steps = []

    async def ada() -> None:
        await until(lambda: meeting.came["ben"])
        for _ in range(10):
            await plain.sleep(0.001)
            steps.append("ada")
        await hold()

    async def ben() -> None:
        await hold()
        steps.append("ben")

    meeting = Meeting(dict.fromkeys(NAMES), LONG)
    run(meeting, ada, ben)
    assert (steps, set(meeting.met or ())) == (["ada"] * 10 + ["ben"], set(NAMES))


def test_that_what_is_awaited_comes_through() -> None:
    """A step that was held back begins with the answer, or the error, of what was awaited."""
    async def answer() -> int:
        await plain.sleep(0)
        return 7

    async def fail() -> int:
        await plain.sleep(0)
        raise ValueError("it fails")

    async def ada() -> None:
        with wullaphi.holding():
            assert await plain.ensure_future(answer()) == 7
            with pytest.raises(ValueError, match="it fails"):
                await plain.ensure_future(fail())

    meeting = Meeting({"ada": None, "ben": "nowhere"}, SHORT)
    run(meeting, ada, lambda: until(lambda: meeting.came["ada"] > 1))
    assert meeting.gave_up[:2] == [GaveUp("ada", ("ben",), ())] * 2


def test_one_that_is_cancelled_as_it_waits() -> None:
    """It goes on with that, and is there no longer."""
    ended = []

    async def ada() -> None:
        try:
            await hold()
        except plain.CancelledError:
            ended.append("cancelled")
            raise

    async def main() -> None:
        task = asyncio.create_task(ada(), name="ada")
        await until(lambda: meeting.came["ada"])
        task.cancel()
        with pytest.raises(plain.CancelledError):
            await task
        await asyncio.create_task(hold(), name="ben")

    meeting = Meeting(dict.fromkeys(NAMES), LONG)
    with wullaphi.watching(NAMES, meeting=meeting):
        asyncio.run(main())
    assert (ended, meeting.met) == (["cancelled"], None)
    assert meeting.gave_up == [GaveUp("ada", ("ben",), ()), GaveUp("ben", ("ada",), ("ada",))]


def test_one_who_has_given_up(monkeypatch: pytest.MonkeyPatch) -> None:
    async def ada() -> None:
        with wullaphi.holding():
            await plain.sleep(0)
            await until(lambda: meeting.came["ben"])

    async def ben() -> None:
        await until(lambda: meeting.gave_up)
        await hold()

    meeting = Meeting({"ada": 0, "ben": None}, 0.05)
    places = meeting.place_of
    # ada comes once alone.
    monkeypatch.setattr(meeting, "place_of", lambda name, *it: (
        None if name == "ada" and meeting.gave_up else places(name, *it)))
    run(meeting, ada, ben)
    assert meeting.met is None
    assert meeting.gave_up == [GaveUp("ada", ("ben",), ()), GaveUp("ben", ("ada",), ("ada",))]


@pytest.mark.parametrize("ends", [lambda: plain.sleep(0), lambda: until_fails()], ids=["as told", "by an error"])
def test_one_that_ends(ends: Work) -> None:
    """Whoever waits for it goes on."""
    async def ben() -> None:
        await until(lambda: meeting.came["ada"])
        await ends()

    meeting = Meeting({"ada": None, "ben": "nowhere"}, LONG)

    async def main() -> None:
        tasks = [asyncio.create_task(body(), name=name) for name, body in zip(NAMES, (hold, ben))]
        await asyncio.gather(*tasks, return_exceptions=True)

    with wullaphi.watching(NAMES, meeting=meeting):
        asyncio.run(main())
    assert meeting.gave_up == [GaveUp("ada", ("ben",), ())]


async def until_fails() -> None:
    await plain.sleep(0)
    raise ValueError("it fails")


def test_a_task_and_a_thread() -> None:
    def thread() -> None:
        with wullaphi.holding("thread"):
            pass

    def loop() -> None:
        asyncio.run(of_name("ben"))

    for is_first in (True, False):
        meeting = Meeting(dict.fromkeys(NAMES), LONG)

        def behind(name: str, work: Callable[[], None]) -> Callable[[], None]:
            def wait() -> None:
                while name and not meeting.came[name]:
                    time.sleep(0.001)
                work()
            return wait

        with wullaphi.watching(NAMES, meeting=meeting):
            start_all([threading.Thread(target=behind("" if is_first else "ben", thread), name="ada"),
                       threading.Thread(target=behind("ada" if is_first else "", loop))])
        assert {name: place.at.split(" ")[0] for name, place in (meeting.met or {}).items()} == {
            "ada": "thread", "ben": "holds"}


async def of_name(name: str) -> None:
    await asyncio.create_task(hold(), name=name)


def test_a_loop_that_is_closed() -> None:
    """A task that waits there makes no more steps; nobody waits for it for ever, and nothing is raised elsewhere."""
    meeting = Meeting(dict.fromkeys(NAMES), SHORT)
    has_come = plain_threading.Event()

    def ada() -> None:
        loop = plain.new_event_loop()

        async def begin() -> None:
            asyncio.create_task(hold(), name="ada")
            await until(lambda: meeting.came["ada"])

        loop.run_until_complete(begin())
        loop.close()
        has_come.set()

    def ben() -> None:
        has_come.wait()
        with wullaphi.holding():
            pass

    with wullaphi.watching(NAMES, meeting=meeting):
        start_all([threading.Thread(target=ada), threading.Thread(target=ben, name="ben")])
    assert meeting.came["ben"] == 1
