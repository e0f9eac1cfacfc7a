"""Tasks of `asyncio`: what keeps two apart, where a condition counts, and what is outside."""

from __future__ import annotations

import asyncio as plain
import random
from typing import Any, Callable, Coroutine, Tuple

import pytest
from watched import start_all

import wullaphi
from wullaphi import asyncio as watched
from wullaphi import threading
from wullaphi._watching import Watching

RUNS = 50

# What a task does; two such, and what makes them over the module `asyncio`.
Work = Callable[[], Coroutine[Any, Any, None]]
Works = Tuple[Work, Work]
Program = Callable[[Any], Works]
Task = Any


async def nap() -> None:
    await plain.sleep(random.random() * 0.0003)


async def hold() -> None:
    """Holds, and waits there."""
    with wullaphi.holding():
        await nap()


def watch_of(*bodies: Work) -> Watching:
    """The watch in which two tasks ran."""
    async def main() -> None:
        tasks = [watched.create_task(body(), name=name) for body, name in zip(bodies, watch.names)]
        await watched.gather(*tasks)

    with wullaphi.watching(["ada", "ben"]) as watch:
        watched.run(main())
    return watch


def lock(asyncio: Any) -> Works:
    it = asyncio.Lock()

    async def work() -> None:
        await nap()
        async with it:
            await hold()
    return work, work


def place(asyncio: Any) -> Works:
    it = asyncio.Semaphore(1)

    async def work() -> None:
        async with it:
            await hold()
    return work, work


def condition(asyncio: Any) -> Works:
    it, ready = asyncio.Condition(), list[int]()

    async def ada() -> None:
        await hold()
        async with it:
            ready.append(1)
            it.notify()

    async def ben() -> None:
        async with it:
            await it.wait_for(lambda: ready)
        await hold()
    return ada, ben


def event(asyncio: Any) -> Works:
    it = asyncio.Event()

    async def ada() -> None:
        await hold()
        it.set()

    async def ben() -> None:
        await it.wait()
        await hold()
    return ada, ben


def event_polled(asyncio: Any) -> Works:
    it = asyncio.Event()

    async def ada() -> None:
        await hold()
        it.set()

    async def ben() -> None:
        while not it.is_set():
            await plain.sleep(0)
        await hold()
    return ada, ben


def queue_of(kind: str, *size: int) -> Program:
    def program(asyncio: Any) -> Works:
        it = getattr(asyncio, kind)(*size)

        async def ada() -> None:
            await hold()
            await it.put(1)

        async def ben() -> None:
            await it.get()
            await hold()
        return ada, ben
    return program


def full(asyncio: Any) -> Works:
    it = asyncio.Queue(1)
    it.put_nowait(0)

    async def ada() -> None:
        await it.put(1)
        await hold()

    async def ben() -> None:
        await hold()
        await it.get()
        await it.get()
    return ada, ben


def joined(asyncio: Any) -> Works:
    it = asyncio.Queue()
    it.put_nowait(0)

    async def ada() -> None:
        await it.get()
        await hold()
        it.task_done()

    async def ben() -> None:
        await it.join()
        await hold()
    return ada, ben


KINDS = {
    "Lock": lock,
    "Semaphore(1)": place,
    "Condition": condition,
    "Event": event,
    "Event, polled": event_polled,
    "Queue": queue_of("Queue"),
    "Queue(2)": queue_of("Queue", 2),
    "Queue(1), full": full,
    "Queue, join": joined,
    "LifoQueue": queue_of("LifoQueue"),
    "PriorityQueue": queue_of("PriorityQueue"),
}


DESIGNS = pytest.mark.parametrize(("module", "known"), [(watched, "nothing"), (plain, "found")],
                                  ids=["watched", "plain"])


@DESIGNS
@pytest.mark.parametrize("name", KINDS)
def test_a_kind(name: str, module: Any, known: str) -> None:
    """With the watched kind there is no moment, and with the plain one it is found."""
    assert {run_in_loop(KINDS[name], module) for _ in range(RUNS)} == {known}


def run_in_loop(program: Program, module: Any) -> str:
    # Where Python is older than 3.10, a lock of tasks is made in its loop.
    async def main() -> None:
        ada, ben = program(module)
        await watched.gather(watched.create_task(ada(), name="ada"), watched.create_task(ben(), name="ben"))

    with wullaphi.watching(["ada", "ben"]) as watch:
        watched.run(main())
    return watch.report().known


async def no_await() -> None:
    await nap()
    with wullaphi.holding():
        pass
    await nap()


async def waits() -> None:
    with wullaphi.holding("waits"):
        await plain.sleep(0.002)


async def waits_not() -> None:
    await plain.sleep(0.0005)
    with wullaphi.holding():
        pass


async def in_a_free_lock() -> None:
    free = watched.Lock()
    with wullaphi.holding():
        async with free:
            pass


@pytest.mark.parametrize(("ada", "ben", "told"), [
    (waits, waits, "found: ada at waits ("), (no_await, no_await, "none"), (waits, waits_not, "none"),
    (waits, in_a_free_lock, "none")],
    ids=["both wait", "neither waits", "one doesn't wait", "an await that doesn't wait"])
def test_where_it_counts(ada: Work, ben: Work, told: str) -> None:
    """What a task holds counts where the task waits."""
    report = str(watch_of(ada, ben).report())
    assert report.startswith(told) if told.endswith("(") else report == told


async def awaited(task: Task) -> None:
    await task


async def gathered(task: Task) -> None:
    await watched.gather(task)


async def waited(task: Task) -> None:
    await watched.wait([task])


async def in_time(task: Task) -> None:
    await watched.wait_for(task, 600)


async def polled(task: Task) -> None:
    while not task.done():
        await plain.sleep(0)


@pytest.mark.parametrize("learn", [awaited, gathered, waited, in_time, polled])
def test_one_after_another(learn: Callable[[Task], Coroutine[Any, Any, None]]) -> None:
    """Whoever learns that a task is done comes after it."""
    async def main() -> None:
        for name in watch.names:
            await learn(watched.create_task(hold(), name=name))

    with wullaphi.watching(["ada", "ben"]) as watch:
        watched.run(main())
    assert str(watch.report()) == "none"


async def of_a_loop(name: str) -> None:
    await watched.create_task(hold(), name=name)


def test_one_loop_after_another() -> None:
    with wullaphi.watching(["ada", "ben"]) as watch:
        for name in watch.names:
            watched.run(of_a_loop(name))
    assert str(watch.report()) == "none"


@pytest.mark.skipif(not hasattr(watched, "TaskGroup"), reason="Python has had groups of tasks since 3.11")
@pytest.mark.parametrize("run", [watched.run, plain.run], ids=["watched", "plain"])
def test_one_group_after_another(run: Callable[..., object]) -> None:
    async def groups() -> None:
        for name in watch.names:
            async with watched.TaskGroup() as group:
                group.create_task(hold(), name=name)

    with wullaphi.watching(["ada", "ben"]) as watch:
        run(groups())
    assert str(watch.report()) == "none"


async def idle() -> None:
    pass


def test_a_task_within_a_task() -> None:
    async def makes_child() -> None:
        await plain.get_running_loop().create_task(hold())

    assert watch_of(makes_child, idle).report().known == "undecided"


def test_plain_tasks() -> None:
    async def by_plain_tasks() -> None:
        await plain.gather(*(plain.Task(hold(), name=name) for name in ("ada", "ben")))

    with wullaphi.watching(["ada", "ben"]) as watch:
        plain.run(by_plain_tasks())
    assert str(watch.report()) == ("undecided: ada, ben never began; held a condition, but is no process of the watch: "
                                   "ada (1 times), ben (1 times)")


def test_a_name_twice() -> None:
    async def twice() -> None:
        await watched.create_task(idle(), name="ada")
        await watched.create_task(idle(), name="ada")

    with wullaphi.watching(["ada", "ben"]), pytest.raises(RuntimeError, match="already"):
        watched.run(twice())


def test_a_block_in_a_task() -> None:
    async def block() -> None:
        with watch.process("ben"):
            pass

    with wullaphi.watching(["ada", "ben"]) as watch, pytest.raises(RuntimeError, match="its own name"):
        watched.run(block())


async def hold_long() -> None:
    with wullaphi.holding():
        await plain.sleep(3600)


def test_that_a_cancelled_task_holds_no_more() -> None:
    async def cancelled() -> None:
        task = watched.create_task(hold_long(), name="ada")
        await plain.sleep(0)
        task.cancel()
        await watched.wait([task])
        await watched.create_task(hold(), name="ben")

    with wullaphi.watching(["ada", "ben"]) as watch:
        watched.run(cancelled())
    assert str(watch.report()) == "none"


def test_a_thread_that_runs_a_loop() -> None:
    with wullaphi.watching(["ada", "main"]) as watch:
        with watch.process("main"):
            watched.run(of_a_loop("ada"))
            with wullaphi.holding():
                pass
    assert str(watch.report()) == "none"


def test_a_task_that_is_not_the_process_of_its_thread() -> None:
    with wullaphi.watching(["ada", "ben"]) as watch:
        start_all([threading.Thread(target=lambda: watched.run(of_a_loop("ada")))])
        start_all([threading.Thread(target=lambda: watched.run(hold()), name="ben")])
    assert watch.report().known == "undecided"
