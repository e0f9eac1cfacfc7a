"""A typed program over the watched classes, for `mypy --strict`: it uses each as the standard library's. It runs
too."""

from __future__ import annotations

import wullaphi
from wullaphi import asyncio, futures, queue, threading


def locks(names: list[str]) -> str:
    lock, again, condition = threading.Lock(), threading.RLock(), threading.Condition()
    event, places, bounded = threading.Event(), threading.Semaphore(2), threading.BoundedSemaphore(value=2)
    barrier = threading.Barrier(1, timeout=600.0)
    items: queue.Queue[int] = queue.Queue(maxsize=4)
    simple: queue.SimpleQueue[str] = queue.SimpleQueue()

    def work() -> None:
        with lock, again, condition, places, bounded, wullaphi.holding("work"):
            condition.notify_all()
        event.set()
        items.put(barrier.wait())
        simple.put(threading.current_thread().name)

    with wullaphi.watching(names, pairs=len(names) > 2, logs=True) as watch:
        threads = [threading.Thread(target=work, name=name) for name in names]
        for thread in threads:
            thread.start()
        for thread in threads:
            thread.join()
        number: int = items.get(timeout=600.0)
        name: str = simple.get()
    outcome: wullaphi.Outcome = watch.report()
    places_of: dict[str, str] = {it: place.at for it, place in outcome.moment.items()}
    return f"{outcome} {places_of} {number} {name in names} {event.is_set()}"


def pool() -> int:
    def job(number: int) -> int:
        return number

    with futures.ThreadPoolExecutor(max_workers=2) as it:
        first: futures.Future[int] = it.submit(job, 3)
        done, _ = futures.wait([first])
        return first.result() + sum(it.map(job, [1, 2])) + len(done)


async def tasks() -> list[str]:
    lock, event, items = asyncio.Lock(), asyncio.Event(), asyncio.LifoQueue[str]()

    async def work(name: str) -> str:
        async with lock:
            await asyncio.sleep(0)
        event.set()
        await items.put(name)
        return await items.get()

    made: list[asyncio.Task[str]] = [asyncio.create_task(work(name), name=name) for name in ("ada", "ben")]
    await event.wait()
    return sorted([await task for task in made])


def test_what_the_program_tells() -> None:
    assert locks(["ada", "ben"]) == "none {} 0 True True"
    assert pool() == 7
    assert asyncio.run(tasks()) == ["ada", "ben"]
