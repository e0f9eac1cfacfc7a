"""Orders that a thread outside the watch carries, what is left out of the orders, and jobs of pools."""

from __future__ import annotations

import concurrent.futures
import functools
import threading as plain
import time
from typing import Any, Callable

import pytest
from watched import hold, start_all, watch_of

import wullaphi
from wullaphi import futures, queue, threading
from wullaphi._watching import Watching

NAMES = ["ada", "ben"]


def told(watch: Watching, question: int | set[str] = 0) -> str:
    return str(watch.report(question))


def test_an_order_over_two_locks() -> None:
    """A thread outside the watch carries it."""
    first, second = threading.Lock(), threading.Lock()
    with wullaphi.watching(NAMES) as watch:
        def ada() -> None:
            with watch.process("ada"), first, wullaphi.holding():
                pass

        def relay() -> None:
            with first:
                pass
            with second:
                pass

        def ben() -> None:
            with watch.process("ben"), second, wullaphi.holding():
                pass

        for body in (ada, relay, ben):
            start_all([plain.Thread(target=body)])
    assert told(watch) == "none"


def test_an_order_over_a_join_and_a_start() -> None:
    with wullaphi.watching(NAMES) as watch:
        for name in NAMES:
            start_all([threading.Thread(target=hold, name=name)])
    assert told(watch) == "none"


def test_an_order_over_is_alive() -> None:
    with wullaphi.watching(NAMES) as watch:
        thread = threading.Thread(target=hold, name="ada")
        thread.start()
        while thread.is_alive():
            time.sleep(0)
        start_all([threading.Thread(target=hold, name="ben")])
    assert told(watch) == "none"


def test_a_timer_is_a_thread() -> None:
    with wullaphi.watching(["ada", "main"]) as watch:
        with watch.process("main"):
            timer = threading.Timer(0.001, hold)
            timer.name = "ada"
            start_all([timer])
            hold()
    assert told(watch) == "none"


def test_newer_marks() -> None:
    """A thread outside the watch passes on the newest that it knows of ada."""
    first, second = threading.Lock(), threading.Lock()
    steps = [plain.Event() for _ in range(4)]

    def ada() -> None:
        with watch.process("ada"):
            with first:
                pass
            steps[0].set()
            steps[1].wait()
            hold()
            with first:
                pass
        steps[2].set()

    def relay() -> None:
        for before, after in (steps[0:2], steps[2:4]):
            before.wait()
            with first:
                pass
            after.set()
        with second:
            pass

    def ben() -> None:
        with watch.process("ben"), second, wullaphi.holding():
            pass

    with wullaphi.watching(NAMES) as watch:
        start_all([plain.Thread(target=body) for body in (ada, relay)])
        start_all([plain.Thread(target=ben)])
    assert told(watch) == "none"


def test_an_acquire_that_fails() -> None:
    """What is left out of the orders only adds moments."""
    lock, got, tried = threading.Lock(), plain.Event(), plain.Event()

    def fails() -> None:
        got.wait()
        if not lock.acquire(False):
            hold()
        tried.set()

    def has() -> None:
        hold()
        with lock:
            got.set()
            tried.wait()

    assert watch_of(NAMES, has, fails).report().known == "found"


def test_a_barrier_that_is_aborted() -> None:
    barrier = threading.Barrier(2)

    def aborts() -> None:
        hold()
        barrier.abort()

    def waits() -> None:
        try:
            barrier.wait()
        except threading.BrokenBarrierError:
            hold()

    assert watch_of(NAMES, aborts, waits).report().known == "found"


def test_a_queue_that_is_not_empty() -> None:
    items: queue.Queue[int] = queue.Queue()

    def puts() -> None:
        hold()
        items.put(1)

    def looks() -> None:
        while items.empty():
            time.sleep(0)
        hold()

    assert watch_of(NAMES, puts, looks).report().known == "found"


def job(watch: Watching, name: str) -> None:
    """A job of a pool, which is a process."""
    with watch.process(name):
        hold()


@pytest.mark.parametrize("learn", [
    lambda it: it.result(), lambda it: it.exception(), lambda it: futures.wait([it]),
    lambda it: list(futures.as_completed([it]))], ids=["result", "exception", "wait", "as_completed"])
def test_one_job_after_another(learn: Callable[[Any], object]) -> None:
    with wullaphi.watching(NAMES) as watch, futures.ThreadPoolExecutor(2) as pool:
        for name in NAMES:
            learn(pool.submit(job, watch, name))
    assert told(watch) == "none"


def test_one_pool_after_another() -> None:
    with wullaphi.watching(NAMES) as watch:
        for name in NAMES:
            with futures.ThreadPoolExecutor(1) as pool:
                pool.submit(job, watch, name)
    assert told(watch) == "none"


def test_jobs_by_map() -> None:
    with wullaphi.watching(NAMES) as watch, futures.ThreadPoolExecutor(1) as pool:
        assert list(pool.map(functools.partial(job, watch), NAMES)) == [None, None]
    assert watch.report().known == "found", "at once"


def test_a_callback_of_a_job() -> None:
    over = plain.Event()

    def behind(_: object) -> None:
        job(watch, "ben")
        over.set()

    with wullaphi.watching(NAMES) as watch, futures.ThreadPoolExecutor(1) as pool:
        pool.submit(job, watch, "ada").add_done_callback(behind)
        over.wait()
    assert told(watch) == "none"


def test_a_plain_pool_whose_thread_holds() -> None:
    with wullaphi.watching(NAMES) as watch, concurrent.futures.ThreadPoolExecutor(1) as pool:
        concurrent.futures.wait([pool.submit(hold), pool.submit(job, watch, "ada")])
    assert watch.report().known == "undecided"


def test_threads_of_other_kinds() -> None:
    """One that was made before the watch, and one with a `run` of its own."""
    class Own(threading.Thread):
        def run(self) -> None:
            hold("own")

    made_before = threading.Thread(target=hold, args=("before",), name="ada")
    with wullaphi.watching(NAMES) as watch:
        start_all([made_before, Own(name="ben")])
    assert sorted(watch.report().moment) == NAMES, "both are processes"
    assert [isinstance(made_before, plain.Thread), made_before.is_alive()] == [True, False], "of the standard library"
