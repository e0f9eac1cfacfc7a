"""Two workers whose conditions one kind of thing keeps apart: with the watched kind there is no moment in any run, and
with the plain one it is found in each."""

from __future__ import annotations

import queue as plain_queue
import random
import threading as plain_threading
import time
from typing import Any, Callable, Tuple

import pytest
from watched import Body, hold, nap, start_all

import wullaphi
from wullaphi import queue as watched_queue
from wullaphi import threading as watched_threading

RUNS = 1000

# The two workers, and what makes them over the modules `threading` and `queue`.
Bodies = Tuple[Body, Body]
Program = Callable[[Any, Any], Bodies]


def jitter() -> None:
    if random.random() < 0.3:
        nap()


def lock_of(name: str, *words: int) -> Program:
    """Both hold only while they have the lock."""
    def program(threading: Any, _: Any) -> Bodies:
        lock = getattr(threading, name)(*words)

        def work() -> None:
            jitter()
            with lock:
                hold()
        return work, work
    return program


def reentered(threading: Any, _: Any) -> Bodies:
    lock = threading.RLock()

    def work() -> None:
        jitter()
        with lock:
            with lock:
                hold()
            with lock:
                hold()
    return work, work


def released_by_another(threading: Any, _: Any) -> Bodies:
    """ada holds behind a lock that ben lets go of, before he gets it himself."""
    lock, go = threading.Lock(), threading.Event()
    lock.acquire()

    def ada() -> None:
        hold()
        go.set()

    def ben() -> None:
        go.wait()
        lock.release()
        with lock:
            hold()
    return ada, ben


def notified_by(condition: Any) -> Bodies:
    """Ben waits at this condition until ada has held, and says so."""
    ready = list[int]()

    def ada() -> None:
        jitter()
        hold()
        with condition:
            ready.append(1)
            condition.notify()

    def ben() -> None:
        with condition:
            while not ready:
                condition.wait()
        hold()
    return ada, ben


def notified(threading: Any, _: Any) -> Bodies:
    return notified_by(threading.Condition())


def timed_out(threading: Any, _: Any) -> Bodies:
    """Nobody notifies: ben sees it when his time is up."""
    condition, ready = threading.Condition(), list[int]()

    def ada() -> None:
        jitter()
        hold()
        with condition:
            ready.append(1)

    def ben() -> None:
        with condition:
            while not condition.wait_for(lambda: ready, 0.0005):
                pass
        hold()
    return ada, ben


def over_plain_lock(threading: Any, _: Any) -> Bodies:
    """The program gives the condition a plain lock of its own."""
    return notified_by(threading.Condition(plain_threading.Lock()))


def wait_lets_go(threading: Any, _: Any) -> Bodies:
    """Both hold only while they have the lock, which `wait` lets go of."""
    condition, ready = threading.Condition(), list[int]()

    def ada() -> None:
        with condition:
            hold()
            ready.append(1)
            condition.notify()

    def ben() -> None:
        with condition:
            hold()
            while not ready:
                condition.wait()
            hold()
    return ada, ben


def event(threading: Any, _: Any) -> Bodies:
    it = threading.Event()

    def ada() -> None:
        jitter()
        hold()
        it.set()

    def ben() -> None:
        it.wait()
        hold()
    return ada, ben


def event_polled(threading: Any, _: Any) -> Bodies:
    it = threading.Event()

    def ada() -> None:
        jitter()
        hold()
        it.set()

    def ben() -> None:
        while not it.is_set():
            time.sleep(0)
        hold()
    return ada, ben


def signal(threading: Any, _: Any) -> Bodies:
    it = threading.Semaphore(0)

    def ada() -> None:
        jitter()
        hold()
        it.release()

    def ben() -> None:
        it.acquire()
        hold()
    return ada, ben


def barrier(threading: Any, _: Any) -> Bodies:
    it = threading.Barrier(2)

    def ada() -> None:
        jitter()
        hold()
        it.wait()

    def ben() -> None:
        jitter()
        it.wait()
        hold()
    return ada, ben


def queue_of(kind: str, *size: int) -> Program:
    def program(_: Any, queue: Any) -> Bodies:
        it = getattr(queue, kind)(*size)

        def ada() -> None:
            jitter()
            hold()
            it.put(1)

        def ben() -> None:
            it.get()
            hold()
        return ada, ben
    return program


def full(_: Any, queue: Any) -> Bodies:
    """ada needs the place that ben leaves."""
    it = queue.Queue(1)
    it.put(0)

    def ada() -> None:
        it.put(1)
        hold()

    def ben() -> None:
        jitter()
        hold()
        it.get()
        it.get()
    return ada, ben


def joined(_: Any, queue: Any) -> Bodies:
    it = queue.Queue()
    it.put(0)

    def ada() -> None:
        it.get()
        jitter()
        hold()
        it.task_done()

    def ben() -> None:
        it.join()
        hold()
    return ada, ben


KINDS = {
    "Lock": lock_of("Lock"),
    "Lock, released by another": released_by_another,
    "RLock": lock_of("RLock"),
    "RLock, got again": reentered,
    "Condition, notified": notified,
    "Condition, time is up": timed_out,
    "Condition, wait lets go": wait_lets_go,
    "Event": event,
    "Event, polled": event_polled,
    "Semaphore(0)": signal,
    "Semaphore(1)": lock_of("Semaphore", 1),
    "BoundedSemaphore(1)": lock_of("BoundedSemaphore", 1),
    "Barrier": barrier,
    "Queue": queue_of("Queue"),
    "Queue(2)": queue_of("Queue", 2),
    "Queue(1), full": full,
    "Queue, join": joined,
    "LifoQueue": queue_of("LifoQueue"),
    "PriorityQueue": queue_of("PriorityQueue"),
    "SimpleQueue": queue_of("SimpleQueue"),
    "Condition over a plain lock": over_plain_lock,
}
DESIGNS = pytest.mark.parametrize(("threading", "queue", "told"), [
    (watched_threading, watched_queue, "nothing"), (plain_threading, plain_queue, "found")], ids=["watched", "plain"])


def known(program: Program, threading: Any, queue: Any) -> str:
    """What is known of the two, who are processes either way: with a plain kind only what orders them isn't seen."""
    with wullaphi.watching(["ada", "ben"]) as watch:
        bodies = dict(zip(watch.names, program(threading, queue)))
        threads = [watched_threading.Thread(target=body, name=name) for name, body in bodies.items()]
        if random.random() < 0.5:
            threads.reverse()
        start_all(threads)
    return watch.report().known


@DESIGNS
@pytest.mark.parametrize("name", KINDS)
def test_a_kind(name: str, threading: Any, queue: Any, told: str) -> None:
    assert [known(KINDS[name], threading, queue) for _ in range(RUNS)] == [told] * RUNS


def known_of_one_after_another(threading: Any) -> str:
    """What is known of ben, who starts once ada was joined."""
    with wullaphi.watching(["ada", "ben"]) as watch:
        def work(name: str) -> None:
            with watch.process(name):
                hold()

        for name in watch.names:
            start_all([threading.Thread(target=work, args=(name,))])
    return watch.report().known


@DESIGNS
def test_start_and_join(threading: Any, queue: Any, told: str) -> None:
    assert [known_of_one_after_another(threading) for _ in range(RUNS)] == [told] * RUNS
