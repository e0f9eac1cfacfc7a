"""Where a thread waits for others: before each call that may end its interval, with no lock of the library held."""

from __future__ import annotations

import threading as plain
from typing import Any, Callable, Dict, Tuple

import pytest
from meetings import LONG, NAMES, hold, run, until
from watched import start_all

from wullaphi import Meeting, futures, holding, queue, threading

# What ends an interval: a call by which something is let go or got, after what another process has left there.
Call = Callable[[], object]


def released(lock: Any) -> Any:
    """A lock that another process had."""
    def use() -> None:
        with lock:
            pass
    return use, lock.acquire


def got_before(lock: Any) -> Any:
    return lambda: None, lambda: lock.acquire() and lock.release()


def let_go(call: Call) -> Any:
    return lambda: None, call


def after(first: Call, call: Call) -> Any:
    return first, call


def waiting(condition: Any) -> Any:
    """Waits for nobody."""
    def wait() -> None:
        with condition:
            condition.wait(0.001)
    return lambda: None, wait


def in_queue(kind: str, *size: int) -> Tuple[Any, Any]:
    it = getattr(queue, kind)(*size)
    return after(lambda: it.put(1), it.get), let_go(lambda: it.put(1))


def done_tasks() -> Tuple[Any, Any]:
    items: queue.Queue[int] = queue.Queue()
    items.put(1)
    return after(items.task_done, items.join), let_go(items.task_done)


def ended_thread() -> Any:
    thread = threading.Thread(target=lambda: None)
    return after(lambda: start_all([thread]), thread.join), thread


class Pool:
    """A pool with a job that another process has submitted."""

    def __init__(self) -> None:
        self.pool = futures.ThreadPoolExecutor(1)
        self.future: Any = None

    def submit(self) -> None:
        self.future = self.pool.submit(int, "7")
        futures.wait([self.future])

    def learns(self, learn: Callable[[Any], object]) -> Any:
        return after(self.submit, lambda: learn(self))


def signals() -> Dict[str, Any]:
    raised, seen = threading.Event(), threading.Event()
    places = threading.Semaphore(0)
    return {
        "Event.set": let_go(threading.Event().set),
        "Event.wait": after(raised.set, raised.wait),
        "Event.is_set": after(seen.set, seen.is_set),
        "Semaphore.acquire": after(places.release, places.acquire),
        "Semaphore.release": let_go(threading.Semaphore().release),
        "Barrier.wait": let_go(threading.Barrier(1).wait),
    }


def calls() -> Dict[str, Any]:
    """By its name each call, with what another process does before."""
    items, full = in_queue("Queue"), in_queue("SimpleQueue")
    joined, done = done_tasks()
    lock, again = threading.Lock(), threading.RLock()
    over = threading.Condition(plain.Lock())
    return {
        "Lock.acquire": released(lock), "Lock.release": got_before(threading.Lock()),
        "RLock.acquire": released(again), "RLock.release": got_before(threading.RLock()),
        "Condition.acquire": released(threading.Condition()), "a lock of its own": released(over),
        "Condition.wait": waiting(threading.Condition()), "a wait over a lock of its own": waiting(
            threading.Condition(plain.Lock())),
        **signals(),
        "Queue.get": items[0], "Queue.put": in_queue("Queue", 2)[1],
        "SimpleQueue.get": full[0], "SimpleQueue.put": in_queue("SimpleQueue")[1],
        "Queue.join": joined, "Queue.task_done": done_tasks()[1],
        "Thread.start": let_go(lambda: threading.Thread(target=lambda: None).start()),
        "Thread.join": ended_thread()[0],
        "submit": let_go(lambda: Pool().pool.submit(int)),
        "result": Pool().learns(lambda it: it.future.result()),
        "exception": Pool().learns(lambda it: it.future.exception()),
        "done": Pool().learns(lambda it: it.future.done()),
        "wait": Pool().learns(lambda it: futures.wait([it.future])),
        "as_completed": Pool().learns(lambda it: list(futures.as_completed([it.future]))),
        "shutdown": Pool().learns(lambda it: it.pool.shutdown()),
    }


@pytest.mark.parametrize("name", calls())
def test_that_one_waits_before_each_call(name: str) -> None:
    """Behind the call the interval of the moment is over."""
    before, call = calls()[name]
    is_ready = plain.Event()

    def ada() -> None:
        is_ready.wait()
        with holding("ada"):
            call()

    def cyd() -> None:
        before()
        is_ready.set()

    meeting = Meeting({"ada": 0, "ben": None}, LONG)
    run(meeting, ada, hold, cyd, names=["ada", "ben", "cyd"])
    assert meeting.met is not None and meeting.met["ada"].interval == 0


OTHERS: Dict[str, Tuple[Callable[[], Any], Callable[[Any], object], Callable[[Any], object]]] = {
    "Lock": (threading.Lock, lambda it: it.acquire(), lambda it: it.acquire() and it.release()),
    "RLock": (threading.RLock, lambda it: it.acquire() and it.release(), lambda it: it.acquire() and it.release()),
    "Event": (threading.Event, lambda it: it.set(), lambda it: it.is_set()),
    "Semaphore": (lambda: threading.Semaphore(2), lambda it: it.acquire(), lambda it: it.acquire()),
    "Barrier": (lambda: threading.Barrier(1), lambda it: it.wait(), lambda it: it.wait()),
    "Queue": (queue.Queue, lambda it: it.put(1), lambda it: it.put(2)),
    "SimpleQueue": (queue.SimpleQueue, lambda it: it.put(1), lambda it: it.put(2)),
}


@pytest.mark.parametrize("kind", OTHERS)
def test_that_no_lock_of_ours_is_held(kind: str) -> None:
    """While one waits before a call, another one makes calls of the same thing."""
    make, call, other = OTHERS[kind]
    it = make()
    meeting = Meeting({"ada": 0, "ben": None}, LONG)

    def ada() -> None:
        with holding():
            call(it)

    def ben() -> None:
        until(lambda: meeting.came["ada"])
        start_all([threading.Thread(target=lambda: other(it))])
        hold()

    run(meeting, ada, ben)
    assert set(meeting.met or ()) == set(NAMES)
