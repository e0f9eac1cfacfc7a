"""Processes that are forked while threads of the parent are in the middle of a call: none of them hangs."""

from __future__ import annotations

import os
import signal
import threading
import time
from typing import Callable

import pytest
from shared import ignore, observed

import wullaphi
from wullaphi.log import HostLog
from wullaphi.station import Direct, Interrupted, Station

CHILDREN = 6
THREADS = 2
# A child that takes longer has hung.
SECONDS = 600


@pytest.fixture(autouse=True)
def many_switches(switch_every: Callable[[float], None]) -> None:
    switch_every(1e-4)


def fork(call: Callable[[], bool]) -> int:
    """A child that makes this call, and ends with status 0 where its answer is true."""
    child = os.fork()
    if child == 0:
        status = 1
        try:
            status = 0 if call() else 2
        finally:
            os._exit(status)
    return child


def status_of(child: int, end: float) -> int | str:
    """The status with which the child ends, or "hung"."""
    while time.monotonic() < end:
        ended, status = os.waitpid(child, os.WNOHANG)
        if ended:
            return os.WEXITSTATUS(status) if os.WIFEXITED(status) else "killed"
        time.sleep(0.01)
    os.kill(child, signal.SIGKILL)
    os.waitpid(child, 0)
    return "hung"


def statuses(children: list[int]) -> list[int | str]:
    end = time.monotonic() + SECONDS
    return [status_of(child, end) for child in children]


def while_threads(work: Callable[[], object], call: Callable[[], bool]) -> list[int | str]:
    """The statuses of children that are forked while threads do this work over and over."""
    is_over = threading.Event()

    def run() -> None:
        while not is_over.is_set():
            work()

    threads = [threading.Thread(target=run) for _ in range(THREADS)]
    for thread in threads:
        thread.start()
    children = []
    for _ in range(CHILDREN):
        children.append(fork(call))
        time.sleep(0.002)
    is_over.set()
    for thread in threads:
        thread.join()
    return statuses(children)


NOTE = bytes(observed(wullaphi.Probe(1, 0, 2), tag=7))


@pytest.mark.parametrize("call", [lambda: wullaphi.Note(NOTE).tag == 7, lambda: not wullaphi.is_last(NOTE)],
                         ids=["Note", "is_last"])
def test_notes(call: Callable[[], bool]) -> None:
    assert while_threads(lambda: wullaphi.Note(NOTE), call) == [0] * CHILDREN


def test_a_probe_that_threads_share() -> None:
    probe = wullaphi.Probe(1, 0, 2)

    def work() -> None:
        try:
            probe.observe(True)
            probe.stamp(1)
        except wullaphi.Backlog:
            pass  # another thread has the note

    assert while_threads(work, lambda: len(probe.to_bytes()) > 0) == [0] * CHILDREN


class Held:
    """A call that a thread is in the middle of, until it is told to go on."""

    def __init__(self) -> None:
        self.parent = os.getpid()
        self.is_there, self.may_end = threading.Event(), threading.Event()

    def wait(self, *_: object) -> None:
        if os.getpid() == self.parent:
            self.is_there.set()
            self.may_end.wait()

    def status_of(self, work: Callable[[], object], call: Callable[[], bool]) -> int | str:
        """The status of a child that is forked while a thread does this work."""
        thread = threading.Thread(target=work)
        thread.start()
        self.is_there.wait()
        child = fork(call)
        told = statuses([child])
        self.may_end.set()
        thread.join()
        return told[0]


def test_a_log_that_a_thread_is_writing_to() -> None:
    held = Held()
    log = HostLog("ada", held.wait)

    def goes_on() -> bool:
        log.event("in the child")
        return log.clock == {"ada": 2}

    assert held.status_of(lambda: log.event("in the parent"), goes_on) == 0
    assert log.clock == {"ada": 1}, "the parent's own log"


def test_a_station_in_the_middle_of_a_step() -> None:
    held = Held()
    station = Station(wullaphi.Watch(1, ["ada", "ben"]), "ada", Direct(ignore))

    def work() -> None:
        with station.step():
            held.wait()
            station.observe(True)

    def is_interrupted() -> bool:
        try:
            station.observe(True)
        except Interrupted:
            return True
        return False

    assert held.status_of(work, is_interrupted) == 0


def test_a_station_between_two_steps() -> None:
    station = Station(wullaphi.Watch(1, ["ada", "ben"]), "ada", Direct(ignore))
    with station.step():
        station.observe(True)
    station.close()
    child = fork(lambda: station.is_closed and repr(station).endswith("(0, 0))"))
    assert statuses([child]) == [0]
