"""Nobody waits for ever at a meeting, nor at the cost of a processor: some never come, end, die or are interrupted."""

from __future__ import annotations

import contextlib
import os
import signal
import subprocess
import sys
import threading as plain
from typing import Iterator

import pytest
from meetings import LONG, NAMES, SHORT, hold, run, until
from shared import MOST, share_of_a_loop
from watched import SECONDS, Body, start_all

import wullaphi
from wullaphi import GaveUp, Meeting, threading


def test_one_that_never_comes() -> None:
    """It begins, and comes nowhere near its place; nor does one that never begins."""
    is_over = plain.Event()
    meeting = Meeting({"ada": None, "ben": "elsewhere", "cyd": 5}, SHORT)

    def ada() -> None:
        hold()
        is_over.set()

    def ben() -> None:
        hold()
        is_over.wait()

    run(meeting, ada, ben, names=["ada", "ben", "cyd"])
    assert meeting.gave_up == [GaveUp("ada", ("ben", "cyd"), ())]
    assert (meeting.came, meeting.never_came) == ({"ada": 1, "ben": 0, "cyd": 0}, ("ben", "cyd"))
    assert str(meeting) == "not met: ben and cyd never came to their places while ada waited"


def dies() -> None:
    hold()
    raise ValueError("it dies")


def dies_while_it_holds() -> None:
    with wullaphi.holding("elsewhere"):
        raise ValueError("it dies")


@pytest.mark.filterwarnings("ignore::pytest.PytestUnhandledThreadExceptionWarning")
@pytest.mark.parametrize("ends", [lambda: None, hold, dies, dies_while_it_holds],
                         ids=["at once", "after it held", "by an exception", "by an exception while it holds"])
@pytest.mark.parametrize("is_late", [True, False], ids=["one waits for it", "one comes behind it"])
def test_one_that_ends(ends: Body, is_late: bool) -> None:
    """Whoever waits for it goes on, and whoever comes behind it doesn't wait."""
    meeting = Meeting({"ada": None, "ben": "its place"}, LONG)
    has_ended = plain.Event()

    def ada() -> None:
        if not is_late:
            has_ended.wait()
        hold()

    with wullaphi.watching(NAMES, meeting=meeting):
        first, other = (threading.Thread(target=body, name=name) for name, body in (("ada", ada), ("ben", ends)))
        first.start()
        if is_late:
            until(lambda: meeting.came["ada"])
        start_all([other])
        has_ended.set()
        first.join(SECONDS)
        assert not first.is_alive()
    assert meeting.gave_up == [GaveUp("ada", ("ben",), ())]
    assert str(meeting) == "not met: ben never came to its place while ada waited"


def test_one_that_ends_while_it_holds() -> None:
    """The end of its thread ends its interval."""
    meeting = Meeting(dict.fromkeys(NAMES), LONG)
    run(meeting, lambda: wullaphi.holding().__enter__(), hold)
    assert set(meeting.met or ()) == set(NAMES)


def test_the_end_of_the_watch() -> None:
    """A thread that waits as the block ends goes on."""
    meeting = Meeting(dict.fromkeys(NAMES), LONG)
    with wullaphi.watching(NAMES, meeting=meeting):
        daemon = threading.Thread(target=hold, name="ada", daemon=True)
        daemon.start()
        until(lambda: meeting.came["ada"])
    daemon.join(SECONDS)
    assert not daemon.is_alive() and meeting.met is None


def test_a_handler_of_a_signal() -> None:
    """A call within it is the next one of its thread, which then stands at its place no longer."""
    meeting = Meeting(dict.fromkeys(NAMES), 2.0)
    is_called = plain.Event()
    event = threading.Event()

    def handle(*_: object) -> None:
        event.set()
        is_called.set()

    def ben() -> None:
        until(lambda: meeting.came["ada"])
        signal.pthread_kill(plain.main_thread().ident or 0, signal.SIGUSR1)
        is_called.wait()
        hold()

    before = signal.signal(signal.SIGUSR1, handle)
    try:
        with wullaphi.watching(NAMES, meeting=meeting) as watch:
            other = threading.Thread(target=ben, name="ben")
            other.start()
            with watch.process("ada"):
                hold()
            other.join()
    finally:
        signal.signal(signal.SIGUSR1, before)
    assert (meeting.came, meeting.met) == ({"ada": 1, "ben": 1}, None)


@contextlib.contextmanager
def interrupted(meeting: Meeting) -> Iterator[None]:
    """Interrupts the main thread where it waits as ada."""
    def interrupt() -> None:
        until(lambda: meeting.came["ada"])
        signal.pthread_kill(plain.main_thread().ident or 0, signal.SIGINT)

    thread = plain.Thread(target=interrupt)
    thread.start()
    with pytest.raises(KeyboardInterrupt):
        yield
    thread.join()


def test_an_interrupt() -> None:
    """Who is interrupted as it waits isn't there, lets go of its lock, holds no longer, and waits no more."""
    meeting = Meeting(dict.fromkeys(NAMES), LONG)
    lock = threading.Lock()
    with wullaphi.watching(NAMES, meeting=meeting) as watch, watch.process("ada"):
        lock.acquire()
        with interrupted(meeting), wullaphi.holding():
            lock.release()
        assert not lock.locked()
    assert meeting.gave_up == [GaveUp("ada", ("ben",), ())] * 2
    assert str(watch.report()) == "undecided: ben never began"


BEGIN = """
import time
import wullaphi
from wullaphi import asyncio, threading
names = ["ada", "ben", "cyd"]
meeting = wullaphi.Meeting(dict.fromkeys(names), 3.0)
"""
END = """
print(time.process_time() - began)
assert len(meeting.gave_up) == 2
"""
THREADS = BEGIN + """
def work():
    with wullaphi.holding():
        pass
with wullaphi.watching(names, meeting=meeting):
    threads = [threading.Thread(target=work, name=name) for name in names[:2]]
    began = time.process_time()
    for thread in threads:
        thread.start()
    for thread in threads:
        thread.join()
""" + END
TASKS = BEGIN + """
async def work():
    with wullaphi.holding():
        await asyncio.sleep(0)
async def main():
    await asyncio.gather(*(asyncio.create_task(work(), name=name) for name in names[:2]))
with wullaphi.watching(names, meeting=meeting):
    began = time.process_time()
    asyncio.run(main())
""" + END


@pytest.mark.measures
@pytest.mark.parametrize("program", [THREADS, TASKS], ids=["threads", "tasks"])
def test_that_who_waits_leaves_the_processor_alone(program: str) -> None:
    """Two wait for seconds for a third one, which never comes."""
    def begin() -> "subprocess.Popen[str]":
        return subprocess.Popen([sys.executable, "-c", program], stdout=subprocess.PIPE, text=True, env={
            **os.environ, "PYTHONPATH": os.path.dirname(os.path.dirname(wullaphi.__file__))})

    assert share_of_a_loop(begin) < MOST
