"""What is outside a watch, and what goes wrong in one: each is told, and none is silently "none"."""

from __future__ import annotations

import contextlib
import multiprocessing
import os
import threading as plain
from typing import Any, Callable

import pytest
from watched import hold, start_all, watch_of

import wullaphi
from wullaphi import queue, threading
from wullaphi._party import party
from wullaphi._watching import Watching

NAMES = ["ada", "ben"]


def told(watch: Watching, question: int | set[str] = 0) -> str:
    return str(watch.report(question))


def test_strays() -> None:
    """Threads that hold and are no process."""
    with wullaphi.watching(["ada"]) as watch:
        start_all([threading.Thread(target=hold, name="eve"), plain.Thread(target=hold, name="cyd"),
                   threading.Thread(target=lambda: None, name="ada")])
    report = watch.report()
    assert report.known == "undecided"
    assert [name in report.why for name in ("eve (1 times)", "cyd (1 times)", "ada")] == [True, True, False]


def test_a_plain_thread_of_a_processes_name() -> None:
    with wullaphi.watching(["ada"]) as watch:
        start_all([plain.Thread(target=hold, name="ada")])
    assert told(watch) == ("undecided: ada never began; held a condition, but is no process of the watch: "
                           "ada (1 times)")


def test_that_a_moment_is_found_whoever_else_held() -> None:
    with wullaphi.watching(NAMES) as watch:
        start_all([threading.Thread(target=hold, name=name) for name in ("eve", "ada", "ben")])
    assert watch.report().known == "found"


def test_a_name_that_never_began() -> None:
    assert told(watch_of(NAMES, hold)) == "undecided: ben never began"
    watch = watch_of(["ada", "ben", "cyd"], hold, hold, pairs=True)
    assert told(watch, {"ada", "ben"})[:5] == "found", "a question without it"
    assert told(watch, {"ada", "cyd"}) == "undecided: cyd never began"


def test_who_never_holds_is_named() -> None:
    watch = watch_of(NAMES, lambda: None, hold)
    assert watch.report() == ("nothing", {}, "ada never held a condition")
    assert told(watch) == "none: ada never held a condition"
    assert told(watch_of(NAMES, lambda: None, lambda: None)) == "none: ada, ben never held a condition"
    watch = watch_of(["ada", "ben", "cyd"], hold, hold, lambda: None, pairs=True)
    assert told(watch, {"ada", "ben"})[:5] == "found", "a question without it"
    assert told(watch, {"ada", "cyd"}) == "none: cyd never held a condition"


def test_a_thread_that_ends_after_the_watch() -> None:
    over = plain.Event()

    def ada() -> None:
        over.wait()
        hold()

    with wullaphi.watching(NAMES) as watch:
        daemon = threading.Thread(target=ada, name="ada", daemon=True)
        daemon.start()
        start_all([threading.Thread(target=hold, name="ben")])
    over.set()
    daemon.join()
    assert told(watch) == "undecided: ada had not ended"


@pytest.mark.parametrize("others_hold", [True, False], ids=["the others hold", "they hold nothing"])
def test_twenty_threads_of_which_sixteen_are_processes(others_hold: bool) -> None:
    lock = threading.Lock()

    def work() -> None:
        with lock, wullaphi.holding():
            pass

    def hold_nothing() -> None:
        with lock:
            pass

    with wullaphi.watching([f"w{number}" for number in range(16)], pairs=True) as watch:
        start_all([threading.Thread(target=work if number < 16 or others_hold else hold_nothing, name=f"w{number}")
                   for number in range(20)])
    known = {it.known for it in watch.reports().values()}
    assert known == ({"undecided"} if others_hold else {"nothing"})
    if others_hold:
        assert all(f"w{number} (1 times)" in told(watch) for number in range(16, 20)), "the other four are named"


@pytest.mark.parametrize(("names", "error", "why"), [
    ([f"w{it}" for it in range(17)], wullaphi.OutOfRange, "1 to 16 processes"),
    ([], wullaphi.OutOfRange, "1 to 16 processes"), (["ada", "ada"], ValueError, ""), ("ada", TypeError, "")],
    ids=["seventeen", "none", "a name twice", "a text"])
def test_names_that_are_refused(names: Any, error: type[Exception], why: str) -> None:
    with pytest.raises(error, match=why):
        wullaphi.watching(names)


def test_processes_that_are_refused() -> None:
    with wullaphi.watching(NAMES) as watch:
        with pytest.raises(RuntimeError, match="one at a time"):  # a watch in a watch
            wullaphi.watching(["cyd"]).__enter__()
        first = threading.Thread(target=hold, name="ada")
        start_all([first])
        with pytest.raises(RuntimeError, match="already"):  # a second thread of a name
            threading.Thread(name="ada").start()
        with pytest.raises(RuntimeError):  # a thread twice
            first.start()
        with pytest.raises(ValueError, match="cyd"):
            watch.process("cyd").__enter__()
        with watch.process("ben"), pytest.raises(RuntimeError, match="ben already"):  # two of one thread
            watch.process("ada").__enter__()
        with pytest.raises(RuntimeError, match="already"):  # a process twice
            watch.process("ben").__enter__()
        assert told(watch) == "none: ben never held a condition", "what they held is known"


def test_a_watch_that_has_ended() -> None:
    watch = watch_of(NAMES, hold, hold)
    with pytest.raises(ValueError, match="current"):
        watch.process("ada").__enter__()
    with pytest.raises(RuntimeError, match="ended"):
        watch.__enter__()
    with pytest.raises(ValueError, match="logs=True"):
        watch.write_log("/dev/null")
    with wullaphi.holding("nothing"):
        assert told(watch_of(["ada"], hold))[:10] == "found: ada", "a watch after another"


def test_a_thread_that_cannot_start(monkeypatch: pytest.MonkeyPatch) -> None:
    """Its process has ended, and the next one of another name is as it should be."""
    def fail(*_words: object, **_named: object) -> None:
        raise RuntimeError("can't start new thread")

    with wullaphi.watching(NAMES) as watch:
        with monkeypatch.context() as patch:
            patch.setattr(plain, "_start_new_thread", fail)
            with pytest.raises(RuntimeError, match="can't start"):
                threading.Thread(target=hold, name="ada").start()
        start_all([threading.Thread(target=hold, name="ben")])
    assert told(watch) == "none: ada never held a condition"


def test_an_error_that_ends_a_thread(monkeypatch: pytest.MonkeyPatch) -> None:
    """It ends what the thread held."""
    monkeypatch.setattr(plain, "excepthook", lambda _: None)

    def ada() -> None:
        wullaphi.holding("lost").__enter__()
        raise KeyError("planted")

    with wullaphi.watching(NAMES) as watch:
        start_all([threading.Thread(target=ada, name="ada")])
        start_all([threading.Thread(target=hold, name="ben")])
    assert told(watch) == "none"


def test_an_error_that_ends_a_block() -> None:
    lock = threading.Lock()

    def work() -> None:
        with contextlib.suppress(KeyError), lock, wullaphi.holding():
            raise KeyError("planted")

    assert told(watch_of(NAMES, work, work)) == "none"


def test_a_block_in_a_block() -> None:
    """What began first holds on after an inner block has ended."""
    inner_over, lock = plain.Barrier(2), threading.Lock()

    def ada() -> None:
        with wullaphi.holding("outer"):
            with wullaphi.holding("inner"):
                lock.acquire()
            lock.release()
            inner_over.wait()
            inner_over.wait()

    def ben() -> None:
        inner_over.wait()
        with lock, wullaphi.holding("ben"):
            inner_over.wait()

    assert told(watch_of(NAMES, ada, ben))[:21] == "found: ada at outer ("


def test_a_block_that_two_threads_enter() -> None:
    lock, both = threading.Lock(), wullaphi.holding("both")

    def work() -> None:
        with lock, both:
            pass

    assert told(watch_of(NAMES, work, work)) == "none"


def test_a_label_that_no_log_can_hold() -> None:
    """It is told, and hurts nobody."""
    with wullaphi.watching(["ada"], logs=True) as watch:
        with watch.process("ada"), wullaphi.holding("x" * 70_000):
            pass
    assert watch.report().known == "found", "it is found"
    watch = watch_of(NAMES, lambda: hold("x" * 70_000), lambda: None, logs=True)
    assert "isn't in the log" in told(watch), "an event is missing"


def in_child(work: Callable[[], object]) -> int:
    """The status of a forked child that does this, 0 where nothing is raised."""
    child = os.fork()
    if child == 0:
        status = 1
        try:
            work()
            status = 0
        finally:
            os._exit(status)
    return os.waitstatus_to_exitcode(os.waitpid(child, 0)[1])


def test_a_fork_in_a_watch() -> None:
    """A child's calls are plain ones, and neither report is "none"."""
    lock = threading.Lock()
    items: queue.Queue[int] = queue.Queue()

    def child() -> None:
        with lock, wullaphi.holding():
            items.put(1)
            items.get()
        assert "forked child" in told(watch), told(watch)
        assert told(watch_of(["eve"], hold)).startswith("found: eve")

    with wullaphi.watching(NAMES) as watch:
        with watch.process("ada"):
            assert in_child(child) == 0, "the child"
        start_all([threading.Thread(target=lambda: None, name="ben")])
    assert told(watch) == "undecided: the program was forked, and what its child did isn't seen"


def test_a_process_of_multiprocessing() -> None:
    def work() -> None:
        child = multiprocessing.get_context("fork").Process(target=hold)
        child.start()
        child.join()

    assert watch_of(NAMES, work, hold).report().known == "undecided"


def test_a_fork_without_a_watch() -> None:
    assert in_child(hold) == 0
    assert told(watch_of(["ada"], lambda: None)) == "none: ada never held a condition"


def test_a_call_that_the_library_refuses() -> None:
    """It makes the report undecided, and raises nothing in the program."""
    lock = threading.Lock()

    def ada() -> None:
        with wullaphi.holding():
            who: Any = party()
            who._clock[0] = 0xFFFF_FFFE  # the end of a clock
            for _ in range(3):
                with lock:
                    pass

    watch = watch_of(NAMES, ada, lambda: None)
    assert (lock.locked(), "a call of ada was refused" in told(watch)) == (False, True)
