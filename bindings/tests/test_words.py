"""Names and texts: of watches, probes and answers, and of stamps in headers."""

from __future__ import annotations

import pathlib
import re
from typing import Any, Callable

import pytest
from shared import observed

import wullaphi
from wullaphi import Checker, Probe, Watch

HEADER = pathlib.Path(__file__).resolve().parent.parent / "wullaphi.h"
LONGEST_HEADER = 160


def test_messages_by_names() -> None:
    watch = Watch(42, ["api", "worker1", "worker2"])
    api, worker = watch.probe("api"), Probe(watch, "worker1")
    worker.receive(api.stamp("worker1"))
    worker.receive(api.stamp(1))
    assert worker.clock == (2, 2, 0) and worker.process == 1, "a message by names"
    with pytest.raises(wullaphi.OutOfRange, match="."):
        api.stamp("nobody")
    processes: list[str | int] = ["api", 3]
    for process in processes:
        with pytest.raises(wullaphi.NoSuch, match="."):
            api.stamp(process)


def test_a_checker_by_names() -> None:
    watch = Watch(42, ["api", "worker1", "worker2"])
    api, worker = watch.probe("api"), watch.probe("worker1")
    for stamp in (api.stamp("worker1"), api.stamp("worker1")):
        worker.receive(stamp)
    checker = watch.checker(watched=["api", 1])
    checker.take(observed(api))
    assert (checker.taken("api"), checker.taken(0), checker.taken("worker1")) == (1, 1, 0), "taken, by names"
    checker.take(observed(worker))
    assert checker.report() == wullaphi.Report("found", (2, 2, None)), "a report"
    checker.lose("worker2")
    with pytest.raises(wullaphi.Ended, match="."):
        checker.lose(2)
    with pytest.raises(wullaphi.OutOfRange, match="."):
        checker.taken("nobody")


def test_names_and_numbers() -> None:
    watch = Watch(42, ["api", "worker1", "worker2"])
    processes: list[str | int] = ["api", "worker2", 1]
    assert [watch.number_of(it) for it in processes] == [0, 2, 1], "numbers"
    assert [watch.name_of(it) for it in range(3)] == ["api", "worker1", "worker2"], "names"
    assert Watch(42, 2).name_of(1) == 1, "a process without a name"


WATCH = Watch(42, ["api", "worker1", "worker2"])


@pytest.mark.parametrize("call", [
    lambda: WATCH.probe("nobody"), lambda: WATCH.checker(["nobody"]), lambda: WATCH.checker([]),
    lambda: WATCH.number_of(3), lambda: WATCH.name_of(3), lambda: Watch(42, 2).number_of("api"),
    lambda: Watch(2 ** 64, 2), lambda: Probe(WATCH, 0, 2)],
    ids=["a probe", "a checker", "a checker of nobody", "a number", "a name", "a watch without names",
         "a number of a watch", "a number of processes beside a watch"])
def test_a_process_that_there_is_not(call: Callable[[], object]) -> None:
    with pytest.raises(wullaphi.OutOfRange, match="."):
        call()


@pytest.mark.parametrize("processes", [0, 17, -1, [], ["p"] * 17], ids=str)
def test_a_watch_of_too_many_or_too_few(processes: int | list[str]) -> None:
    with pytest.raises(wullaphi.OutOfRange, match="."):
        Watch(42, processes)


def test_a_name_twice() -> None:
    with pytest.raises(ValueError, match="."):
        Watch(42, ["api", "api"])


def test_that_watches_are_compared() -> None:
    assert Watch(1, ["a"]) == Watch(1, ["a"]) != Watch(1, ["b"])
    assert Watch(1, 1) != Watch(1, ["a"])


WRONG: Any = {"a text": "api", "bytes": b"api", "numbers": [1, 2], "a fraction": 1.5}


@pytest.mark.parametrize("call", [
    lambda: Watch(1, WRONG["a text"]), lambda: Watch(1, WRONG["bytes"]), lambda: Watch(1, WRONG["numbers"]),
    lambda: Watch(WRONG["a fraction"], 2), lambda: WATCH.checker(watched="api"), lambda: Checker(WATCH, watched="api"),
    lambda: Checker(WATCH, questions="api"), lambda: Checker(WATCH, questions=["api"])],
    ids=["names", "names in bytes", "names that are numbers", "a number of a watch", "watched", "watched of a checker",
         "questions", "a question"])
def test_that_a_text_is_no_list(call: Callable[[], object]) -> None:
    """A list of names is no text."""
    with pytest.raises(TypeError, match="."):
        call()


def test_what_was_wanted_in_the_place_of_a_text() -> None:
    wanted = "the names of the processes are given as a list, as ['api'], and not as the text 'api'"
    with pytest.raises(TypeError, match=re.escape(wanted) + "$"):
        Watch(1, WRONG["a text"])
    wanted = "no process is called 'ab'; a question of several is a set of their names"
    with pytest.raises(wullaphi.OutOfRange, match=f"^{re.escape(wanted)}$"):
        Watch(42, ["a", "b", "c"]).checker().report("ab")


@pytest.mark.parametrize(("watched", "wanted"), [(["b", "a"], (0, 1)), (["a", "a"], (0,)), (["c", 0, "c"], (0, 2))],
                         ids=str)
def test_that_a_list_may_name_a_process_again(watched: list[str | int], wanted: tuple[int, ...]) -> None:
    watch = Watch(42, ["a", "b", "c"])
    checker = watch.checker(watched=watched)
    assert checker.questions == (wanted,) and checker.watched == wanted, "watched"
    again = Checker.load(checker.save(), watch)
    assert again.questions == checker.questions, "watched after a restart"
    assert checker.report(set(watched)) == again.report(set(watched)), "a question by its processes"


def stamped() -> Probe:
    """A probe that has given a note and sent a message."""
    probe = Watch(42, ["api", "worker1"]).probe("api")
    probe.observe(True)
    probe.stamp(1)
    return probe


@pytest.mark.parametrize(("it", "wanted"), [
    (Watch(42, ["api", "worker1"]), "Watch(42, ['api', 'worker1'])"),
    (Watch(42, 2), "Watch(42, 2)"),
    (stamped(), "Probe(Watch(42, ['api', 'worker1']), 'api', clock=(1, 0))"),
    (observed(Probe(42, 0, 2), tag=7), "Note(watch=42, process=0, number=0, clock=(0, 0), tag=7)"),
    (stamped().close(), "Note(watch=42, process=0, number=1, is_last=True, tag=0)"),
    (Watch(42, ["api", "worker1"]).checker(), "Checker(Watch(42, ['api', 'worker1']), watched=['api', 'worker1'])"),
    (Checker(1, 3, [2]), "Checker(Watch(1, 3), watched=[2])"),
    (Checker(1, 3, pairs=True), "Checker(Watch(1, 3), questions=[[0, 1], [0, 2], [1, 2]])"),
    (Checker(1, 1).report(), "Report(known='undecided', cut=None)"),
    (wullaphi.single(b""), r"Single(status=2, text=b'wcpwatch: line 1: header\n')"),
    (wullaphi.NotAgreed(), "NotAgreed()")], ids=lambda it: it if isinstance(it, str) else "")
def test_how_it_is_shown(it: object, wanted: str) -> None:
    assert repr(it) == wanted


def test_that_a_watch_is_shown_as_it_is_made() -> None:
    watch = Watch(42, ["api", "worker1"])
    assert eval(repr(watch)) == watch  # pylint: disable=eval-used


@pytest.mark.parametrize("name", wullaphi.__all__)
def test_the_module_of_a_name(name: str) -> None:
    assert getattr(getattr(wullaphi, name), "__module__", "wullaphi") == "wullaphi"


def test_stamps_in_headers() -> None:
    stamp = Probe(2 ** 64 - 1, 15, 16).stamp(0)
    text = wullaphi.to_header(stamp)
    assert len(text) <= LONGEST_HEADER and re.fullmatch(r"[A-Za-z0-9_=-]*", text) is not None, f"a header: {text}"
    assert wullaphi.from_header(text) == stamp, "a stamp from a header"
    damaged = ["*" * len(text), "é" + text[1:], "AAAA" + text[4:], text[:-4] + "=" * 4]
    for bad in ("", text[:-4], text[:-1], text + "AAAA", *damaged):
        with pytest.raises(wullaphi.NoStamp, match="."):
            wullaphi.from_header(bad)
    for no_stamp in (b"", stamp[:-1], bytes(len(stamp))):
        with pytest.raises(wullaphi.NoStamp, match="."):
            wullaphi.to_header(no_stamp)


def test_that_the_header_names_each_answer() -> None:
    text = HEADER.read_text(encoding="utf-8")
    numbered = re.findall(r"^#define (WCP_[A-Z_]+) [0-9]+ +/[*]", text, re.M)
    settings = {"WCP_FLAG_EVENT", "WCP_FLAG_SEND"}
    named = re.findall(r"^    WCP_NAMED\((\w+)\)$", text, re.M)
    assert named == [it for it in numbered if it not in settings], "wcp_answer_name has each answer once"


def test_versions() -> None:
    version = int(re.findall(r"^#define WCP_VERSION ([0-9]+)$", HEADER.read_text(encoding="utf-8"), re.M)[0])
    first, second, third = (int(it) for it in wullaphi.__version__.split("."))
    assert version == 10000 * first + 100 * second + third, "the version of the header"
    assert wullaphi.library_version() == wullaphi.__version__, "the version of the library"
