"""What `wcpcollect` prints and says, and with which status it ends."""

from __future__ import annotations

import contextlib
import itertools
import json
import os
import subprocess
import sys
import time
from typing import Callable, Iterator

import pytest
from server import SECONDS, TOP, Server, collected, collector, poll_until

import wullaphi
from wullaphi.collect import Anew, Collector, TakenOver
from wullaphi.redis import open_station
from wullaphi.station import Station

NUMBERS = itertools.count(1)
NAMES = ["ada", "ben", "keeper"]


class Three:
    """A watch of ada, ben and the keeper, who has no condition."""

    def __init__(self, server: Server) -> None:
        self.server = server
        self.watch = wullaphi.Watch(next(NUMBERS), NAMES)
        self.stations = [self.station(name) for name in NAMES]
        self.ada, self.ben, self.keeper = self.stations

    def station(self, name: str) -> Station:
        return open_station(self.server.url, self.watch, name, watched=name != "keeper", beat=0.1)

    def stream(self, process: int) -> str:
        return f"wullaphi:{{{self.watch.number}}}:notes:{process}"

    def tell(self, sender: Station, receiver: Station) -> None:
        receiver.receive(sender.stamp(receiver.name))

    def hold(self, station: Station, tag: int = 0) -> None:
        station.observe(True, tag)

    def close(self) -> None:
        for station in self.stations:
            station.close()

    def end(self) -> None:
        for station in self.stations:
            station.transport.close()

    def collected(self, *words: object) -> tuple[int | str, list[str], str]:
        return collected(self.server, "--watch", self.watch.number, *words)

    def collector(self, *words: object) -> contextlib.AbstractContextManager[subprocess.Popen[str]]:
        return collector(self.server, "--watch", self.watch.number, *words)


def both_hold(three: Three) -> None:
    """ada holds, and tells the keeper; ben holds, and knows nothing of it."""
    three.hold(three.ada, 11)
    three.tell(three.ada, three.keeper)
    three.hold(three.ben, 22)


def in_turn(three: Three) -> None:
    """ada holds and tells the keeper, who tells ben, who holds."""
    three.hold(three.ada, 11)
    three.tell(three.ada, three.keeper)
    three.tell(three.keeper, three.ben)
    three.hold(three.ben, 22)


@pytest.fixture
def three(server: Server) -> Iterator[Three]:
    it = Three(server)
    yield it
    it.end()


# What they do, the status of the report, and its line.
HISTORIES = pytest.mark.parametrize(("make", "status", "answer"), [
    (both_hold, 0, "found ada 0 tag 11, ben 0 tag 22"), (in_turn, 1, "none ada, ben")], ids=["both", "in turn"])
Make = Callable[[Three], None]
WAYS = ["", "--pairs", "--question ada,ben", "--follow", "--patience 60"]


@HISTORIES
def test_answers(three: Three, make: Make, status: int, answer: str) -> None:
    make(three)
    still_open = (0, answer) if status == 0 else (4, "undecided ada, ben")
    assert three.collected() == (still_open[0], [still_open[1], "notes ada 1, ben 1, keeper 0"], ""), "still open"
    three.close()
    for words in WAYS:
        assert three.collected(*words.split()) == (status, [answer, "notes ada 2, ben 2, keeper 1"], ""), words


def test_answers_of_one_alone(three: Three) -> None:
    in_turn(three)
    three.close()
    told = ["found ben 1 tag 22", "found ada 0 tag 11", "notes ada 2, ben 2, keeper 1"]
    assert three.collected("--question", "ben", "--question", "ada") == (0, told, "")


def test_answers_as_json(three: Three) -> None:
    in_turn(three)
    three.close()
    status, output, _ = three.collected("--json", "--question", "ada", "--question", "ada,ben")
    assert (status, [json.loads(line) for line in output]) == (0, [
        {"found": {"ada": {"interval": 0, "tag": 11}}}, {"none": ["ada", "ben"]},
        {"notes": {"ada": 2, "ben": 2, "keeper": 1}}])


@pytest.mark.parametrize(("question", "why"), [
    ("ada,eve", "no process is called 'eve': they are ada, ben, keeper"), ("keeper", "keeper has no condition")])
def test_a_question_that_is_refused(three: Three, question: str, why: str) -> None:
    assert three.collected("--question", question) == (2, [], f"wcpcollect: {why}\n")


def test_that_nobody_has_come(server: Server) -> None:
    why = "wcpcollect: no process has come\n"
    assert collected(server, "--watch", 999) == (4, ["undecided", "notes"], why)
    assert collected(server, "--watch", 999, "--patience", 0.3) == (3, [], why), "with patience"


def test_that_one_has_not_come(server: Server) -> None:
    with contextlib.closing(open_station(server.url, wullaphi.Watch(1, ["ada", "eve"]), "ada").transport):
        assert collected(server, "--watch", 1) == (
            4, ["undecided", "notes ada 0, eve 0"], "wcpcollect: not there yet: eve\n")
        assert collected(server, "--watch", 1, "--patience", 0.3) == (
            3, [], "wcpcollect: nothing came for 0.3 s; waiting for ada (0 notes), eve (not there yet)\n"), "patience"


@pytest.mark.parametrize("words", [
    [], ["--watch", "1", "--logs", "it"], ["--watch", "1", "--pairs", "--question", "a"], ["--watch", "one"],
    ["--logs", "it", "--json"], ["--watch", "1", "--trim"], ["--watch", "1", "--pairs", "--question", "ada,ben"]],
    ids=lambda words: " ".join(words) or "nothing")
def test_usage(server: Server, words: list[str]) -> None:
    assert collected(server, *words)[0] == 2


def test_patience(three: Three) -> None:
    in_turn(three)
    assert three.collected("--patience", 0.3) == (
        3, [], "wcpcollect: nothing came for 0.3 s; waiting for ada (1 notes), ben (1 notes), keeper (0 notes)\n")


def test_a_key_that_is_no_stream(three: Three) -> None:
    three.server.client.set(three.stream(2), "no stream")
    status, output, errors = three.collected()
    assert (status, output, "WRONGTYPE" in errors) == (2, [], True)


@pytest.mark.parametrize("number", range(3))
def test_a_gap(three: Three, number: int) -> None:
    """A stream from which an entry is gone has no report."""
    in_turn(three)
    three.tell(three.ben, three.ada)
    three.hold(three.ada)
    three.close()
    three.server.client.xdel(three.stream(0), f"{number + 1}-0")
    for words in ("", "--follow"):
        assert three.collected(*words.split()) == (
            2, [], f"wcpcollect: note {number} of ada is missing from the stream\n"), words


def test_an_entry_that_is_no_note(three: Three) -> None:
    in_turn(three)
    three.close()
    three.server.client.xadd(three.stream(2), {"it": "is no note"}, id="2-0")
    assert three.collected("--question", "ben") == (2, [], "wcpcollect: entry 2-0 of keeper is no note\n")


@HISTORIES
@pytest.mark.parametrize("words", [["--pairs"], []], ids=["pairs", "all"])
def test_what_is_saved(three: Three, make: Make, status: int, answer: str, words: list[str]) -> None:
    """A collector that is started again goes on from what it saved, and needs no note behind that."""
    make(three)
    saving = ["--save", "here", "--trim", *words]
    still_open = (0, answer) if status == 0 else (4, "undecided ada, ben")
    for _ in range(3):
        assert three.collected(*saving) == (
            still_open[0], [still_open[1], "notes ada 1, ben 1, keeper 0"], ""), "saved, still open"
        assert [three.server.client.xlen(three.stream(it)) for it in range(3)] == [0, 0, 0], "what is left"
    assert three.collected(*words)[0] == 2, "another collector"
    three.close()
    for _ in range(2):
        assert three.collected(*saving) == (status, [answer, "notes ada 2, ben 2, keeper 1"], ""), "to the end"
    assert three.collected("--save", "here", "--question", "ada") == (
        2, [], "wcpcollect: what is saved as 'here' asks other questions\n"), "other questions"


def test_what_is_saved_by_several_names(three: Three) -> None:
    both_hold(three)
    kept = three.collected("--save", "kept")
    assert [three.server.client.xlen(three.stream(it)) for it in range(3)] == [1, 1, 0], "nothing is deleted"
    assert [three.collected("--save", name) for name in ("kept", "other")] == [kept, kept], "each by its name"


def test_a_newer_collector(three: Three) -> None:
    in_turn(three)
    older, newer = (Collector(three.server.url, three.watch.number, save="kept", save_every=0) for _ in range(2))
    poll_until(older, lambda _: older.questions)
    poll_until(newer, lambda _: newer.questions)
    three.close()
    with pytest.raises(TakenOver):
        poll_until(older, lambda _: older.is_done)
    poll_until(newer, lambda _: newer.is_done and newer.taken["ada"] == 2)
    assert [question.known for question in newer.questions] == ["nothing"]


def test_what_was_saved_and_then_lost(server: Server) -> None:
    """What was saved is of no use where the server has lost notes that went into it."""
    three = Three(server)
    three.hold(three.ada, 11)
    size = server.size()
    three.hold(three.ben, 22)
    here = Collector(server.url, three.watch.number, save="here", trim=True)
    poll_until(here, lambda events: here.taken.get("ben") == 1)
    here.poll()
    three.end()
    server.kill()
    server.start()
    events = poll_until(here, lambda events: len(events) > 1)
    assert [type(event).__name__ for event in events] == ["Anew", "Found"], "after a restart"
    assert here.taken == {"ada": 1, "ben": 1, "keeper": 0}, "from what was saved"
    server.lose(size)
    poll_until(here, lambda events: any(isinstance(event, Anew) for event in events))
    poll_until(here, lambda events: here.taken.get("ada") == 1)
    told = here.taken, [question.known for question in here.questions]
    assert told == ({"ada": 1, "ben": 0, "keeper": 0}, ["undecided"]), "after a loss"


def test_that_one_is_dead_and_both_held(three: Three) -> None:
    both_hold(three)
    three.ben.close()
    three.keeper.close()
    three.ada.transport.close()  # its process is dead
    status, output, _ = three.collected("--lost-after", 1)
    assert (status, output[0]) == (0, "found ada 0 tag 11, ben 0 tag 22")


def test_that_one_is_dead(three: Three) -> None:
    """A process that shows no sign of life is lost, and the report then never says none."""
    in_turn(three)
    three.ben.close()
    three.keeper.close()
    three.ada.transport.close()  # its process is dead
    status, output, errors = three.collected("--lost-after", 1)
    assert (status, output) == (4, ["lost ada", "undecided ada, ben", "notes ada 1, ben 2, keeper 1"])
    assert "ada showed no sign of life" in errors


def test_that_nobody_is_dead(three: Three) -> None:
    in_turn(three)
    with three.collector("--lost-after", 15, "--question", "ada", "--question", "ada,ben") as call:
        assert call.stdout is not None
        assert call.stdout.readline() == "found ada 0 tag 11\n", "it has read all"
        time.sleep(18)  # all are silent, and alive
        three.close()
        output, errors = call.communicate(timeout=SECONDS)
    assert (call.returncode, output.splitlines(), errors) == (0, ["none ada, ben", "notes ada 2, ben 2, keeper 1"], "")


def test_that_a_cut_is_printed_at_once(three: Three) -> None:
    with three.collector("--follow") as call:
        both_hold(three)
        assert call.stdout is not None
        assert call.stdout.readline() == "found ada 0 tag 11, ben 0 tag 22\n", "at once"
        assert call.wait(timeout=SECONDS) == 0, "and it ends"


def test_a_closed_pipe(three: Three) -> None:
    with three.collector() as call:
        assert call.stdout is not None and call.stderr is not None
        call.stdout.close()
        assert (call.wait(timeout=SECONDS), call.stderr.read()) == (141, "")


def test_a_terminal(three: Three) -> None:
    """There a line a second says how far it is."""
    in_turn(three)
    ours, theirs = os.openpty()
    with subprocess.Popen([sys.executable, "-m", "wullaphi.wcpcollect", "--redis", three.server.url, "--watch",
                           str(three.watch.number), "--patience", "600"], stderr=theirs, stdout=subprocess.DEVNULL,
                          env={**os.environ, "PYTHONPATH": str(TOP / "bindings" / "python")}) as call:
        os.close(theirs)
        told = ""
        while "wcpcollect: 2 notes taken, 0 behind" not in told:
            told += os.read(ours, 1000).decode()
        call.kill()
    os.close(ours)


def test_a_server_that_is_started_anew(three: Three) -> None:
    """The answer is that of what it has."""
    in_turn(three)
    here = Collector(three.server.url, three.watch.number)
    poll_until(here, lambda _: sum(here.taken.values()) == 2)
    three.server.kill()
    three.server.start()
    for station in three.stations:
        station.resume()
        station.close()
    events = poll_until(here, lambda _: here.is_done)
    assert events == [Anew("the server was started anew")]
    assert here.taken == {"ada": 2, "ben": 2, "keeper": 1}
    assert [question.known for question in here.questions] == ["nothing"]


def test_a_stream_that_is_gone(three: Three) -> None:
    three.ada.close()
    here = Collector(three.server.url, three.watch.number)
    poll_until(here, lambda _: here.taken.get("ada"))
    three.server.client.delete(three.stream(0))
    assert poll_until(here, len) == [Anew("the server has lost notes that it had")]
    with three.collector("--patience", 0.5) as call:
        assert call.wait(timeout=SECONDS) == 3, "nothing comes"


def test_no_server() -> None:
    with Server() as server:
        server.kill()
        status, output, errors = collected(server, "--watch", 1)
        assert (status, output, "refused" in errors) == (2, [], True)
        status, output, errors = collected(server, "--watch", 1, "--patience", 0.5)
        assert (status, output) == (3, []), "with patience"
        assert errors.splitlines()[-1] == "wcpcollect: the server can't be reached"
