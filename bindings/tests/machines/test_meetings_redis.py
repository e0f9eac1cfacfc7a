"""Stations that meet over a Redis server: those that wait there, give up, end, or are killed meanwhile."""

from __future__ import annotations

import contextlib
import json
import os
import pathlib
import re
import signal
import subprocess
import sys
import threading
from typing import Any, Callable, Dict, Iterator, List, Optional, Union

import pytest
from server import SECONDS, TOP, Server, until
from shared import MOST, share_of_a_loop

import wullaphi
from wullaphi import GaveUp, Place
from wullaphi._places import Visit
from wullaphi.redis import Meeting, forget, open_station
from wullaphi.station import Direct, Interrupted, Station

NAMES = ["ada", "ben", "cyd"]
LONG = 2.0 * SECONDS
SHORT = 0.05

Places = Dict[str, Union[int, str, None]]
BOTH: Places = {"ada": None, "ben": None}


class Site:
    """A watch with a meeting, whose processes are programs of their own."""

    def __init__(self, server: Server, number: int, places: Places, patience: float = LONG) -> None:
        self.server, self.places, self.patience = server, places, patience
        self.watch = wullaphi.Watch(number, NAMES)
        self.meeting = Meeting(server.url, self.watch, places, patience)
        self.running: List[subprocess.Popen[str]] = []

    def start(self, name: str, *words: str) -> subprocess.Popen[str]:
        """A process that does this, word by word."""
        program = [sys.executable, str(pathlib.Path(__file__).with_name("meeter.py")), self.server.url,
                   str(self.watch.number), json.dumps(self.places), str(self.patience), name, *words]
        it = subprocess.Popen(program, env={**os.environ, "PYTHONPATH": str(TOP / "bindings" / "python")}, text=True,
                              stdin=subprocess.PIPE, stdout=subprocess.PIPE)
        self.running.append(it)
        return it

    def come(self, *names: str) -> None:
        """Waits until these have come."""
        until(lambda: all(self.meeting.came[name] for name in names))


@pytest.fixture
def site(server: Server) -> Iterator[Callable[..., Site]]:
    """Makes a site, whose processes are over at the end of the test."""
    made: List[Site] = []

    def make(places: Optional[Places] = None, patience: float = LONG) -> Site:
        made.append(Site(server, 70 + len(made), BOTH if places is None else places, patience))
        return made[-1]

    yield make
    for it in made:
        for running in it.running:
            running.kill()
            running.wait()
            for pipe in (running.stdin, running.stdout):
                if pipe is not None:
                    pipe.close()


def ended(*processes: subprocess.Popen[str]) -> None:
    """Waits for the ends of these, which are as they should be."""
    assert [it.wait(SECONDS) for it in processes] == [0] * len(processes)


@pytest.mark.parametrize("places", [
    BOTH, {"ada": 0, "ben": "7"}, {"ada": "tag 7", "ben": 0}, {"ada": None, "ben": None, "cyd": 0}], ids=str)
def test_those_that_share_nothing(site: Callable[..., Site], places: Places) -> None:
    here = site(places)
    ended(*(here.start(name, "true", "7", "false", "ends") for name in places))
    assert here.meeting.met == dict.fromkeys(places, Place(0, "tag 7"))
    assert (here.meeting.came, here.meeting.gave_up) == (dict.fromkeys(places, 1), [])
    assert str(here.meeting) == "met: " + ", ".join(f"{name} at tag 7" for name in places)


def test_one_that_sends_and_stays_true(site: Callable[..., Site]) -> None:
    here = site({"ada": 1, "ben": 1})
    ended(here.start("ada", "true", "1", "sends", "inbox", "ben", "false", "ends"),
          here.start("ben", "gets", "inbox", "true", "2", "false", "ends"))
    assert here.meeting.met == {"ada": Place(1, "tag 1"), "ben": Place(1, "tag 2")}


def test_two_that_are_kept_apart(site: Callable[..., Site]) -> None:
    """Ben is true behind ada's line, of which no stamp tells."""
    here = site(patience=SHORT)
    ada = here.start("ada", "true", "1", "false", "says", "done", "reads", "ends")
    assert ada.stdout is not None and ada.stdout.readline() == "done\n"
    ended(here.start("ben", "true", "2", "false", "ends"))
    assert here.meeting.met is None
    assert here.meeting.gave_up == [GaveUp("ada", ("ben",), ()), GaveUp("ben", ("ada",), ("ada",))]
    assert str(here.meeting) == "not met: ben came while ada had gone"


def test_one_that_never_comes(site: Callable[..., Site]) -> None:
    here = site(patience=SHORT)
    ended(here.start("ada", "true", "1", "false", "ends"))
    assert here.meeting.gave_up == [GaveUp("ada", ("ben",), ())]
    assert str(here.meeting) == "not met: ben never came to its place while ada waited"


@pytest.mark.parametrize("is_late", [True, False], ids=["one waits for it", "one comes behind it"])
def test_one_that_ends(site: Callable[..., Site], is_late: bool) -> None:
    here = site()
    if is_late:
        ada = here.start("ada", "true", "1", "false", "ends")
        here.come("ada")
        ended(here.start("ben", "ends"), ada)
    else:
        ended(here.start("ben", "ends"))
        ended(here.start("ada", "true", "1", "false", "ends"))
    assert here.meeting.gave_up == [GaveUp("ada", ("ben",), ())]


def test_one_that_is_killed_as_it_waits(site: Callable[..., Site]) -> None:
    """It isn't there, though its entry may be; one who comes then gives up."""
    here = site(patience=1.0)
    ada = here.start("ada", "true", "1", "false", "ends")
    here.come("ada")
    ada.kill()
    ada.wait()
    ended(here.start("ben", "true", "2", "false", "ends"))
    assert here.meeting.met is None
    assert [it.name for it in here.meeting.gave_up] == ["ben"]
    until(lambda: not here.server.client.exists(f"wullaphi:{{{here.watch.number}}}:standing:0"))


def test_one_that_is_killed_and_comes_again(site: Callable[..., Site]) -> None:
    here = site()
    ada = here.start("ada", "true", "1", "false", "ends")
    here.come("ada")
    ada.kill()
    ada.wait()
    ben = here.start("ben", "true", "2", "false", "ends")
    here.come("ben")
    ended(here.start("ada", "true", "3", "false", "ends"), ben)
    assert here.meeting.met == {"ada": Place(0, "tag 1"), "ben": Place(0, "tag 2")}, "what lasts is still true"


def test_one_that_sleeps_as_the_last_one_comes(site: Callable[..., Site]) -> None:
    """It tells nobody that it saw the other one, until it wakes."""
    here = site()
    ada = here.start("ada", "true", "1", "false", "ends")
    here.come("ada")
    ada.send_signal(signal.SIGSTOP)
    ben = here.start("ben", "true", "2", "false", "ends")
    here.come("ben")
    assert here.meeting.met is None
    ada.send_signal(signal.SIGCONT)
    ended(ada, ben)
    assert here.meeting.met is not None or here.meeting.gave_up, "met, or ada's entry had run out meanwhile"


class Steps:
    """Steps of the server's script, as processes make them."""

    def __init__(self, server: Server, number: int, names: List[str]) -> None:
        self.meeting = Meeting(server.url, wullaphi.Watch(number, NAMES), dict.fromkeys(names))

    def step(self, what: str, name: str, token: str, more: Union[int, str] = "") -> Any:
        return self.meeting._step(what, name, token, more)


def test_that_all_must_have_seen_the_others(server: Server) -> None:
    """A round is over where one comes anew or leaves, and who has seen it has seen no other."""
    here = Steps(server, 90, ["ada", "ben"])
    assert here.step("come", "ada", "a", "0|x")[0] == b"wait"
    answer, number = here.step("come", "ben", "b", "0|y")
    assert answer == b"all"
    assert here.step("see", "ada", "a", number)[0] == b"wait" and here.meeting.met is None, "ben hasn't seen it"
    here.step("leave", "ada", "a")
    here.step("see", "ben", "b", number)
    assert here.meeting.met is None, "ada has gone"
    answer, again = here.step("come", "ada", "c", "1|z")
    assert (answer, again > number) == (b"all", True)
    here.step("see", "ben", "b", number)
    assert here.meeting.met is None, "that is over, though both had seen it"
    assert here.step("see", "ada", "c", again)[0] == b"wait" and here.meeting.met is None, "ben hasn't seen this one"
    assert here.step("see", "ben", "b", again)[0] == b"go"
    assert here.meeting.met == {"ada": Place(1, "z"), "ben": Place(0, "y")}


def test_an_entry_that_has_run_out(server: Server) -> None:
    here = Steps(server, 91, ["ada", "ben"])
    here.step("come", "ada", "a", "0|x")
    server.client.pexpire("wullaphi:{91}:standing:0", 1)
    until(lambda: not server.client.exists("wullaphi:{91}:standing:0"))
    assert here.step("come", "ben", "b", "0|y")[0] == b"wait", "ada isn't there"
    assert here.step("stay", "ada", "a")[0] == b"go", "and doesn't stay"
    here.step("leave", "ada", "a")
    assert here.meeting.gave_up == [GaveUp("ada", (), ())]


def test_a_server_that_is_away(site: Callable[..., Site]) -> None:
    """Whoever waits goes on, to the error of its own call."""
    here = site()
    station = open_station(here.server.url, here.watch, "ada", meeting=here.meeting, beat=None)
    station.observe(True)
    waits = threading.Thread(target=lambda: pytest.raises(Interrupted, station.stamp, "ben"))
    waits.start()
    here.come("ada")
    here.server.kill()
    waits.join(SECONDS)
    assert not waits.is_alive() and station.is_interrupted
    here.server.start()


def test_other_places(server: Server) -> None:
    watch = wullaphi.Watch(92, NAMES)
    Meeting(server.url, watch, {"ada": 1, "ben": None})
    Meeting(server.url, watch, {"ben": None, "ada": 1})
    with pytest.raises(ValueError, match=r"has the places \[\('ada', 1\), \('ben', None\)\] on the server, and not"):
        Meeting(server.url, watch, {"ada": "1", "ben": None})
    with pytest.raises(ValueError, match="waits for dee"):
        Meeting(server.url, watch, {"ada": 1, "dee": None})
    forget(server.url, watch)
    assert server.client.keys("*") == []
    Meeting(server.url, watch, {"ada": "1", "ben": None})


def test_the_code_of_the_page(server: Server) -> None:
    page = (TOP / "docs" / "confirm.md").read_text()
    code, = re.findall(r"^```py\n(.*?)^```\n", page, re.M | re.S)
    names: Dict[str, Any] = {"wullaphi": wullaphi, "watch": wullaphi.Watch(95, ["api", "worker1"])}
    exec(code.replace("redis://server", server.url), names)  # pylint: disable=exec-used
    names["station"].close()
    assert str(names["meeting"]) == "not met: api and worker1 never came to their places"


def test_what_is_within_a_step(site: Callable[..., Site]) -> None:
    """What is true within a step counts once that is done, and nobody waits within it."""
    here = site({"ada": None, "ben": 5}, SHORT)
    station = open_station(here.server.url, here.watch, "ada", meeting=here.meeting, beat=None)
    with station.step():
        station.observe(True)
        station.stamp("ben")
        station.observe(True)
        assert here.meeting.came["ada"] == 0
    station.observe(False)
    assert here.meeting.came["ada"] == 1
    with contextlib.suppress(KeyError), station.step():
        station.observe(True)
        raise KeyError
    station.observe(False)
    assert here.meeting.came["ada"] == 1, "what wasn't done isn't true"


def test_stations_of_threads() -> None:
    """Stations of one program meet by a meeting of threads."""
    watch = wullaphi.Watch(93, ["ada", "ben"])
    meeting = wullaphi.Meeting({"ada": None, "ben": "5"}, LONG)
    checker = watch.checker()
    lock = threading.Lock()

    def take(note: wullaphi.Note) -> None:
        with lock:
            checker.take(note)

    def work(name: str) -> None:
        station = Station(watch, name, Direct(take), meeting=meeting)
        station.observe(True, 5)
        station.close()

    threads = [threading.Thread(target=work, args=(name,)) for name in ("ada", "ben")]
    for thread in threads:
        thread.start()
    for thread in threads:
        thread.join()
    assert meeting.met == {"ada": Place(0, "tag 5"), "ben": Place(0, "tag 5")}


def test_a_call_of_a_handler() -> None:
    """A call that a signal's handler makes as the process waits ends its visit."""
    watch = wullaphi.Watch(94, ["ada", "ben"])
    meeting = wullaphi.Meeting({"ada": None, "ben": None}, 1.0)
    station = Station(watch, "ada", Direct(lambda note: None), meeting=meeting)
    is_called = threading.Event()

    def handle(*_: object) -> None:
        station.stamp("ben")
        is_called.set()

    def ben() -> None:
        until(lambda: meeting.came["ada"])
        signal.pthread_kill(threading.main_thread().ident or 0, signal.SIGUSR1)
        is_called.wait(SECONDS)
        visit = Visit("ben")
        meeting.meet(visit)

    before = signal.signal(signal.SIGUSR1, handle)
    try:
        other = threading.Thread(target=ben)
        other.start()
        station.observe(True)
        station.observe(False)
        other.join()
    finally:
        signal.signal(signal.SIGUSR1, before)
    assert (meeting.came, meeting.met) == ({"ada": 1, "ben": 1}, None)


@pytest.mark.measures
def test_that_who_waits_leaves_the_processor_alone(site: Callable[..., Site]) -> None:
    here = site(patience=3.0)
    assert share_of_a_loop(lambda: here.start("ada", "true", "1", "uses", "false", "used", "ends")) < MOST
    assert here.meeting.gave_up == [GaveUp("ada", ("ben",), ())]
