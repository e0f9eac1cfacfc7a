"""Services of HTTP whose watch is over a Redis server: they go on where that is away, and what they did meanwhile never
makes a report `none` that isn't."""

from __future__ import annotations

import json
import multiprocessing
import os
import signal
import time
import urllib.request
from multiprocessing.synchronize import Event
from typing import Any, Callable, Mapping

import pytest
import redis  # type: ignore[import]
from server import Server, collected, until
from shared import ignore

import wullaphi
from wullaphi.log import HostLog, stream
from wullaphi.redis import open_station
from wullaphi.resuming import Resuming
from wullaphi.station import Interrupted, Station
from wullaphi.web import StampHandler, Stamped, headers_for

# A request that takes longer has waited for the server of the watch.
MOST_SECONDS = 25


class Service:
    """A service, called as a server of WSGI calls it."""

    def __init__(self, process: Any, **words: bool) -> None:
        self.process = process
        self.stamped = Stamped(self.answer, process, **words)
        if isinstance(process, Station):
            process.transport.limit(30.0)
        self.slowest = 0.0

    def answer(self, _: object, start_response: Callable[..., Any]) -> list[bytes]:
        start_response("200 OK", [])
        return [b"ok"]

    def call(self, headers: Mapping[str, str]) -> tuple[str, bool]:
        """The status of a request with these headers, and whether the response is stamped."""
        told: list[tuple[str, bool]] = []
        start = time.monotonic()
        self.stamped({"HTTP_" + name.upper().replace("-", "_"): value for name, value in headers.items()},
                     lambda status, given: told.append((status[:3], "Wullaphi-Stamp" in dict(given))))
        self.slowest = max(self.slowest, time.monotonic() - start)
        return told[0]


def station(server: Server, number: int, name: str) -> Station:
    return open_station(server.url, wullaphi.Watch(number, ["ada", "ben"]), name, beat=None)


def resuming(server: Server, number: int, name: str, patience: float = 30.0) -> Resuming:
    """A station that resumes by itself. A machine that is slow doesn't make it think that the server is away."""
    return Resuming(station(server, number, name), patience)


def cut_off(server: Server) -> None:
    """Each connection to the server is lost."""
    server.client.client_kill_filter(_type="normal", skipme=True)


@pytest.mark.measures
def test_a_lost_connection(server: Server) -> None:
    """After a lost connection a service goes on by itself."""
    ada, ben = station(server, 1, "ada"), station(server, 1, "ben")
    service = Service(ada)
    assert service.call(headers_for(ben, "ada")) == ("200", True), "stamped"
    cut_off(server)
    ben.resume()
    assert service.call(headers_for(ben, "ada")) == ("200", False), "cut off"
    assert service.call({}) == ("200", False), "without a stamp"
    process = ada.resuming
    until(lambda: not process.is_away)  # it comes back
    assert service.call(headers_for(ben, "ada")) == ("200", True), "stamped again"
    assert service.slowest < MOST_SECONDS, "it didn't wait"
    process.close()
    ben.close()
    assert collected(server, "--watch", 1)[:2] == (1, ["none ada, ben", "notes ada 1, ben 1"]), "all was told"


@pytest.mark.measures
def test_a_server_that_does_not_answer(server: Server) -> None:
    """A server that doesn't answer holds no request up, and what was observed meanwhile is told behind that."""
    process, ben = resuming(server, 2, "ada", 0.3), station(server, 2, "ben")
    service, strict = Service(process), Service(process, needs_watch=True)
    headers = headers_for(ben, "ada")
    ben.observe(True, tag=5)
    server.process.send_signal(signal.SIGSTOP)
    try:
        assert [service.call(headers) for _ in range(20)] == [("200", False)] * 20, "it doesn't answer"
        assert (strict.call(headers), strict.call({})) == (("503", False), ("200", False)), "where the watch is needed"
        process.observe(True, tag=7)
        process.observe(False, tag=8)
        assert (process.stamp("ben"), process.is_away) == (None, True), "no stamp"
        request = StampHandler(process, {"store": "ben"}).http_request(
            urllib.request.Request("http://store/it"))
        assert request.header_items() == [], "a request of its own"
    finally:
        server.process.send_signal(signal.SIGCONT)
    until(lambda: not process.is_away)  # it comes back
    assert service.slowest < MOST_SECONDS, "nobody waited"
    status, output, _ = collected(server, "--watch", 2, "--json")
    tags = {name: it["tag"] for name, it in json.loads(output[0])["found"].items()}
    assert (status, tags) == (0, {"ada": 7, "ben": 5}), "what was observed"


def test_a_process_that_is_closed_meanwhile(server: Server) -> None:
    """A process that is closed while the server is away ends behind that."""
    process, ben = resuming(server, 3, "ada", 0.3), station(server, 3, "ben")
    ben.close()
    server.process.send_signal(signal.SIGSTOP)
    try:
        process.observe(False)
        process.stamp("ben")
        process.observe(True)
        process.close()
    finally:
        server.process.send_signal(signal.SIGCONT)
    until(lambda: not process.is_away)  # a slow server may be away once more meanwhile
    assert process.station.is_closed, "it ended"
    assert collected(server, "--watch", 3)[:2] == (1, ["none ada, ben", "notes ada 2, ben 1"]), "and all was told"


def die_meanwhile(url: str, ready: Event, go: Event) -> None:
    """A service that holds while the server is away, and dies."""
    process = Resuming(open_station(url, wullaphi.Watch(4, ["ada", "ben"]), "ada", beat=None), patience=0.3)
    ready.set()
    go.wait()
    process.stamp("ben")
    process.observe(True)
    os._exit(0 if process.is_away else 1)


def test_a_process_that_dies_meanwhile(server: Server) -> None:
    """What a process held while the server was away died with it: the report is never none."""
    context = multiprocessing.get_context("fork")
    ready, go = context.Event(), context.Event()
    child = context.Process(target=die_meanwhile, args=(server.url, ready, go))
    child.start()
    ready.wait()
    server.process.send_signal(signal.SIGSTOP)
    go.set()
    child.join()
    server.process.send_signal(signal.SIGCONT)
    assert child.exitcode == 0, "it died while the server was away"
    ben = station(server, 4, "ben")
    ben.observe(True)
    ben.close()
    station(server, 4, "ada").observe(False)
    resuming(server, 4, "ada").observe(False)
    resuming(server, 4, "ada").close()
    why = "wcpcollect: no cut was found, but ada may have done something that no note tells\n"
    assert collected(server, "--watch", 4) == (4, ["undecided ada, ben", "notes ada 1, ben 2"], why), "after a death"
    assert collected(server, "--watch", 4, "--question", "ben")[0] == 0, "of ben alone"


def test_two_services_of_a_name(server: Server) -> None:
    """Two services of one name: the older goes on without a word, and the report is never none."""
    older = resuming(server, 5, "ada")
    service = Service(older)
    newer, ben = resuming(server, 5, "ada"), station(server, 5, "ben")
    assert [service.call(headers_for(ben, "ada")) for _ in range(3)] == [("200", False)] * 3, "the older one"
    older.observe(True)
    newer.close()
    ben.close()
    assert collected(server, "--watch", 5)[:2] == (4, ["undecided ada, ben", "notes ada 1, ben 1"]), "two of a name"


def test_a_program_that_observes_by_the_station(server: Server) -> None:
    """The program observes by the station itself, and goes on after `Interrupted`: nobody knows of it."""
    ada, ben = station(server, 6, "ada"), station(server, 6, "ben")
    service = Service(ada)
    cut_off(server)
    ben.resume()
    with pytest.raises(Interrupted):  # the station itself
        ada.observe(True)
    service.call(headers_for(ben, "ada"))
    until(lambda: not ada.is_interrupted and not ada.resuming.is_away)  # it comes back
    ada.resuming.close()
    ben.close()
    assert collected(server, "--watch", 6)[:2] == (4, ["undecided ada, ben", "notes ada 2, ben 1"]), "it failed"


@pytest.mark.parametrize("closes_in_step", [False, True], ids=["without a step", "in a step"])
def test_a_station_that_the_program_closes(server: Server, closes_in_step: bool) -> None:
    """The program closes the station itself: all was told."""
    ada, ben = station(server, 7, "ada"), station(server, 7, "ben")
    service = Service(ada)
    assert service.call(headers_for(ben, "ada")) == ("200", True), "stamped"
    if closes_in_step:
        with ada.step() as pipe:
            pipe.set("closed", "yes")
            ada.close()
    else:
        ada.close()
    ben.close()
    assert service.call({"Wullaphi-Stamp": "it", "Wullaphi-From": "ben"}) == ("200", False), "after the end"
    assert collected(server, "--watch", 7)[:2] == (1, ["none ada, ben", "notes ada 1, ben 1"])


def test_a_stamp_of_an_earlier_run(server: Server) -> None:
    """A stamp of an earlier run of the server is passed over, or refused where the watch is needed."""
    process, ben = resuming(server, 1, "ada"), station(server, 1, "ben")
    headers = headers_for(ben, "ada")
    server.kill()
    server.start()
    process.observe(False)
    process.stamp("ben")
    until(lambda: not process.is_away)  # it comes back
    assert Service(process).call(headers) == ("200", False), "of an earlier run"
    assert Service(process, needs_watch=True).call(headers) == ("503", False), "where the watch is needed"


def test_a_server_that_has_lost_writes(server: Server) -> None:
    """The server has lost what it had acknowledged, and the service doesn't fall back: the report is never none."""
    process, ben = resuming(server, 1, "ada"), station(server, 1, "ben")
    size = server.size()
    process.observe(True)
    process.stamp("ben")
    server.lose(size)
    process.stamp("ben")
    until(lambda: not process.is_away)  # it comes back
    process.close()
    ben.resume()
    ben.observe(True)
    ben.close()
    assert collected(server, "--watch", 1)[:2] == (4, ["undecided ada, ben", "notes ada 1, ben 2"]), "after a loss"


def test_a_server_whose_memory_is_full(forgetful_server: Server) -> None:
    """A server whose memory is full is as good as away."""
    server = forgetful_server
    client = server.client
    process, ben = resuming(server, 1, "ada"), station(server, 1, "ben")
    service, headers = Service(process), headers_for(ben, "ada")
    client.config_set("maxmemory", "1")
    assert [service.call(headers) for _ in range(3)] == [("200", False)] * 3, "full"
    client.config_set("maxmemory", "0")
    until(lambda: not process.is_away)  # it comes back
    assert service.call(headers) == ("200", True), "with room"


def test_a_log_over_redis(server: Server) -> None:
    """A log over Redis: its lines are missing while the server is away, and no request is refused."""
    client = redis.Redis.from_url(server.url, socket_timeout=1)
    store, api = HostLog("store", stream(client, "logs")), HostLog("api", ignore)
    service = Service(store)
    assert service.call(headers_for(api, "store")) == ("200", True), "logged"
    server.kill()
    assert service.call(headers_for(api, "store")) == ("200", False), "no server"
    server.start()
    assert service.call(headers_for(api, "store")) == ("200", True), "logged again"
    lines = [line.partition(',"event":')[2] for line in collected(server, "--logs", "logs")[1]]
    assert lines == ['"receives a message"}', '"sends to api"}'] * 2
