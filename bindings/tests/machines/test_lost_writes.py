"""A server that loses what it had acknowledged: it is killed, its append-only file cut short, and started again. The
report is that of the history that it then holds."""

from __future__ import annotations

import json
import time

import pytest
from ring_run import Ring, report_without_kills
from server import Server, collected, poll_until

import wullaphi
from wullaphi.collect import Anew, Collector, Found, Member
from wullaphi.log import HostLog, named_anew, stream
from wullaphi.redis import open_station
from wullaphi.station import Interrupted, Station

WATCH = wullaphi.Watch(1, ["ada", "ben"])

# The file is cut as often as this in a run, each time by up to so many bytes.
LOSSES = 6
MOST_BYTES = 30_000
# What is left at least, so that the ring has begun.
LEAST_BYTES = 2_000


def pair(server: Server) -> tuple[Station, Station]:
    return (open_station(server.url, WATCH, "ada", beat=None), open_station(server.url, WATCH, "ben", beat=None))


def test_a_cut_that_is_lost(server: Server) -> None:
    """A note was taken and a cut found, and then the server lost the note; its number is given to another one."""
    ada, ben = pair(server)
    collector = Collector(server.url, 1)
    ben.observe(True)
    size = server.size()
    ada.observe(True)
    assert poll_until(collector, len) == [Found([Member("ada", 0, 0), Member("ben", 0, 0)])], "a cut, before the loss"
    server.lose(size)
    ada = open_station(server.url, WATCH, "ada", beat=None)
    ben.resume()
    ben.observe(False)
    header = ben.stamp("ada")
    ada.receive(header)
    ada.observe(True)
    for station in (ada, ben):
        station.close()
    events = poll_until(collector, lambda events: events and collector.is_done)
    assert events == [Anew("the server was started anew")], "after the loss"
    assert collector.questions[0].known == "nothing", "its answer"
    assert collected(server, "--watch", 1)[:2] == (1, ["none ada, ben", "notes ada 2, ben 2"]), "one that reads all"


def test_a_stamp_that_is_lost(server: Server) -> None:
    """A station holds a stamp in memory that the server has lost; the sender starts again and makes another event."""
    ada, ben = pair(server)
    collector = Collector(server.url, 1)
    size = server.size()
    ben.receive(ada.stamp("ben"))
    collector.poll()
    server.lose(size)
    ada = open_station(server.url, WATCH, "ada", beat=None)
    with pytest.raises(Interrupted):  # it doesn't go on from memory
        ben.observe(True)
    ben.resume()
    ben.observe(True)
    ada.observe(True)
    ada.stamp("ben")
    ada.observe(False)
    for station in (ada, ben):
        station.close()
    events = poll_until(collector, lambda events: events and collector.is_done)
    assert [type(it) for it in events] == [Anew, Found], "after the loss"
    assert collected(server, "--watch", 1)[1][0] == "found ada 0 tag 0, ben 0 tag 0", "one that reads all"


def test_a_name_that_is_lost(server: Server) -> None:
    """A host starts again, and the server has lost that it ran before, while another host knows of that."""
    client = server.client

    def host(name: str) -> HostLog:
        return HostLog(named_anew(client, "logs", name), stream(client, "logs"))

    ben = host("ben")
    ben.event("starts")
    size = server.size()
    eve = host("eve")
    header = [eve.send("tells ben") for _ in range(2)][-1]
    server.lose(size)
    again = host("eve")
    ben.receive(header, "is told")
    for log in (ben, again):
        log.event("holds")
    said = [json.loads(line) for line in collected(server, "--logs", "logs")[1]]
    assert said[-2]["clock"] == {ben.name: 3, eve.name: 2}, "ben knows of two events of the first run"
    assert (said[-1]["host"], said[-1]["host"] in said[-2]["clock"]) == (again.name, False), "and of none of the second"


class LosingRing(Ring):
    """The ring, whose server loses what it acknowledged."""

    def kill_one(self) -> None:
        size = self.server.size()
        if size < 2 * LEAST_BYTES:
            return
        self.kills["server"] += 1
        self.server.lose(size - self.random.randrange(1, min(size - LEAST_BYTES, MOST_BYTES)))
        # One that had ended may have to do its last step again.
        self.start_again(ended=(None,))
        time.sleep(0.3)


@pytest.fixture(scope="module")
def wanted() -> dict[bool, list[str]]:
    """The report without losses, of the ring and of the mistaken one."""
    return {mistake: report_without_kills(mistake) for mistake in (False, True)}


@pytest.mark.parametrize("seed", range(10))
def test_a_ring_whose_server_loses_writes(server: Server, wanted: dict[bool, list[str]], seed: int) -> None:
    """All state falls back together, so the workers make the steps again that were lost: the report is the same one."""
    mistake = seed % 2 == 1
    with LosingRing(server, mistake, seed) as ring:
        assert ring.run(LOSSES) == wanted[mistake]
        again_read = sorted(collected(server, "--watch", 1, "--pairs", "--patience", 60)[1])
    assert again_read == wanted[mistake], "read again"
