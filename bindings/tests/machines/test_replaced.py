"""A server whose keys are gone, all of them or some, and which was not started anew: emptied, given another data set,
or full of memory. What stations, stamps and collectors make of that."""

from __future__ import annotations

import itertools
from typing import Any, Callable

import pytest
import redis  # type: ignore[import]
from pairs import NONE, Pair, none_after
from server import Server, poll_until

import wullaphi
from wullaphi._line import Line, client_of
from wullaphi._opening import Opening
from wullaphi.collect import Anew, Collector, Gap
from wullaphi.redis import Spoilt
from wullaphi.station import Changed, Interrupted, OtherRun, OtherSettings, Station

BEGUN_ANEW = "the watch was begun anew on the server"
EVICTS = ("wcpcollect: the server has `maxmemory-policy {}`: where its memory is full, it deletes keys, and what is "
          "deleted is missing in the report; set this to noeviction\n")


def flushed(server: Server) -> None:
    server.client.flushall()


def swapped(server: Server) -> None:
    """Another data set: that of another number."""
    server.client.flushdb()
    server.client.swapdb(0, 1)


@pytest.fixture
def pair(forgetful_server: Server) -> Pair:
    return Pair(forgetful_server)


@pytest.mark.parametrize("empty", [flushed, swapped])
def test_that_the_server_is_emptied(pair: Pair, empty: Callable[[Server], None]) -> None:
    """The run begins again with the same number, while a collector follows that has read of the first one."""
    collector = Collector(pair.server.url, pair.number)
    pair.ada.observe(True)
    header = pair.ada.stamp("ben")
    poll_until(collector, lambda _: collector.taken.get("ada"))
    empty(pair.server)
    with pytest.raises(Interrupted):  # who goes on
        pair.ada.observe(True)
    with pytest.raises(Interrupted):  # who waits
        pair.ben.check()
    for station in (pair.ada, pair.ben):
        station.resume()
    with pytest.raises(OtherRun):  # a stamp of the first run
        pair.ben.receive(header)
    none_after(pair.ada, pair.ben)
    assert pair.collected()[:2] == NONE, "one that reads all"
    events = poll_until(collector, lambda events: events and collector.is_done)
    assert (events, collector.questions[0].known) == ([Anew(BEGUN_ANEW)], "nothing"), "the one that lived on"


GONE = {"emptied": None, "the probe is gone": "probe:0", "the names are gone": "names"}


@pytest.mark.parametrize("gone", GONE.values(), ids=GONE)
def test_that_it_is_emptied_in_a_step(pair: Pair, gone: str | None) -> None:
    """A step that depends on a key is refused as changed only where that is all."""
    client, transport = pair.server.client, transport_of(pair.ada)
    with pytest.raises(Interrupted) as raised, pair.ada.step() as pipe:
        transport.watch("it")
        if gone is None:
            client.flushall()
        else:
            client.delete(pair.key(gone))
        pair.ada.observe(True)
        pipe.set("done", "yes")
    assert not isinstance(raised.value, Changed)
    assert not client.exists("done"), "nothing is done"


def test_that_a_step_is_given_up_and_all_is_emptied(pair: Pair) -> None:
    with pytest.raises(Interrupted), pair.ada.step():
        transport_of(pair.ada).watch("it")
        pair.server.client.flushall()
        raise KeyError


def transport_of(station: Station) -> Any:
    return station.transport


KEYS = ["notes:0", "probe:0", "owner:0", "conditions", "names"]
SETS = [set(keys) for count in range(len(KEYS)) for keys in itertools.combinations(KEYS, count)]


@pytest.mark.parametrize("gone", SETS, ids=lambda gone: " ".join(sorted(gone)) or "nothing")
def test_that_some_keys_are_gone(pair: Pair, gone: set[str]) -> None:
    """Those of a process that has come, as where memory is full: it is refused, and not begun anew."""
    have_told(pair)
    if gone:
        pair.server.client.delete(*map(pair.key, gone))
    if gone in (set(), {"owner:0"}):
        assert pair.open("ada")._probe.clock == (1, 0)
        return
    if gone & {"probe:0", "owner:0", "names"}:
        with pytest.raises(Interrupted):  # who goes on
            pair.ada.stamp("ben")
    with pytest.raises(Spoilt):
        pair.open("ada")


def have_told(pair: Pair) -> None:
    """Both hold, and ben knows of ada's message."""
    pair.ben.receive(pair.ada.stamp("ben"))
    pair.ada.observe(True)
    pair.ben.observe(True)


def test_that_all_keys_of_ada_and_the_names_are_gone(pair: Pair) -> None:
    have_told(pair)
    pair.server.client.delete(*map(pair.key, KEYS))
    pair.open("ada").observe(True)
    with pytest.raises(Spoilt):
        pair.open("ben")
    with pytest.raises(Spoilt):  # who went on
        pair.ben.resume()
    assert pair.collected("--question", "ada,ben") == (
        2, [], "wcpcollect: ben has notes, and the server has lost that it has come\n"), "ben's are of another run"


def test_that_what_is_untold_is_gone(pair: Pair) -> None:
    transport_of(pair.ada).mark()
    pair.ada.close()
    pair.ben.close()
    assert pair.collected()[1] == ["undecided ada, ben", "notes ada 1, ben 1"], "something is untold"
    pair.server.client.delete(pair.key("conditions"))
    assert pair.collected() == (
        2, [], "wcpcollect: the server has lost which processes have come\n"), "what is untold is gone"


def test_that_the_names_are_gone_while_a_collector_follows(pair: Pair) -> None:
    collector = Collector(pair.server.url, pair.number)
    poll_until(collector, lambda _: collector.questions)
    pair.server.client.delete(pair.key("names"))
    assert poll_until(collector, len) == [Anew(BEGUN_ANEW)], "the names"
    with pytest.raises(Gap):  # and that they have come
        poll_until(collector, lambda _: False)


def test_a_process_that_comes_again(pair: Pair) -> None:
    """One that was killed before its first step, with the settings that it had."""
    for _ in range(3):
        pair.ada = pair.open("ada")
    pair.ada.observe(True)
    words: dict[str, bool]
    for words in ({"watched": False}, {"flag_of_sends": True}):
        with pytest.raises(OtherSettings):
            pair.open("ada", **words)
    assert pair.collected()[1] == ["undecided ada, ben", "notes ada 1, ben 0"], "the collector asks of both"
    pair.ada = pair.open("ada")
    pair.ada.observe(False)
    with pytest.raises(OtherSettings):
        pair.open("ben", watched=False)
    pair.ben.observe(True)
    assert pair.collected()[1][0] == "found ada 0 tag 0, ben 0 tag 0", "nobody was taken over"


def test_that_others_open_meanwhile(pair: Pair) -> None:
    pair.ada.observe(True)
    line = Line(client_of(pair.server.url))
    line.ask(("WATCH", pair.key("names")))
    pair.server.client.hset(pair.key("names"), "0", "ada")
    opened = Opening(line, pair.watch, 0, True, b"newest").run()
    assert opened.saved is not None
    assert opened.saved[:112] == pair.ada._probe.to_bytes(), "it is tried again"


def test_stations_of_an_earlier_version(pair: Pair) -> None:
    pair.server.client.hdel(pair.key("names"), "epoch")
    with pytest.raises(Spoilt):
        pair.open("ada")


def test_that_somebody_else_writes_to_the_probe(pair: Pair) -> None:
    client = pair.server.client
    client.append(pair.key("probe:0"), "it")
    with pytest.raises(Interrupted), pair.ada.step() as pipe:
        pair.ada.observe(True)
        pipe.set("mine", "written")
    assert (client.exists("mine"), client.exists(pair.key("notes:0"))) == (0, 0), "nothing is done"
    with pytest.raises((Spoilt, wullaphi.NoProbe)):  # nor again
        pair.ada.resume()


@pytest.mark.parametrize("entry", ["1-0", "2-0", "1-7"])
def test_that_somebody_else_writes_to_the_stream(pair: Pair, entry: str) -> None:
    pair.server.client.xadd(pair.key("notes:0"), {"note": b"x" * 104}, id=entry)
    with pytest.raises(redis.ResponseError), pair.ada.step() as pipe:
        pair.ada.observe(True)
        pipe.set("mine", "written")
    with pytest.raises(Spoilt):
        pair.ada.resume()


@pytest.mark.parametrize("policy", ["allkeys-lru", "volatile-lru"])
def test_a_server_that_deletes_keys(pair: Pair, policy: str) -> None:
    """Where its memory is full."""
    pair.server.client.config_set("maxmemory-policy", policy)
    assert pair.collected()[2] == EVICTS.format(policy)


def test_a_server_that_deletes_none(pair: Pair) -> None:
    pair.server.client.config_set("maxmemory-policy", "noeviction")
    assert pair.collected()[2] == ""
