"""Steps of which the server refuses a part as it does it, since a key is somebody else's or rights are missing: what is
then done."""

from __future__ import annotations

from typing import Any

import pytest
import redis  # type: ignore[import]
from server import Server, collected

import wullaphi
from wullaphi.redis import Spoilt, open_station
from wullaphi.station import Interrupted

NAMES = ["ada", "ben"]
ALL_WRITTEN, NONE_WRITTEN = (b"it", 0, 1), (None, 1, 0)


class Pair:
    """Two stations, and steps of ada of which something is refused as it is done."""

    def __init__(self, server: Server) -> None:
        self.client = server.client
        self.server = server
        self.watch = wullaphi.Watch(7, NAMES)
        self.ada, self.ben = (open_station(server.url, self.watch, name, beat=None) for name in NAMES)
        self.before = self.held()

    def key(self, name: str) -> str:
        return f"wullaphi:{{{self.watch.number}}}:{name}"

    def held(self) -> tuple[Any, bytes | None, bytes | None]:
        """What the server holds of ada: her entries or what else there is, her probe, and the mark."""
        notes, probe = self.key("notes:0"), self.key("probe:0")
        is_stream = self.client.type(notes) == b"stream"
        return ([entry for entry, _ in self.client.xrange(notes)] if is_stream else self.client.get(notes),
                self.client.dump(probe), self.client.hget(self.key("conditions"), "untold:0"))

    def written(self) -> tuple[bytes | None, int, int]:
        """What the steps have written, but for notes and probe. It is deleted."""
        found = self.client.get("before"), self.client.exists("gone"), self.client.llen("inbox")
        self.client.delete("before", "inbox")
        self.client.set("gone", "it")
        return found

    def step(self, count: int = 1) -> None:
        """A step with so many notes, and four writes of its own, of which one fails where `list` is a list."""
        self.client.set("gone", "it")
        with self.ada.step() as pipe:
            pipe.set("before", "it")
            pipe.delete("gone")
            pipe.decr("list")
            for _ in range(count):
                self.ada.observe(True)
                header = self.ada.stamp("ben")
            pipe.rpush("inbox", header)

    @property
    def clock(self) -> tuple[int, ...]:
        """The clock of ada's probe."""
        return self.ada._probe.clock


@pytest.fixture
def pair(forgetful_server: Server) -> Pair:
    return Pair(forgetful_server)


@pytest.mark.parametrize("count", [1, 3])
def test_that_the_stream_is_somebody_elses(pair: Pair, count: int) -> None:
    """Neither notes nor probe are done, and there is a mark. Where the key is free again the station goes on, and the
    report doesn't say none."""
    pair.client.set(pair.key("notes:0"), "somebody's")
    with pytest.raises(redis.ResponseError):
        pair.step(count)
    assert (pair.held(), pair.written()) == ((b"somebody's", pair.before[1], b"1"), ALL_WRITTEN)
    with pytest.raises(redis.ResponseError):  # until it is gone
        pair.ada.resume()
    pair.client.delete(pair.key("notes:0"))
    pair.ada.resume()
    assert pair.clock == (0, 0), "it goes on from before"
    pair.ada.close()
    pair.ben.close()
    assert collected(pair.server, "--watch", pair.watch.number, "--pairs") == (
        4, ["undecided ada, ben", "notes ada 1, ben 1"],
        "wcpcollect: no cut was found, but ada may have done something that no note tells\n"), "never none"


@pytest.mark.parametrize("count", [1, 3])
def test_an_entry_of_somebody_else(pair: Pair, count: int) -> None:
    pair.step()
    before = pair.held()
    assert (before[0], before[2], pair.written()) == ([b"1-0"], None, ALL_WRITTEN), "no mark where all is done"
    pair.client.xadd(pair.key("notes:0"), {"it": "is somebody's"}, id=f"{1 + count}-0")
    with pytest.raises(redis.ResponseError):
        pair.step(count)
    entries = [b"1-0", b"%d-0" % (1 + count)]
    assert (pair.held(), pair.written()) == ((entries, before[1], b"1"), ALL_WRITTEN)
    with pytest.raises(Spoilt):  # the entry stays
        pair.ada.resume()


def test_that_the_probe_is_somebody_elses(pair: Pair) -> None:
    """Nothing is done."""
    pair.client.delete(pair.key("probe:0"))
    pair.client.hset(pair.key("probe:0"), "it", "is somebody's")
    before = pair.held()
    with pytest.raises(Interrupted):
        pair.step()
    assert (pair.held(), pair.written()) == (before, NONE_WRITTEN), "nothing is done"
    with pytest.raises(redis.ResponseError):  # nor is it gone on from
        pair.ada.resume()


def test_a_write_of_the_programs_own_that_fails(pair: Pair) -> None:
    """Notes and probe are done, and the other writes. Where all is refused in front, nothing is done."""
    pair.client.rpush("list", "it")
    for number in range(2):
        with pytest.raises(redis.ResponseError):
            pair.step()
        held = pair.held()
        assert held[0] == [b"%d-0" % (1 + at) for at in range(1 + number)], "the notes are done"
        assert (held[1] != pair.before[1], held[2], pair.written()) == (True, None, ALL_WRITTEN), "the rest is done"
        pair.ada.resume()
        assert pair.clock == (1 + number, 0), "the probe is that of the notes"
    pair.client.config_set("maxmemory", 1)
    with pytest.raises(redis.ResponseError):
        pair.step()
    pair.client.config_set("maxmemory", 0)
    assert (pair.held(), pair.written()) == (held, NONE_WRITTEN), "nothing is done"


def test_full_memory_where_only_a_note_needs_some(pair: Pair) -> None:
    pair.step()
    before = pair.held()
    pair.written()
    with pytest.raises(redis.ResponseError), pair.ada.step() as pipe:
        pipe.delete("gone")
        pair.ada.observe(True)
        pair.client.config_set("maxmemory", 1)
    pair.client.config_set("maxmemory", 0)
    assert (pair.held(), pair.written()) == (before, NONE_WRITTEN), "nothing is done of it"


class As:
    """The address of a server for a user."""

    def __init__(self, server: Server, user: str) -> None:
        self.url = server.url.replace("//", f"//{user}:word@")


@pytest.fixture
def guarded(forgetful_server: Server) -> tuple[Server, Any]:
    """A server with users of several rights, and a client that may do all."""
    client = forgetful_server.client
    client.ping()
    for user, rights in RIGHTS.items():
        client.execute_command(f"ACL SETUSER {user} on >word ~wullaphi:* ~mine {rights}")
    client.config_set("requirepass", "other")
    return forgetful_server, client


RIGHTS_OF_WORKER = "+@all -@dangerous -@admin -@scripting +info +eval"
RIGHTS = {"worker": RIGHTS_OF_WORKER, "reader": "+@read +@connection +info",
          "old": RIGHTS_OF_WORKER.replace(" +eval", ""), "noxadd": f"{RIGHTS_OF_WORKER} -xadd"}
WATCH = wullaphi.Watch(1, NAMES)


@pytest.mark.parametrize(("user", "right"), [("old", "eval"), ("noxadd", "xadd")])
def test_that_a_right_is_missing(guarded: tuple[Server, Any], user: str, right: str) -> None:
    """No station opens, and nothing is done."""
    server, client = guarded
    why = f"NOPERM this user has no permissions to run the '{right}' command"
    with pytest.raises(redis.ResponseError, match=f"^{why}$"):
        open_station(As(server, user).url, WATCH, "ada")
    assert client.keys("*") == []


def test_that_the_rights_are_enough(guarded: tuple[Server, Any]) -> None:
    """Those that docs/machines.md names."""
    server, _ = guarded
    stations = [open_station(As(server, "worker").url, WATCH, name) for name in NAMES]
    for station in stations:
        station.observe(True)
    told = ["found ada 0 tag 0, ben 0 tag 0", "notes ada 1, ben 1"]
    calls: list[tuple[str, list[str]]] = [
        ("reader", []), ("worker", ["--save", "x"]), ("worker", ["--save", "x", "--trim"])]
    for user, words in calls:
        assert collected(As(server, user), "--watch", WATCH.number, *words) == (0, told, ""), f"{user} {words}"
    for station in stations:
        station.close()
        station.transport.close()


@pytest.mark.parametrize(("right", "is_written"), [("eval", 0), ("xadd", 1), ("set", 0)])
def test_that_a_right_is_taken_away(guarded: tuple[Server, Any], right: str, is_written: int) -> None:
    """From a station that runs."""
    server, client = guarded
    ada = open_station(As(server, "worker").url, WATCH, "ada")
    ada.observe(True)
    notes, probe = "wullaphi:{1}:notes:0", "wullaphi:{1}:probe:0"
    before = client.xinfo_stream(notes)["last-generated-id"], client.get(probe)
    client.execute_command("ACL", "SETUSER", "worker", f"-{right}")
    with pytest.raises(redis.ResponseError), ada.step() as pipe:
        pipe.lpush("mine", "it")
        ada.stamp("ben")
        ada.observe(True)
    assert (client.xinfo_stream(notes)["last-generated-id"], client.get(probe)) == before
    assert client.delete("mine") == is_written, "the write of its own"
    client.execute_command("ACL", "SETUSER", "worker", f"+{right}")
    ada.resume()
    ada.transport.close()
