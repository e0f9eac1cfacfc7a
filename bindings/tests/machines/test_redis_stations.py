"""Stations over a Redis server: what is refused, what a step does, and what is left after a lost connection, a lost
write, and a newer station of the same process."""

from __future__ import annotations

import multiprocessing
from typing import Any

import pytest
import redis  # type: ignore[import]
from server import Server, collected

import wullaphi
from wullaphi.redis import Spoilt, forget, open_station
from wullaphi.station import Changed, Interrupted, OtherRun, Station, TakenOver

NAMES = ["ada", "ben"]
WATCH = wullaphi.Watch(7, NAMES)


def notes_in(server: Server, watch: wullaphi.Watch = WATCH) -> list[list[wullaphi.Note]]:
    """The notes of each process, as the server has them."""
    client = server.client
    streams = [client.xrange(f"wullaphi:{{{watch.number}}}:notes:{process}") for process in range(watch.processes)]
    return [[wullaphi.Note(fields[b"note"]) for _, fields in entries] for entries in streams]


def numbers_in(server: Server, watch: wullaphi.Watch = WATCH) -> list[list[tuple[int, bool]]]:
    return [[(note.number, note.is_last) for note in notes] for notes in notes_in(server, watch)]


def test_a_station_that_goes_on(server: Server) -> None:
    """A station goes on where the last one of its process ended, and the server has each note once."""
    client = server.client
    ada = open_station(server.url, WATCH, "ada", beat=None)
    ada.observe(True, tag=9)
    with ada.step() as pipe:
        pipe.xadd("inbox", {"stamp": ada.stamp("ben")})
        pipe.set("state", "sent")
        assert client.get("state") is None, "not before the end"
    assert client.get("state") == b"sent", "with the step"
    ben = open_station(server.url, WATCH, "ben", beat=None)
    ben.receive(client.xrange("inbox")[0][1][b"stamp"].decode(), stored=True)
    ben.observe(True)
    again = open_station(server.url, WATCH, "ben", beat=None)
    assert repr(again) == repr(ben), "it goes on"
    with pytest.raises(TakenOver):  # the older one
        ben.close()
    with pytest.raises((TakenOver, Interrupted)):  # and again
        ben.close()
    again.close()
    ada.close()
    assert numbers_in(server) == [[(0, False), (1, True)], [(0, False), (1, True)]], "the notes"
    assert notes_in(server)[0][0].tag == 9, "the tag"
    assert open_station(server.url, WATCH, "ada", beat=None).is_closed, "a closed one stays so"
    others = wullaphi.Watch(WATCH.number, ["ada", "eve"])
    with pytest.raises(Spoilt):  # other names
        open_station(server.url, others, "ada")
    client.delete(f"wullaphi:{{{WATCH.number}}}:probe:0")
    with pytest.raises(Spoilt):  # a probe that is gone
        open_station(server.url, WATCH, "ada")
    forget(server.url, WATCH)
    assert (client.keys("wullaphi:*"), numbers_in(server)) == ([], [[], []]), "forgotten"


def stations_of(server: Server) -> tuple[Station, Station]:
    return (open_station(server.url, WATCH, "ada", beat=None), open_station(server.url, WATCH, "ben", beat=None))


def test_a_command_that_fails(server: Server) -> None:
    """The rest of its step is done, and the station must resume."""
    client = server.client
    ada, _ = stations_of(server)
    client.rpush("list", "it")
    with pytest.raises(redis.ResponseError), ada.step() as pipe:
        pipe.set("before", "it")
        ada.observe(True)
        pipe.incr("list")
        ada.stamp("ben")
        pipe.set("behind", "it")
    with pytest.raises(Interrupted):  # until it resumes
        ada.observe(False)
    ada.resume()
    assert (numbers_in(server)[0], repr(ada)[-7:]) == ([(0, False)], "(1, 0))")
    assert (client.get("before"), client.get("behind")) == (b"it", b"it")


@pytest.mark.parametrize("words", [("NOSUCH",), ("SET", "it")], ids=["an unknown command", "too few words"])
def test_a_command_that_the_server_refuses(server: Server, words: tuple[str, ...]) -> None:
    """Nothing of its step is done."""
    ada, _ = stations_of(server)
    with pytest.raises(redis.ResponseError), ada.step() as pipe:
        pipe.set("refused", "it")
        ada.stamp("ben")
        pipe.execute_command(*words)
    ada.resume()
    assert (repr(ada)[-7:], server.client.exists("refused")) == ("(0, 0))", 0)


def test_full_memory(server: Server) -> None:
    ada, _ = stations_of(server)
    server.client.config_set("maxmemory", 1)
    with pytest.raises(redis.ResponseError):
        ada.stamp("ben")
    server.client.config_set("maxmemory", 0)
    ada.resume()
    assert repr(ada)[-7:] == "(0, 0))", "nothing of it was done"


def test_a_lost_connection(server: Server) -> None:
    ada, ben = stations_of(server)
    header = ada.stamp("ben")
    server.client.client_kill_filter(_type="normal", skipme=True)
    with pytest.raises(Interrupted):
        ada.observe(True)
    ada.resume()
    ada.observe(True)
    ben.resume()
    ben.receive(header)
    assert (repr(ada)[-7:], repr(ben)[-7:]) == ("(1, 0))", "(1, 1))"), "both know"


def test_a_server_that_is_started_anew(server: Server) -> None:
    ada, ben = stations_of(server)
    header = ada.stamp("ben")
    ben.receive(header)
    server.kill()
    for call in (lambda: ada.stamp("ben"), ada.resume):
        with pytest.raises(Interrupted):  # there is no server
            call()
    server.start()
    with pytest.raises(Interrupted):  # a run of the server that is over
        ben.receive(header)
    ada.resume()
    header = ada.stamp("ben")
    ben.resume()
    ben.receive(header)
    assert (repr(ada)[-7:], repr(ben)[-7:]) == ("(2, 0))", "(2, 2))"), "both know"
    old = ada.stamp("ben")
    server.kill()
    server.start()
    ben.resume()
    with pytest.raises(OtherRun):  # a stamp of the run before
        ben.receive(old)
    ben.observe(True)


class Deaf:
    """A socket whose replies are lost."""

    def __init__(self, socket: Any) -> None:
        self.socket = socket

    def recv(self, size: int) -> None:
        self.socket.recv(size)
        raise ConnectionError("the reply is lost")


def test_a_lost_reply(server: Server) -> None:
    """A step that was done, and whose reply was lost: it counts, and is not done again."""
    client = server.client
    ada = open_station(server.url, WATCH, "ada", beat=None)
    for number in range(2):
        transport: Any = ada.transport
        replies = transport._line._replies
        replies._socket = Deaf(replies._socket)
        with pytest.raises(Interrupted), ada.step() as pipe:
            ada.observe(True)
            if number:
                pipe.incr("written")
            ada.stamp("ben")
        with pytest.raises(Interrupted):  # until it resumes
            ada.observe(True)
        ada.resume()
        assert numbers_in(server)[0] == [(it, False) for it in range(number + 1)], "the step was done"
        assert repr(ada)[-7:] == f"({number + 1}, 0))"
    assert client.get("written") == b"1", "and the program's write"


def test_a_watched_key(server: Server) -> None:
    """A step that depends on a key which somebody changes isn't done, and the station goes on."""
    client = server.client
    ada = open_station(server.url, WATCH, "ada", beat=None)
    transport: Any = ada.transport
    before = repr(ada)
    with pytest.raises(Changed), ada.step() as pipe:
        transport.watch("it")
        client.incr("it")
        ada.observe(True)
        ada.stamp("ben")
        pipe.set("done", "yes")
    assert (repr(ada), numbers_in(server)[0], client.get("done")) == (before, [], None), "nothing is done"
    with pytest.raises(RuntimeError):  # outside of a step
        transport.watch("it")
    with pytest.raises(KeyError), ada.step():
        transport.watch("it")
        raise KeyError
    client.incr("it")
    with ada.step() as pipe:
        transport.watch("it")
        ada.observe(True)
        pipe.set("done", "yes")
    assert (numbers_in(server)[0], client.get("done")) == ([(0, False)], b"yes"), "not changed"


def test_a_newer_station(server: Server) -> None:
    ada = open_station(server.url, WATCH, "ada", beat=None)
    newer = open_station(server.url, WATCH, "ada", beat=None)
    with pytest.raises(TakenOver):
        ada.stamp("ben")
    newer.stamp("ben")


def stamp_in_child(station: Station, answers: multiprocessing.Queue[str]) -> None:
    """What a process that was forked meets with the station of its parent."""
    try:
        station.stamp("ben")
    except Interrupted:
        station.resume()
        answers.put(station.stamp("ben"))


def test_a_fork(server: Server) -> None:
    """A process that was forked doesn't share the connection: it has to resume, and takes over."""
    ada = open_station(server.url, WATCH, "ada", beat=None)
    fork = multiprocessing.get_context("fork")
    answers: multiprocessing.Queue[str] = fork.Queue()
    child = fork.Process(target=stamp_in_child, args=(ada, answers))
    child.start()
    child.join()
    assert (answers.empty(), child.exitcode) == (False, 0), "the child took over"
    with pytest.raises(TakenOver):  # the parent
        ada.stamp("ben")


def test_a_server_that_has_lost_writes(server: Server) -> None:
    """A server that has lost what it acknowledged: a station goes on from what it has."""
    ada = open_station(server.url, WATCH, "ada", beat=None)
    ada.observe(True)
    size = server.size()
    ada.stamp("ben")
    ada.observe(True)
    server.lose(size)
    with pytest.raises(Interrupted):  # it doesn't go on from memory
        ada.stamp("ben")
    ada.resume()
    assert (repr(ada)[-7:], numbers_in(server)[0]) == ("(0, 0))", [(0, False)]), "it goes on from what is there"
    ada.close()
    assert numbers_in(server)[0] == [(0, False), (1, True)], "the end"


@pytest.mark.parametrize("again", ["goes on", "resumes", "starts again"])
def test_what_lasts_on_a_server(server: Server, again: str) -> None:
    """What lasts is true until it is observed anew, also where its process is resumed or started again."""
    def opened(name: str = "ada", lasts: bool = True) -> Station:
        return open_station(server.url, WATCH, name, lasts=lasts, beat=None)

    ada, ben = opened(), opened("ben", lasts=False)
    ada.observe(True, tag=2 ** 64 - 1)
    if again == "resumes":
        ada.resume()
    elif again == "starts again":
        ada = opened()
    ben.receive(ada.stamp("ben"))
    ben.observe(True)
    told = [f"found ada 1 tag {2 ** 64 - 1}, ben 1 tag 0", "notes ada 2, ben 1"]
    assert collected(server, "--watch", WATCH.number)[1] == told, "both hold"
    ada.observe(True, tag=5)
    ada = opened(lasts=False)
    ada.receive(ben.stamp("ada"))
    assert notes_in(server)[0][-1].tag == 5, "the tag of what was said last"
    ada = opened()
    ada.observe(False)
    opened().stamp("ben")
    assert len(notes_in(server)[0]) == 3, "no longer"
    ada = opened()
    ada.observe(True)
    ada.close()
    assert (opened().is_closed, numbers_in(server)[0][-1]) == (True, (4, True)), "the end"
