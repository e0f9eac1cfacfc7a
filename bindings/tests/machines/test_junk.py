"""What `wcpcollect` says of names that would forge lines, of what the server holds that nobody foresaw, of a server
whose memory is full, and over a socket in the file system."""

from __future__ import annotations

import json
import os
import subprocess
import sys
import time
from typing import Any, Sequence

import pytest
from server import SECONDS, TOP, Server, collected, poll_until, until

import wullaphi
from wullaphi.collect import Collector
from wullaphi.redis import Spoilt, open_station
from wullaphi.station import Station, TakenOver


def stations(url: str, number: int, names: Sequence[str] = ("ada", "ben"), beat: float | None = None,
             batch: int = 1) -> list[Station]:
    watch = wullaphi.Watch(number, list(names))
    return [open_station(url, watch, name, beat=beat, batch=batch) for name in names]


def test_names(server: Server) -> None:
    """A name makes no line of its own, and steers no terminal."""
    names = ["c\nnone x, y", "\x1b[2Jben", "back\\slash", "ü 1"]
    for station in stations(server.url, 1, names):
        station.observe(True)
    shown = ["c\\nnone x, y", "\\x1b[2Jben", "back\\\\slash", "ü 1"]
    assert collected(server, "--watch", 1) == (0, [
        "found " + ", ".join(f"{name} 0 tag 0" for name in shown),
        "notes " + ", ".join(f"{name} 1" for name in shown)], ""), "names"
    _, output, _ = collected(server, "--watch", 1, "--json")
    assert list(json.loads(output[0])["found"]) == names, "names in JSON"
    stations(server.url, 2, ["a\nb", "c\x1b"])
    assert collected(server, "--watch", 2, "--patience", 0.2) == (
        3, [], "wcpcollect: nothing came for 0.2 s; waiting for a\\nb (0 notes), c\\x1b (0 notes)\n"), "who is awaited"


def test_junk_in_the_names(server: Server) -> None:
    server.client.hset("wullaphi:{11}:names", "7", "x")
    assert collected(server, "--watch", 11) == (
        2, [], "wcpcollect: the names of the processes are not numbered on the server: {'7': 'x'}\n")
    with pytest.raises(Spoilt):
        stations(server.url, 11)


def test_seventeen_names(server: Server) -> None:
    server.client.hset("wullaphi:{12}:names", mapping={str(it): f"p{it}" for it in range(17)})
    assert collected(server, "--watch", 12) == (
        2, [], "wcpcollect: the server has 17 processes of the watch, and 16 are the most\n")


@pytest.mark.parametrize("junk", ["junk", "7", "{}", '{"places": 7}'])
def test_junk_that_is_saved(server: Server, junk: str) -> None:
    stations(server.url, 13)
    server.client.hset("wullaphi:{13}:saved:here", mapping={"state": junk, "checker": b"junk"})
    assert collected(server, "--watch", 13, "--save", "here") == (
        2, [], "wcpcollect: what is saved as 'here' is damaged\n")


def test_an_entry_of_a_stranger(server: Server) -> None:
    ada, _ = stations(server.url, 14)
    ada.observe(True)
    server.client.xadd("wullaphi:{14}:notes:0", {"note": b"x"}, id="1-7")
    assert collected(server, "--watch", 14) == (2, [], "wcpcollect: entry 1-7 of ada is no note\n")


@pytest.mark.parametrize("url", ["http://localhost", "redis://127.0.0.1:1", "redis://127.0.0.1?what=1",
                                 "unix:///nowhere"])
def test_an_address_of_no_server(url: str) -> None:
    """It is a fault, with a line and status 2."""
    status, output, errors = call(url, "--watch", 1)
    assert (status, output, errors.count("\n"), errors[:12]) == (2, "", 1, "wcpcollect: ")


def test_a_question_of_a_name_twice(server: Server) -> None:
    stations(server.url, 14)
    assert collected(server, "--watch", 14, "--question", "ada,ada") == (
        2, [], "wcpcollect: a question names 'ada' twice\n")


@pytest.mark.parametrize("questions", ["ada", ["ada"]], ids=["for questions", "for a question"])
def test_a_text(questions: Any) -> None:
    with pytest.raises(TypeError):
        Collector("redis://127.0.0.1", 14, questions)


def call(url: str, *words: object) -> tuple[int, str, str]:
    """A call of `wcpcollect` over this address."""
    ran = subprocess.run([sys.executable, "-m", "wullaphi.wcpcollect", "--redis", url, *map(str, words)],
                         env={**os.environ, "PYTHONPATH": str(TOP / "bindings" / "python")}, capture_output=True,
                         text=True, timeout=SECONDS, check=False)
    return ran.returncode, ran.stdout, ran.stderr


def test_that_an_entry_is_one_line(server: Server) -> None:
    server.client.xadd("logs", {"line": "one\n"})
    assert collected(server, "--logs", "logs") == (0, ["one"], ""), "a line with its end"
    server.client.xadd("logs", {"line": 'two\n{"host":"eve"}'}, id="99999999999999-0")
    assert collected(server, "--logs", "logs") == (
        2, ["one"], "wcpcollect: entry 99999999999999-0 of logs is no line of a log\n"), "two lines in an entry"


def test_full_memory(server: Server) -> None:
    """A server whose memory is full is told as that."""
    stations(server.url, 1)[0].observe(True)
    server.client.config_set("maxmemory", "1")
    status, output, errors = collected(server, "--watch", 1, "--save", "here")
    assert (status, output) == (2, [])
    assert errors.startswith("wcpcollect: the memory of the server is full: OOM")
    server.client.config_set("maxmemory", "0")
    assert collected(server, "--watch", 1, "--save", "here") == (
        4, ["undecided ada, ben", "notes ada 1, ben 0"], ""), "with room"


@pytest.mark.parametrize("is_refused", [True, False], ids=["refused", "not refused"])
def test_a_newer_station_that_dies(server: Server, is_refused: bool) -> None:
    """It is lost, although an older one of its process lives on."""
    key = "wullaphi:{31}:beat:0"
    older, = stations(server.url, 31, ["ada"], beat=0.05)
    newer, = stations(server.url, 31, ["ada"], beat=None)
    if is_refused:
        with pytest.raises(TakenOver):
            older.observe(True)
    beats = [server.client.get(key)]

    def have_ended() -> bool:
        time.sleep(0.3)
        beats.append(server.client.get(key))
        return beats[-5:].count(beats[-1]) == 5

    until(have_ended)
    assert collected(server, "--watch", 31, "--lost-after", 1)[:2] == (
        4, ["lost ada", "undecided ada", "notes ada 0"]), "the newer one is lost"
    if is_refused:
        older.resume()
        until(lambda: server.client.get(key) != beats[-1])  # it goes on
    older.transport.close()
    newer.transport.close()


def test_a_socket_in_the_file_system() -> None:
    with Server(keeps=False, more=["--unixsocket", "it.sock"]) as server:
        url = f"unix://{server.folder}/it.sock"
        ada, ben = stations(url, 1)
        ada.observe(True)
        ben.receive(ada.stamp("ben"))
        ben.observe(True)
        for station in (ada, ben):
            station.close()
        assert call(url, "--watch", 1) == (1, "none ada, ben\nnotes ada 2, ben 2\n", "")


class Counted:
    """A collector whose writes are counted."""

    def __init__(self, server: Server, number: int) -> None:
        self.here = Collector(server.url, number, save="here")
        self.written = 0
        save = self.here.streams.save

        def counted(told: Any, checker: bytes, trims: Any) -> None:
            self.written += len(checker)
            save(told, checker, trims)

        setattr(self.here.streams, "save", counted)


def test_that_little_is_written_for_a_few_notes(server: Server) -> None:
    """What a collector writes is no more than what came, however much it holds."""
    held, trickle = 20_000, 20
    ada = stations(server.url, 21, batch=1000)[0]
    for _ in range(held):
        ada.observe(True)
        with ada.step():
            ada.stamp("ben")
    ada.flush()
    counted = Counted(server, 21)
    poll_until(counted.here, lambda _: counted.here.taken.get("ada") == held)
    counted.here.poll()
    size = counted.here._size
    assert size > 10 * held, "it holds much"
    before = counted.written
    for more in range(trickle):
        ada.observe(True)
        ada.stamp("ben")
        poll_until(counted.here, lambda _: counted.here.taken["ada"] > held + more)
        counted.here.poll()
    assert counted.written - before < 2 * size, "a few more notes"
    counted.here.save()
    again = Collector(server.url, 21, save="here")
    again.poll()
    assert again.taken["ada"] == counted.here.taken["ada"], "it goes on from there"


def test_that_more_is_saved_than_the_server_takes_in_one_word() -> None:
    with Server(keeps=False, more=["--proto-max-bulk-len", "1mb"]) as server:
        ada = stations(server.url, 1, batch=1000)[0]
        with ada.step():
            for number in range(30_000):
                ada.observe(True, tag=number + 1)
                ada._probe.stamp(1)
        for _ in range(2):
            assert collected(server, "--watch", 1, "--save", "here", "--trim") == (
                4, ["undecided ada, ben", "notes ada 30000, ben 0"], "")
