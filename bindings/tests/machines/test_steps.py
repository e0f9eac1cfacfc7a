"""What a station does where a step goes wrong: a lost line, a fork, a call that is interrupted, a damaged server, many
threads. And what the collector says of it."""

from __future__ import annotations

import os
import signal
import socket
import time
from typing import Any

import pytest
from server import SECONDS, Server, collected, collector, poll_until, until

import wullaphi
from wullaphi._line import Unreachable
from wullaphi._wire import Replies
from wullaphi.collect import Collector, Found, Lost
from wullaphi.redis import forget, open_station
from wullaphi.station import Interrupted, Station
from wullaphi.wcpcollect import HALVES

PAIR = ["ada", "ben"]


def key(watch: wullaphi.Watch, name: str, process: int) -> str:
    return f"wullaphi:{{{watch.number}}}:{name}:{process}"


def notes_of(server: Server, watch: wullaphi.Watch, process: int) -> int:
    return int(server.client.xlen(key(watch, "notes", process)))


def line_of(station: Station) -> Any:
    """The connection of a station to its server."""
    transport: Any = station.transport
    return transport._line


def test_that_what_is_forgotten_is_not_told(server: Server) -> None:
    """What a lost step said isn't true behind it."""
    watch = wullaphi.Watch(11, PAIR)
    ada = open_station(server.url, watch, "ada", lasts=True, beat=None)
    line_of(ada).close()
    with pytest.raises(Interrupted):  # the line was lost
        ada.observe(True)
    ada.resume()
    ada.stamp("ben")
    assert notes_of(server, watch, 0) == 0, "no note of what is forgotten"


def test_the_probe_of_another(server: Server) -> None:
    watch = wullaphi.Watch(12, PAIR)
    for name in PAIR:
        open_station(server.url, watch, name, beat=None).observe(True)
    server.client.set(key(watch, "probe", 0), server.client.get(key(watch, "probe", 1)))
    with pytest.raises(wullaphi.NoProbe):  # ben's probe as ada's
        open_station(server.url, watch, "ada", beat=None)


def test_a_lost_line(server: Server) -> None:
    """A look at a line that is lost leaves the station broken, and says so before anything else."""
    watch = wullaphi.Watch(13, PAIR)
    ada, ben = (open_station(server.url, watch, name, beat=None) for name in PAIR)
    header = ben.stamp("ada")
    server.kill()
    with pytest.raises(Interrupted):  # a stamp of another run, on a lost line
        ada.receive(header + "x")
    with pytest.raises(Interrupted):  # a look
        ben.check()
    server.start()
    with pytest.raises(Interrupted):  # it is broken
        ben.observe(True)
    assert (ada.is_interrupted, ben.is_interrupted) == (True, True), "and says so"


def test_old_lines(server: Server) -> None:
    """A station that resumes closes the line that it had."""
    watch = wullaphi.Watch(14, PAIR)
    ada = open_station(server.url, watch, "ada", beat=None)
    lines = []
    for _ in range(10):
        lines.append(line_of(ada))
        ada.resume()
    assert [line.is_open for line in lines] == [False] * 10, "the lines of ten resumes"


def beat_of(server: Server, watch: wullaphi.Watch) -> int:
    return int(server.client.get(key(watch, "beat", 0)) or 0)


def test_beats_behind_a_start_of_the_server(server: Server) -> None:
    watch = wullaphi.Watch(15, PAIR)
    ada = open_station(server.url, watch, "ada", beat=0.05)
    until(lambda: beat_of(server, watch) > 0)
    server.kill()
    time.sleep(0.5)  # some beats find nobody
    server.start()
    before = beat_of(server, watch)
    until(lambda: beat_of(server, watch) > before + 2)
    ada.transport.close()
    forget(server.url, watch)
    assert server.client.keys(f"wullaphi:{{{watch.number}}}:*") == [], "nothing is left"


def test_beats_of_a_child_that_resumes(server: Server) -> None:
    watch = wullaphi.Watch(15, PAIR)
    ada = open_station(server.url, watch, "ada", beat=0.05)
    transport: Any = ada.transport
    child = os.fork()
    if child == 0:
        ada.resume()
        signal.pause()
    try:
        # The parent is taken over: what rises from here on is the child's.
        until(lambda: server.client.get(key(watch, "owner", 0)) != transport._token)
        before = beat_of(server, watch)
        until(lambda: beat_of(server, watch) > before + 3)
    finally:
        os.kill(child, signal.SIGKILL)
        os.waitpid(child, 0)
    transport.close()
    forget(server.url, watch)
    assert server.client.keys(f"wullaphi:{{{watch.number}}}:*") == [], "nothing is left"


class Stops:
    """A socket of which the next answer is interrupted by Ctrl-C."""

    def __init__(self, inner: Any) -> None:
        self._inner = inner
        self.is_armed = True

    def recv(self, most: int) -> Any:
        if self.is_armed:
            self.is_armed = False
            raise KeyboardInterrupt
        return self._inner.recv(most)

    def __getattr__(self, name: str) -> Any:
        return getattr(self._inner, name)


def test_a_call_that_is_interrupted(server: Server) -> None:
    """A call that is interrupted leaves no reply behind that a later call would read."""
    watch = wullaphi.Watch(16, PAIR)
    ada = open_station(server.url, watch, "ada", beat=None)
    line = line_of(ada)
    line._replies._socket = Stops(line._replies._socket)
    with pytest.raises(KeyboardInterrupt):  # Ctrl-C in a call
        ada.observe(True)
    with pytest.raises(Interrupted):  # the next call
        ada.stamp("ben")
    with pytest.raises(Unreachable):  # the line
        line.ask(("GET", "it"))
    ada.resume()
    ada.observe(False)
    assert not ada.is_interrupted, "it goes on"


@pytest.mark.parametrize("said", ["LOADING", "MASTERDOWN", "READONLY", "UNBLOCKED"])
def test_what_a_server_says_of_itself(said: str) -> None:
    """It is no reply to a command."""
    ours, server = socket.socketpair()
    with ours, server:
        server.sendall(f"-{said} x\r\n".encode())
        with pytest.raises(ConnectionError):
            Replies(ours, ValueError).read()


@pytest.mark.parametrize(("process", "number"), [(1, 2), (0, 1)], ids=["of another process", "a number again"])
def test_a_foreign_entry(server: Server, process: int, number: int) -> None:
    """A note of another process, or of another number, is none of the next place."""
    watch = wullaphi.Watch(17, PAIR)
    ada, ben = (open_station(server.url, watch, name, beat=None) for name in PAIR)
    for station, count in ((ada, 2), (ben, 3)):
        for _ in range(count):
            station.observe(True)
            station.stamp("ben" if station is ada else "ada")
    note = server.client.xrange(key(watch, "notes", process))[number][1][b"note"]
    server.client.xadd(key(watch, "notes", 0), {"note": note}, id="3-0")
    status, _, errors = collected(server, "--watch", watch.number, "--follow", "--question", "ada")
    assert (status, "is another note" in errors) == (2, True)


def test_what_was_saved_and_then_lost(server: Server) -> None:
    """What was saved counts only where the server still has the notes that went into it."""
    watch = wullaphi.Watch(19, PAIR)
    ada, ben = (open_station(server.url, watch, name, beat=None) for name in PAIR)
    ada.observe(True)
    ben.observe(True)
    words = ("--watch", watch.number, "--save", "here")
    assert collected(server, *words)[:2] == (0, ["found ada 0 tag 0, ben 0 tag 0", "notes ada 1, ben 1"]), "found"
    server.client.delete(key(watch, "notes", 1))
    assert collected(server, *words)[:2] == (4, ["undecided ada, ben", "notes ada 1, ben 0"]), "ben's notes are lost"


def test_who_never_comes(server: Server) -> None:
    """A process that never comes is waited for no longer than `--lost-after` says."""
    watch = wullaphi.Watch(20, [*PAIR, "cleo"])
    ada, ben = (open_station(server.url, watch, name, beat=0.1) for name in PAIR)
    for station in (ada, ben):
        station.observe(True)
        station.close()
    status, output, _ = collected(server, "--watch", watch.number, "--pairs", "--lost-after", 1)
    assert (status, output[0]) == (0, "found ada 0 tag 0, ben 0 tag 0"), "two of three have come"
    assert "lost cleo" in output, "the third is lost"


def test_who_was_called_lost(server: Server) -> None:
    """Of a process that was called lost no more notes are taken."""
    watch = wullaphi.Watch(21, PAIR)
    ada, ben = (open_station(server.url, watch, name, beat=None) for name in PAIR)
    here = Collector(server.url, watch.number, lost_after=0.5)
    events = poll_until(here, lambda events: len([it for it in events if isinstance(it, Lost)]) == 2)
    ada.observe(True)
    ben.observe(True)
    before = here.taken
    more = poll_until(here, lambda _: here.taken != before and sum(here.taken.values()) == 2)
    assert [type(it) for it in events + more] == [Lost, Lost], "lost, and nothing new"
    assert not any(isinstance(it, Found) for it in more), "nothing is found"


def test_ctrl_c(server: Server) -> None:
    watch = wullaphi.Watch(22, PAIR)
    for name in PAIR:
        open_station(server.url, watch, name, beat=None)
    with collector(server, "--watch", watch.number, "--follow") as call:
        until(lambda: server.client.info("clients")["blocked_clients"] > 0)
        call.send_signal(signal.SIGINT)
        output, errors = call.communicate(timeout=SECONDS)
    assert (call.returncode, output, errors) == (130, "", ""), "Ctrl-C"


def test_that_halves_of_steps_are_told() -> None:
    """A server that may do half of a step is told of where it was started anew."""
    with Server(more=("--aof-load-truncated", "yes")) as server:
        watch = wullaphi.Watch(23, PAIR)
        stations = [open_station(server.url, watch, name, beat=None) for name in PAIR]
        with collector(server, "--watch", watch.number, "--follow") as call:
            until(lambda: server.client.info("clients")["blocked_clients"] > 0)
            server.kill()
            server.start()
            assert call.stderr is not None
            said = ""
            while HALVES not in said:
                line = call.stderr.readline()
                if not line:
                    break
                said += line
            assert HALVES in said, "it says so"
        del stations
