"""Three services over HTTP: `config` makes `ada` the primary, and then `ben`. Stamps go in the headers of requests.

With the word `hasty`, config doesn't wait until ada has answered that it is no longer the primary. By the clock on the
wall ada mostly is in time, and yet both could have been primary at once. Run it as `python3 services.py` or
`python3 services.py hasty`.
"""

from __future__ import annotations

import multiprocessing
import os
import sys
from http.client import HTTPConnection
from multiprocessing.connection import Connection
from typing import Any, Callable
from wsgiref.simple_server import WSGIRequestHandler, make_server

sys.path.insert(0, os.path.join(os.path.dirname(os.path.abspath(__file__)), "..", "python"))

import wullaphi  # noqa: E402
from wullaphi.station import Direct, Station  # noqa: E402
from wullaphi.web import Stamped, StampedConnection  # noqa: E402

WATCH = wullaphi.Watch(30, ["config", "ada", "ben"])


class Silent(WSGIRequestHandler):
    def log_message(self, format: str, *args: Any) -> None:  # pylint: disable=redefined-builtin
        pass


class Replica:
    """A service that is told by config whether it is the primary."""

    def __init__(self, name: str, notes: multiprocessing.Queue[wullaphi.Note]) -> None:
        self.station = Station(WATCH, name, Direct(notes.put), lasts=True)
        self.has_ended = False

    def answer(self, environ: dict[str, Any], start_response: Callable[..., Any]) -> list[bytes]:
        path = environ["PATH_INFO"]
        self.station.observe(path == "/promote")  # my condition: I am the primary
        self.has_ended = path == "/end"
        start_response("200 OK", [("Content-Type", "text/plain"), ("Content-Length", "5")])
        return [b"done\n"]


def serve(name: str, port: Connection, notes: multiprocessing.Queue[wullaphi.Note]) -> None:
    """Answers until config ends it."""
    replica = Replica(name, notes)
    with make_server("127.0.0.1", 0, Stamped(replica.answer, replica.station), handler_class=Silent) as server:
        port.send(server.server_port)
        while not replica.has_ended:
            server.handle_request()
    replica.station.close()


class Config:
    """Tells the replicas what they are, each over a connection of its own."""

    def __init__(self, ports: dict[str, int], notes: multiprocessing.Queue[wullaphi.Note]) -> None:
        self.station = Station(WATCH, "config", Direct(notes.put), watched=False)
        self.connections = {name: StampedConnection(HTTPConnection("127.0.0.1", port, timeout=30), self.station, name)
                            for name, port in ports.items()}

    def ask(self, name: str, path: str) -> None:
        self.connections[name].request("POST", path)

    def wait_for(self, name: str) -> None:
        self.connections[name].getresponse().read()

    def call(self, name: str, path: str) -> None:
        self.ask(name, path)
        self.wait_for(name)

    def change_primary(self, hasty: bool) -> None:
        self.call("ada", "/promote")
        if hasty:
            self.ask("ada", "/demote")
            self.call("ben", "/promote")
            self.wait_for("ada")
        else:
            self.call("ada", "/demote")
            self.call("ben", "/promote")

    def end(self) -> None:
        self.call("ada", "/end")
        self.call("ben", "/end")
        self.station.close()


def report(notes: multiprocessing.Queue[wullaphi.Note]) -> wullaphi.Report:
    """What the notes of all tell, once each has ended."""
    checker = WATCH.checker(["ada", "ben"])
    ended = 0
    while ended < WATCH.processes:
        note = notes.get(timeout=60)
        checker.take(note)
        ended += wullaphi.is_last(note)
    return checker.report()


def main(hasty: bool) -> None:
    notes: multiprocessing.Queue[wullaphi.Note] = multiprocessing.Queue()
    ports = {}
    for name in ("ada", "ben"):
        told, tell = multiprocessing.Pipe(duplex=False)
        multiprocessing.Process(target=serve, args=(name, tell, notes), daemon=True).start()
        ports[name] = told.recv()
    config = Config(ports, notes)
    config.change_primary(hasty)
    config.end()
    if report(notes).known == "found":
        print("ada and ben could both have been the primary")
    else:
        print("ada and ben were never both the primary")


if __name__ == "__main__":
    main(sys.argv[1:] == ["hasty"])
