"""Two stations of a watch over a server, and a history of theirs."""

from __future__ import annotations

from typing import Any

from server import Server, collected

import wullaphi
from wullaphi.redis import open_station
from wullaphi.station import Station

NAMES = ["ada", "ben"]
# What a collector ends with, and prints, behind `none_after`.
NONE = (1, ["none ada, ben", "notes ada 2, ben 2"])


class Pair:
    """The stations, and what is asked of their server."""

    def __init__(self, server: Server) -> None:
        self.server, self.number = server, 7
        self.watch = wullaphi.Watch(self.number, NAMES)
        self.ada, self.ben = map(self.open, NAMES)

    def open(self, name: str, **words: Any) -> Station:
        return open_station(self.server.url, self.watch, name, beat=None, **words)

    def key(self, name: str) -> str:
        return f"wullaphi:{{{self.number}}}:{name}"

    def collected(self, *words: object) -> tuple[int | str, list[str], str]:
        return collected(self.server, "--watch", self.number, *words)


def none_after(ada: Station, ben: Station) -> None:
    """The history of two stations in which ada holds, and knows that ben has. `NONE` is its report."""
    ben.observe(True)
    ben.observe(False)
    ada.receive(ben.stamp("ada"))
    ada.observe(True)
    ada.stamp("ben")
    ada.close()
    ben.close()
