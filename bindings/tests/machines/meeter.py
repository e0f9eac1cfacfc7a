"""A process that meets others over a Redis server: `meeter.py URL WATCH PLACES PATIENCE NAME WORD..`. PLACES is JSON,
and the words are what it does: `true TAG`, `false`, `sends KEY NAME`, `gets KEY`, `ends`, `says TEXT`, which it prints,
`reads`, which waits for a line, and `uses .. used`, which prints the processor time used in between."""

from __future__ import annotations

import json
import sys
import time
from typing import Callable, Dict, Iterator, List

import redis  # type: ignore[import]

import wullaphi
from wullaphi.redis import Meeting, open_station

NAMES = ["ada", "ben", "cyd"]


def main(url: str, number: str, places: str, patience: str, name: str, *words: str) -> None:
    watch = wullaphi.Watch(int(number), NAMES)
    meeting = Meeting(url, watch, json.loads(places), float(patience))
    station = open_station(url, watch, name, meeting=meeting, lasts=True, beat=None)
    client = redis.Redis.from_url(url)
    rest: Iterator[str] = iter(words)
    began: List[float] = []
    calls: Dict[str, Callable[[], object]] = {
        "true": lambda: station.observe(True, int(next(rest))),
        "false": lambda: station.observe(False),
        "sends": lambda: client.rpush(next(rest), station.stamp(next(rest))),
        "gets": lambda: station.receive(client.blpop(next(rest), timeout=0)[1].decode()),
        "ends": station.close,
        "says": lambda: print(next(rest), flush=True),
        "reads": sys.stdin.readline,
        "uses": lambda: began.append(time.process_time()),
        "used": lambda: print(time.process_time() - began[0]),
    }
    for word in rest:
        calls[word]()


if __name__ == "__main__":
    main(*sys.argv[1:])
