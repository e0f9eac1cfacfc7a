"""A worker of a ring: it takes the token from its inbox, holds it, and passes it on, in one step. It may be killed at
any moment, and is started again. `ring.py URL WATCH WORKERS NAME HOPS MISTAKE`: with MISTAKE 1, worker 1 says once that
it still holds the token which it has passed on."""

from __future__ import annotations

import sys
from typing import Any

import redis  # type: ignore[import]

import wullaphi
from wullaphi.redis import open_station
from wullaphi.station import Interrupted, TakenOver

# The hop at which the mistake is made.
WRONG = 41


class Worker:
    """What it keeps is in the hash of its name: the place in its inbox up to which it has read."""

    def __init__(self, url: str, number: int, workers: int, process: int, hops: int, mistake: bool) -> None:
        self.watch = wullaphi.Watch(number, [f"worker{it}" for it in range(workers)])
        self.me, self.hops, self.mistake = process, hops, mistake
        self.client = redis.Redis.from_url(url, socket_timeout=10)
        self.station = open_station(url, self.watch, process, beat=0.2)
        self.read_place()

    def key(self, name: str, process: int) -> str:
        return f"ring:{self.watch.number}:{name}:{process}"

    def read_place(self) -> None:
        self.place: str = (self.client.get(self.key("place", self.me)) or b"0").decode()

    def run(self) -> None:
        if self.me == 0 and self.place == "0":
            self.begin()
        while not self.station.is_closed:
            got = self.client.xread({self.key("inbox", self.me): self.place}, count=1, block=500)
            for entry, message in got[0][1] if got else []:
                self.pass_on(entry.decode(), message)
            if not got:
                self.station.check()

    def begin(self) -> None:
        with self.station.step() as pipe:
            self.hold_and_send(pipe, 0)
            pipe.set(self.key("place", self.me), "0-1")
        self.place = "0-1"

    def pass_on(self, entry: str, message: dict[bytes, bytes]) -> None:
        hop = int(message[b"hop"])
        with self.station.step() as pipe:
            self.station.receive(message[b"stamp"].decode(), stored=True)
            if hop < self.hops:
                self.hold_and_send(pipe, hop)
            else:
                self.end(pipe, hop)
            pipe.set(self.key("place", self.me), entry)
        self.place = entry

    def hold_and_send(self, pipe: Any, hop: int) -> None:
        """Holds the token and passes it on."""
        self.station.observe(True, tag=hop)
        following = (self.me + 1) % self.watch.processes
        pipe.xadd(self.key("inbox", following), {"hop": hop + 1, "stamp": self.station.stamp(following)})
        self.station.observe(self.mistake and hop == WRONG, tag=hop)

    def end(self, pipe: Any, hop: int) -> None:
        """Ends its part, and tells the next worker to do so, until all have ended."""
        if hop < self.hops + self.watch.processes - 1:
            following = (self.me + 1) % self.watch.processes
            pipe.xadd(self.key("inbox", following), {"hop": hop + 1, "stamp": self.station.stamp(following)})
        self.station.close()


def main(url: str, number: int, workers: int, process: int, hops: int, mistake: bool) -> int:
    worker = None
    while worker is None or not worker.station.is_closed:
        try:
            if worker is None:
                worker = Worker(url, number, workers, process, hops, mistake)
            worker.run()
        except (Interrupted, redis.RedisError):
            # What the server has counts. Half of the workers go on in memory, the others start again.
            if worker is None or worker.me % 2:
                return 1
            try:
                worker.station.resume()
                worker.read_place()
            except (Interrupted, redis.RedisError):
                return 1
        except TakenOver:
            return 1
    return 0


if __name__ == "__main__":
    url, *words = sys.argv[1:]
    number, workers, process, hops, mistake = map(int, words)
    sys.exit(main(url, number, workers, process, hops, mistake == 1))
