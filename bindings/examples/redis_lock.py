"""Four workers share a lock of Redis, and each writes to a store while it has the lock. Could two write at once?

The lock is the one that many programs use: `SET lock NAME NX PX 100`, so that it runs out if its holder dies. Now and
then a worker pauses for longer than that, before it writes or after. By the clock on the wall two writes rarely meet.
But nothing keeps them apart once a lock has run out: whoever gives the lock back leaves stamps for the others, and a
lock that ran out has none.

With the word `fenced` each lock comes with a number, a fencing token. The store takes no write whose number is below
that of the last one, and each write leaves its stamps there. So no two writes that it takes could have been at once.

Run it as `python3 redis_lock.py URL WATCH [fenced] [--log FILE]`, with the address of a server and a number that no
earlier run had. The variable LOCK_SECONDS lets locks last longer than any pause, and then they are enough. It needs the
package redis. `wcpcollect --redis URL --watch WATCH --pairs` then tells of each two workers. With `--log` each worker
is also a host of a log with vector clocks, which `wcptrace --form lines` reads.
"""

from __future__ import annotations

import argparse
import multiprocessing
import os
import random
import sys
import time
from typing import Any

sys.path.insert(0, os.path.join(os.path.dirname(os.path.abspath(__file__)), "..", "python"))

import redis  # type: ignore[import]  # noqa: E402
import wullaphi  # noqa: E402
from wullaphi.log import HostLog  # noqa: E402
from wullaphi.redis import open_station  # noqa: E402
from wullaphi.station import Changed  # noqa: E402

NAMES = ["ada", "ben", "cleo", "dan"]
ROUNDS = 5
LOCK_SECONDS = float(os.environ.get("LOCK_SECONDS", "0.1"))
PAUSE_SECONDS = 0.3

# Gives the lock back, unless it ran out, and leaves a stamp for each of the others.
GIVE_BACK = """
if redis.call('GET', KEYS[1]) == ARGV[1] then
    redis.call('DEL', KEYS[1])
    redis.call('HSET', KEYS[2], unpack(ARGV, 2))
end"""


class Worker:
    def __init__(self, url: str, watch: int, name: str, log: str | None) -> None:
        self.name = name
        self.others = [it for it in NAMES if it != name]
        self.station = open_station(url, wullaphi.Watch(watch, NAMES), name)
        self.transport: Any = self.station.transport  # over Redis
        self.client = redis.Redis.from_url(url)
        keys = ("lock", "fence", "stamps", "store")
        self.lock, self.fence, self.stamps, self.store = (f"{watch}:{key}" for key in keys)
        self.random = random.Random(f"{name} {watch}")
        self.lines = Lines(log)
        self.log = HostLog(name, self.lines)

    def run(self, is_fenced: bool) -> None:
        for turn in range(ROUNDS):
            token = self.take_lock()
            pauses = turn == NAMES.index(self.name) or self.random.random() < 0.2
            is_before = self.random.random() < 0.5
            if pauses and is_before:
                self.pause()
            if is_fenced:
                self.write_fenced(turn, token)
            else:
                self.write(turn)
            if pauses and not is_before:
                self.pause()
            self.give_back()
        self.station.close()

    def pause(self) -> None:
        self.log.event("pauses")
        self.lines.keep()
        time.sleep(PAUSE_SECONDS)

    def take_lock(self) -> int:
        """Waits for the lock. The answer is its fencing token."""
        while not self.client.set(self.lock, self.name, nx=True, px=int(1000 * LOCK_SECONDS)):
            time.sleep(0.005)
        token: int = self.client.incr(self.fence)
        self.receive_from(self.stamps, f"takes the lock, token {token}")
        self.lines.keep()
        return token

    def receive_from(self, key: str, text: str, pipe: Any = None) -> None:
        """Takes what was left there: the stamp for this worker, and the clock of the log."""
        stamp, clock = self.client.hmget(key, self.name, "clock")
        if stamp is not None:
            self.station.receive(stamp.decode(), stored=True)
            (pipe or self.client).hdel(key, self.name)
        if clock is not None:
            self.log.receive(clock.decode(), text)
        else:
            self.log.event(text)

    def stamped(self, text: str) -> dict[str, str]:
        """A stamp for each of the others, under its name, and the clock of the log."""
        return {**{name: self.station.stamp(name) for name in self.others}, "clock": self.log.send(text)}

    def write(self, turn: int) -> None:
        """Writes to the store, which takes it."""
        with self.station.step() as pipe:
            self.station.observe(True, tag=turn)  # my condition: I write
            self.log.event("writes")
            pipe.hset(self.store, "written by", self.name)
            self.station.observe(False)
            self.log.event("has written")
        self.lines.keep()

    def write_fenced(self, turn: int, token: int) -> None:
        """Writes to the store, which takes it unless a later lock was there before."""
        try:
            with self.station.step() as pipe:
                self.transport.watch(self.store)
                if int(self.client.hget(self.store, "token") or 0) < token:
                    self.receive_from(self.store, "writes", pipe)
                    self.station.observe(True, tag=turn)
                    told = {"written by": self.name, "token": token, **self.stamped("has written")}
                    pipe.hset(self.store, mapping=told)
                else:
                    self.log.event("is refused by the store")
        except Changed:
            self.lines.drop()
            self.write_fenced(turn, token)
        self.lines.keep()

    def give_back(self) -> None:
        with self.station.step() as pipe:
            words = [word for named in self.stamped("is done with the lock").items() for word in named]
            pipe.eval(GIVE_BACK, 2, self.lock, self.stamps, self.name, *words)
        self.lines.keep()


class Lines:
    """The lines of a log, which go to its file once the step is done that they tell of."""

    def __init__(self, file: str | None) -> None:
        self.file = open(file, "ab", buffering=0) if file else None
        self.waiting = b""

    def __call__(self, line: str) -> None:
        self.waiting += line.encode() + b"\n"

    def keep(self) -> None:
        if self.file:
            self.file.write(self.waiting)
        self.waiting = b""

    def drop(self) -> None:
        self.waiting = b""


def work(url: str, watch: int, name: str, is_fenced: bool, log: str | None) -> None:
    Worker(url, watch, name, log).run(is_fenced)


def main(asked: argparse.Namespace) -> bool:
    if asked.log is not None:
        open(asked.log, "wb").close()
    told = asked.url, asked.watch
    workers = [multiprocessing.Process(target=work, args=(*told, name, asked.form == "fenced", asked.log))
               for name in NAMES]
    for worker in workers:
        worker.start()
    for worker in workers:
        worker.join()
    return any(worker.exitcode for worker in workers)


def words() -> argparse.Namespace:
    parser = argparse.ArgumentParser(description="Four workers share a lock of Redis.")
    parser.add_argument("url")
    parser.add_argument("watch", type=int)
    parser.add_argument("form", nargs="?", choices=["fenced"])
    parser.add_argument("--log", metavar="FILE")
    return parser.parse_args()


if __name__ == "__main__":
    sys.exit(main(words()))
