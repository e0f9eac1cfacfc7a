"""A worker of a mesh: `mesh.py URL FOLDER WORKERS NAME [lasts] [mistaken]`. It passes a token on, holds it now and then
for some steps, and greets others, by their inboxes on the server or by letters past it. Each step is one step of its
station, with its log of what it did. It may be killed at any moment, and is started again.

Once the file `calm` is in the folder it says goodbye to all, and ends when all have said so; the first one waits for
the file `over` too. The last one never holds, so some pair has no cut until all have ended. A mistaken one says now
and then that it holds the token which it has passed on. SIGUSR1 makes it resume. Its status says how it ended.
"""

from __future__ import annotations

import functools
import json
import pathlib
import random
import signal
import sys
from typing import Any, Sequence

import redis  # type: ignore[import]
from letters import Letter, Letters

import wullaphi
from wullaphi.redis import Spoilt, open_station
from wullaphi.station import Changed, Interrupted, OtherRun, TakenOver

NUMBER = 1
# What it ends with: it is started again where what the server has counts, and it is refused for good where that is
# spoilt. Any other status is a fault.
DONE, AGAIN, REFUSED = 0, 5, 6
# It waits so long for a message, in milliseconds, while it has other things to do, and while it has none.
BUSY, IDLE = 20, 200


def names_of(workers: int) -> list[str]:
    return [f"w{it}" for it in range(workers)]


def key(name: str, worker: int) -> str:
    """A key of the mesh's own."""
    return f"mesh:{name}:{worker}"


class Step:
    """What a worker does in one step of its station."""

    def __init__(self, worker: Worker, pipe: Any) -> None:
        self.me, self.station, self.pipe = worker.me, worker.station, pipe
        self.state = dict(worker.state)
        self.log: list[list[Any]] = []
        self.letters: list[tuple[int, Letter]] = []

    def receive(self, name: str, header: str, stored: bool) -> None:
        self.station.receive(header, stored)
        self.log.append(["receive", name])

    def _name(self) -> str:
        self.state["messages"] += 1
        name = f"{self.me}.{self.state['messages']}"
        self.log.append(["send", name])
        return name

    def send(self, worker: int, kind: str) -> None:
        name = self._name()
        self.pipe.xadd(key("inbox", worker), {"kind": kind, "name": name, "stamp": self.station.stamp(worker)})

    def write(self, worker: int) -> None:
        """A letter, which goes out once the step is done."""
        self.letters.append((worker, {"name": self._name(), "stamp": self.station.stamp(worker)}))

    def hold(self, tag: int) -> None:
        self.station.observe(True, tag)
        self.log.append(["holds", tag])

    def free(self) -> None:
        self.station.observe(False)
        self.log.append(["free"])

    def close(self) -> None:
        self.station.close()
        self.log.append(["close"])

    def save(self) -> None:
        self.pipe.set(key("state", self.me), json.dumps(self.state))
        if self.log:
            self.pipe.rpush(key("log", self.me), *map(json.dumps, self.log))


class Worker:
    """What it keeps is on the server: its state, and the log of all that it did."""

    def __init__(self, url: str, folder: str, workers: int, me: int, words: Sequence[str]) -> None:
        self.folder, self.workers, self.me = pathlib.Path(folder), workers, me
        self.others = [it for it in range(workers) if it != me]
        self.lasts, self.is_mistaken = "lasts" in words, "mistaken" in words
        self.is_asked_to_resume = False
        self.letters = Letters(self.folder, me)
        self.client = redis.Redis.from_url(url, socket_timeout=15)
        self.station = open_station(url, wullaphi.Watch(NUMBER, names_of(workers)), me, lasts=self.lasts, beat=0.3)
        self.read_state()

    def read_state(self) -> None:
        raw = self.client.get(key("state", self.me))
        new = {"place": "0", "steps": 0, "messages": 0, "token": self.me == 0, "holds": False, "goodbyes": 0,
               "said": False}
        self.state: dict[str, Any] = json.loads(raw) if raw else new

    def resume(self) -> None:
        self.is_asked_to_resume = False
        self.station.resume()
        self.read_state()

    def run(self) -> None:
        while not self.station.is_closed:
            if self.is_asked_to_resume:
                self.resume()
            is_busy = self.state["token"] or not self.state["said"] or self.may_end(self.state)
            got = self.client.xread({key("inbox", self.me): self.state["place"]}, count=1,
                                    block=BUSY if is_busy else IDLE)
            letter = self.letters.next()
            if got or letter or is_busy:
                try:
                    self.step(got[0][1][0] if got else None, letter)
                except OtherRun as error:  # the letter is lost
                    tell(error)
            else:
                self.station.check()

    def step(self, message: Any, letter: Letter | None) -> None:
        with self.station.step() as pipe:
            step = Step(self, pipe)
            step.state["steps"] += 1
            if letter:
                step.receive(letter["name"], letter["stamp"], stored=False)
            if message:
                self.take(step, *message)
            self.act(step, random.Random(f"{self.me} {step.state['steps']} {step.state['place']}"))
            step.save()
        self.state = step.state
        for worker, letter in step.letters:
            self.letters.send(worker, letter)

    def take(self, step: Step, entry: bytes, message: dict[bytes, bytes]) -> None:
        """Takes a message from the inbox."""
        step.state["place"] = entry.decode()
        step.receive(message[b"name"].decode(), message[b"stamp"].decode(), stored=True)
        step.state["token"] |= message[b"kind"] == b"token"
        step.state["goodbyes"] += message[b"kind"] == b"goodbye"

    def act(self, step: Step, lot: random.Random) -> None:
        state, tag = step.state, self.me * 1_000_000 + step.state["steps"]
        if state["token"]:
            self.hold(step, lot, tag)
        elif state["holds"] and (not self.lasts or lot.random() < 0.2):
            state["holds"] = False
            step.free()
        if not state["said"]:
            if lot.random() < 0.2:
                step.send(lot.choice(self.others), "greeting")
            if lot.random() < 0.2:
                step.write(lot.choice(self.others))
            if (self.folder / "calm").exists():
                state["said"] = True
                for worker in self.others:
                    step.send(worker, "goodbye")
        if self.may_end(state):
            step.close()

    def may_end(self, state: dict[str, Any]) -> bool:
        return bool(state["goodbyes"] == len(self.others) and state["said"] and (
            self.me != 0 or (self.folder / "over").exists()))

    def hold(self, step: Step, lot: random.Random, tag: int) -> None:
        """Holds the token, and mostly passes it on. Where what holds lasts, it is said once."""
        state, may_hold = step.state, self.me != self.workers - 1
        if may_hold and not (self.lasts and state["holds"]):
            step.hold(tag)
        state["holds"] = may_hold
        if lot.random() < 0.3:
            step.send(lot.choice(self.others), "greeting")
            if may_hold and not self.lasts:
                step.hold(tag + 500_000)
        if lot.random() < (0.4 if self.lasts else 0.7) or state["said"]:
            if may_hold:
                step.free()
            state["token"] = state["holds"] = False
            step.send((self.me + 1) % self.workers, "token")
            if self.is_mistaken and lot.random() < 0.15:
                state["holds"] = True
                step.hold(tag)


class Life:
    """A worker from its start to its end, through all that it may go on after."""

    def __init__(self, url: str, folder: str, workers: int, me: int, words: Sequence[str]) -> None:
        self._make = functools.partial(Worker, url, folder, workers, me, words)
        self.worker: Worker | None = None
        signal.signal(signal.SIGUSR1, self._ask_to_resume)

    def _ask_to_resume(self, *_: object) -> None:
        if self.worker:
            self.worker.is_asked_to_resume = True

    def run(self) -> int:
        """The status with which it ends."""
        try:
            self.worker = self._make()
            while not self.worker.station.is_closed:
                self._go_on(self.worker)
            return DONE
        except Spoilt as error:
            tell(error)
            return REFUSED
        except (Interrupted, TakenOver, redis.RedisError) as error:
            tell(error)
            return AGAIN

    def _go_on(self, worker: Worker) -> None:
        """What the server has counts. Half of the workers go on in memory, the others start again."""
        try:
            worker.run()
        except (Interrupted, redis.RedisError) as error:
            tell(error)
            if worker.me % 2:
                raise
            worker.resume()
        except Changed as error:  # nothing was done, so it is done again
            tell(error)


def tell(error: Exception) -> None:
    print(f"{type(error).__name__}: {' '.join(str(error).split())}", file=sys.stderr, flush=True)


def main(url: str, folder: str, workers: str, me: str, *words: str) -> int:
    return Life(url, folder, int(workers), int(me), words).run()


if __name__ == "__main__":
    sys.exit(main(*sys.argv[1:]))
