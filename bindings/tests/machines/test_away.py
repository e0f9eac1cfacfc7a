"""Services that go on where the server of their watch is away: connections are cut, the server is killed or loses what
it had acknowledged, and services die and start again. Where by all messages, stamped or not, both could have held at
once, no report is `none`."""

from __future__ import annotations

import random
import time
from typing import Sequence

import pytest
from server import SECONDS, Server, collected, until

import wullaphi
from wullaphi.redis import open_station
from wullaphi.resuming import Resuming
from wullaphi.station import Interrupted, TakenOver

NAMES = ["ada", "ben", "keeper"]
STEPS = 60
SEEDS = 12
# What is left of the server's file at least.
LEAST_BYTES = 2_000


class Service:
    """What a service does, as brute force sees it: its clock after each of its messages, and when it held."""

    def __init__(self, number: int) -> None:
        self.number = number
        self.clocks = [[0] * len(NAMES)]
        self.held: set[int] = set()

    def event(self, known: Sequence[int] = ()) -> None:
        clock = [max(pair) for pair in zip(self.clocks[-1], known or self.clocks[-1])]
        clock[self.number] = len(self.clocks)
        self.clocks.append(clock)


def can_both_hold(one: Service, other: Service) -> bool:
    """Whether by all messages both could have held at once."""
    return any(one.clocks[at][other.number] <= its and other.clocks[its][one.number] <= at
               for at in one.held for its in other.held)


class Run:
    """A run of three services, over a server of its own."""

    def __init__(self, server: Server, seed: int, patience: float) -> None:
        self.server, self.patience = server, patience
        self.random = random.Random(seed)
        self.watch = wullaphi.Watch(1, NAMES)
        self.services = [Service(number) for number in range(len(NAMES))]
        self.processes = [self.start(number) for number in range(len(NAMES))]
        self.flying: list[tuple[int, str | None, list[int]]] = []

    def start(self, number: int) -> Resuming:
        end = time.monotonic() + SECONDS
        while time.monotonic() < end:
            try:
                station = open_station(self.server.url, self.watch, number, watched=number < 2, beat=None)
                return Resuming(station, self.patience)
            except Interrupted:
                time.sleep(0.05)
        raise RuntimeError("no station")

    def step(self) -> None:
        number = self.random.randrange(len(NAMES))
        service, process = self.services[number], self.processes[number]
        lot = self.random.random()
        mine = [it for it in self.flying if it[0] == number]
        if lot < 0.15 and number < 2:
            holds = self.random.random() < 0.3
            process.observe(holds)
            if holds:
                service.held.add(len(service.clocks) - 1)
        elif lot < 0.55:
            to = self.random.choice([it for it in range(len(NAMES)) if it != number])
            header = process.stamp(NAMES[to])
            service.event()
            self.flying.append((to, header, service.clocks[-1]))
        elif mine:
            message = self.random.choice(mine)
            self.flying.remove(message)
            try:
                if message[1] is not None:
                    process.receive(message[1])
            except wullaphi.Ahead:
                pass  # the server has lost the event: the message comes without its stamp
            service.event(message[2])

    def disturb(self) -> None:
        lot = self.random.randrange(20)
        if lot < 8:
            self.server.client.client_kill_filter(_type="normal", skipme=True)
        elif lot < 12:
            self.server.kill()
            for _ in range(self.random.randrange(20)):
                self.step()
            if self.random.random() < 0.3:
                self.die()
            self.server.start()
        elif lot < 14 and self.server.size() > 2 * LEAST_BYTES:
            self.server.lose(self.server.size() - self.random.randrange(1, LEAST_BYTES))
        elif lot < 16:
            self.die()
            self.revive()

    def die(self) -> None:
        """A service dies, with all that it keeps. It is started again later."""
        number = self.random.randrange(2)
        process = self.processes[number]

        def dead() -> None:
            raise TakenOver()

        setattr(process.station, "resume", dead)
        process._is_over = True
        process.station.transport.close()

    def revive(self) -> None:
        for number, process in enumerate(self.processes):
            if process._is_over:
                self.processes[number] = self.start(number)

    def are_back(self) -> bool:
        """Whether nobody is away."""
        self.revive()
        return not any(process.is_away for process in self.processes)

    def run(self, disturbances: int) -> tuple[str, bool]:
        """The report, and whether by brute force both could have held at once."""
        for at in range(STEPS):
            self.step()
            if disturbances and at % (STEPS // disturbances) == 0:
                self.disturb()
            self.revive()
        until(self.are_back)
        for process in self.processes:
            process.close()
        until(lambda: all(process.station.is_closed for process in self.processes))
        said = collected(self.server, "--watch", 1)[1]
        return said[0].split()[0] if said else "nothing", can_both_hold(*self.services[:2])


@pytest.mark.parametrize("seed", range(SEEDS))
def test_services_that_are_not_disturbed(server: Server, seed: int) -> None:
    told, could = Run(server, seed, 30.0).run(0)
    assert told == ("found" if could else "none")


@pytest.mark.parametrize("seed", range(SEEDS))
def test_services_that_are_disturbed(server: Server, seed: int) -> None:
    """Where both could have held at once, the report is never none."""
    told, could = Run(server, seed, 0.5).run(4)
    assert (told, could) != ("none", True)
    assert told in ("found", "none", "undecided"), "an answer"
