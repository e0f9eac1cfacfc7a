"""Forty hosts pass a token on, and some give it back too late; all log to one stream of a Redis server. What `wcptrace`
answers to `wcpcollect --logs` for two of the hosts is what brute force says of the messages, without clocks."""

from __future__ import annotations

import itertools
import json
import queue
import random
import re
import threading
from typing import Iterator, Optional, Tuple

import pytest
from server import SECONDS, Server, collected
from traces import traced

from wullaphi.log import HostLog, named_anew, stream

HOSTS = 40
ROUNDS = 2
KEY = "logs"


Inbox = queue.SimpleQueue[Tuple[Optional[str], Optional[str], Optional[int]]]


class Host(threading.Thread):
    """Takes the token, holds it, and passes it on; now and then it greets another host."""

    def __init__(self, server: Server, number: int, way: list[int], inboxes: list[Inbox]) -> None:
        super().__init__(daemon=True)
        client = server.client
        self.number, self.way, self.inboxes = number, way, inboxes
        self.log = HostLog(named_anew(client, KEY, f"host{number}"), stream(client, KEY))
        self.random = random.Random(number)
        self.is_late = number % 10 == 3
        self.messages = 0

    def send(self, to: int, text: str, step: int | None = None) -> None:
        self.messages += 1
        name = f"m{self.number}.{self.messages}"
        self.inboxes[to].put((self.log.send(f"sends {name}{text}"), name, step))

    def run(self) -> None:
        while True:
            header, name, step = self.inboxes[self.number].get()
            if header is not None:
                self.log.receive(header, f"receives {name}")
            if step == len(self.way):
                return
            if step is not None:
                self.hold(step)

    def hold(self, step: int) -> None:
        self.log.event("holds the token")
        self.greet()
        if not self.is_late:
            self.log.event("gives it back")
        self.pass_on(step)
        if self.is_late:
            self.greet()
            self.log.event("gives it back")

    def pass_on(self, step: int) -> None:
        """To the next of the way. At its end, each host is told that it is over."""
        if step + 1 < len(self.way):
            self.send(self.way[step + 1], " with the token", step + 1)
        else:
            for inbox in self.inboxes:
                inbox.put((None, None, len(self.way)))

    def greet(self) -> None:
        for _ in range(self.random.randrange(3)):
            self.send(self.random.choice([it for it in range(HOSTS) if it != self.number]), " to greet")


def log_of(server: Server) -> tuple[int | str, list[str], str]:
    """The lines of a run."""
    way = [it for seed in range(ROUNDS) for it in random.Random(seed).sample(range(HOSTS), HOSTS)]
    way = [it for it, before in zip(way, [-1, *way]) if it != before]
    inboxes: list[Inbox] = [queue.SimpleQueue() for _ in range(HOSTS)]
    hosts = [Host(server, number, way, inboxes) for number in range(HOSTS)]
    for host in hosts:
        host.start()
    inboxes[way[0]].put((None, None, 0))
    for host in hosts:
        host.join(SECONDS)
    return collected(server, "--logs", KEY)


class History:
    """What the texts of the lines say: the events of each host, and which of them happened before which."""

    def __init__(self, lines: list[str]) -> None:
        self.events = [json.loads(line) for line in lines]
        self.of: dict[str, list[int]] = {}
        sent: dict[str, int] = {}
        self.before: list[set[int]] = []
        for at, event in enumerate(self.events):
            own = self.of.setdefault(event["host"], [])
            known = set(self.before[own[-1]]) if own else set()
            if match := re.match(r"receives (\S+)", event["event"]):
                known |= self.before[sent[match[1]]]
            if match := re.match(r"sends (\S+)", event["event"]):
                sent[match[1]] = at
            self.before.append(known | {at})
            own.append(at)

    def holding(self, host: str) -> Iterator[tuple[int, int | None]]:
        """The events at which the host holds the token, each with the one that ends it."""
        holds = False
        own = self.of[host]
        for at, following in zip(own, [*own[1:], None]):
            text = self.events[at]["event"]
            holds = (holds or text.startswith("holds")) and not text.startswith("gives")
            if holds:
                yield at, following

    def earliest(self, one: str, other: str) -> tuple[int, ...] | None:
        """The lines of the first moment at which both hold the token, by brute force."""
        pairs = [(it, at) for (it, its_end), (at, end) in itertools.product(self.holding(one), self.holding(other))
                 if its_end not in self.before[at] and end not in self.before[it]]
        return tuple(min(places) + 1 for places in zip(*pairs)) if pairs else None


@pytest.fixture(scope="module")
def told() -> Iterator[tuple[Server, list[str]]]:
    """A server, and the lines that the hosts have logged to it."""
    with Server() as server:
        status, lines, errors = log_of(server)
        assert (status, errors) == (0, ""), "the lines are printed"
        yield server, lines


def test_that_all_hosts_log(told: tuple[Server, list[str]]) -> None:
    assert len(History(told[1]).of) == HOSTS


def test_a_host_that_starts_again(told: tuple[Server, list[str]]) -> None:
    """It has a name of its own."""
    client = told[0].client
    name = named_anew(client, KEY, "host0")
    names = {it.decode() for it, host in client.hgetall(f"{KEY}:runs").items() if host == b"host0"}
    assert (name in names, len(names), all(it.startswith("host0.") for it in names)) == (True, 2, True)


def test_what_is_found_of_each_two_hosts(told: tuple[Server, list[str]]) -> None:
    history = History(told[1])
    text = "".join(line + "\n" for line in told[1])
    pairs = list(itertools.combinations(sorted(history.of), 2))
    found = 0
    for one, other in pairs:
        words = [word for host in (one, other) for word in ("--from", f"{host}=^holds", "--until", f"{host}=^gives")]
        wanted = history.earliest(one, other)
        found += wanted is not None
        assert traced(text, words) == wanted, f"{one} and {other}"
    assert 0 < found < len(pairs), "some pairs are found, and some aren't"
