"""Logs with vector clocks, made by hosts that send each other messages. Each event counts itself in the host's own
number."""
import json
import random
from collections.abc import Iterable, Iterator, Mapping, Sequence
from typing import TypeVar

Clock = dict[str, int]
# The host, its clock, and what happened.
Event = tuple[str, Clock, str]
# An event as a line may have it, whose clock may hold what is no number.
Written = tuple[str, Mapping[str, object], str]
# What names a message; and an event of a log with messages: the host, what happened, what it receives, what it sends.
Id = str | int
Exchange = tuple[str, str, list[Id], list[Id]]
# An event of a log of either kind.
Logged = TypeVar("Logged", Event, Exchange)


class Host:
    def __init__(self, name: str) -> None:
        self.name = name
        self.clock: Clock = {}
        self.inbox: list[Clock] = []

    def event(self, text: str, known: Clock | None = None) -> Event:
        """An event of the host, which may have got a message: (host, clock, text)."""
        for name, number in (known or {}).items():
            self.clock[name] = max(self.clock.get(name, 0), number)
        self.clock[self.name] = self.clock.get(self.name, 0) + 1
        return self.name, dict(self.clock), text


def events(rng: random.Random, names: Iterable[str], turns: int, words: Sequence[str]) -> Iterator[Event]:
    """So many events, in the order in which they happened."""
    hosts = [Host(name) for name in names]
    for _ in range(turns):
        host = rng.choice(hosts)
        word = rng.choice(words)
        if host.inbox and rng.random() < 0.5:
            yield host.event("gets a message, " + word, host.inbox.pop(rng.randrange(len(host.inbox))))
        elif len(hosts) > 1 and rng.random() < 0.5:
            sent = host.event("sends a message, " + word)
            rng.choice([other for other in hosts if other is not host]).inbox.append(sent[1])
            yield sent
        else:
            yield host.event(word)


def waiting(names: Iterable[str], turns: int) -> Iterator[Event]:
    """Each host has an event; the first knows of all of them, and has so many more, at each of which it holds a
    lease."""
    hosts = [Host(name) for name in names]
    for host in hosts[1:]:
        yield host.event("works")
    for host in hosts[1:]:
        yield hosts[0].event("gets a message", host.clock)
    for _ in range(turns):
        yield hosts[0].event("holds the lease")


def leasing(rng: random.Random, names: Iterable[str], turns: int) -> Iterator[Event]:
    """About so many events: one host at a time holds a lease, and passes it on, so that no two ever hold it at once."""
    hosts = [Host(name) for name in names]
    holder = hosts[0]
    for _ in range(turns):
        host = rng.choice(hosts)
        if host is not holder:
            yield host.event("works on item %d" % rng.randrange(39))
        elif rng.random() < 0.5:
            yield host.event("holds the lease")
        else:
            holder = rng.choice([other for other in hosts if other is not host])
            passed = host.event("passes the lease")
            yield passed
            yield holder.event("gets the lease", passed[1])


def without_some(rng: random.Random, log: Iterable[Logged], share: float) -> list[Logged]:
    """What a logger keeps that loses this share of the events."""
    return [event for event in log if rng.random() >= share]


def in_other_order(rng: random.Random, log: Iterable[Logged]) -> list[Logged]:
    """The events of each host in their order, those of different hosts in any."""
    queues: dict[str, list[Logged]] = {}
    for event in log:
        queues.setdefault(event[0], []).append(event)
    mixed = []
    while queues:
        name = rng.choice(sorted(queues))
        mixed.append(queues[name].pop(0))
        if not queues[name]:
            del queues[name]
    return mixed


def text_of(form: str, log: Iterable[Written]) -> str:
    """The log in one of the forms."""
    lines = []
    for host, clock, text in log:
        if form == "lines":
            lines.append(json.dumps({"host": host, "clock": clock, "event": text}))
        else:
            pair = [host + " " + json.dumps(clock), text]
            lines += pair if form == "shiviz" else pair[::-1]
    return "".join(line + "\n" for line in lines)


def main() -> None:
    """python3 bench/trace_logs.py HOSTS EVENTS [waiting|leasing]: a log in the form `shiviz`; a host holds a lease at
    one event of forty, or, with `waiting`, at each event of the first host and none of the others, or, with `leasing`,
    one host at a time, so that no two ever hold it at once."""
    import sys

    names = ["host%d" % number for number in range(int(sys.argv[1]))]
    turns = int(sys.argv[2])
    words = ["holds the lease"] + ["works on item %d" % item for item in range(39)]
    rng = random.Random(1)
    log = waiting(names, turns) if "waiting" in sys.argv else events(rng, names, turns, words)
    if "leasing" in sys.argv:
        log = leasing(rng, names, turns)
    for event in log:
        sys.stdout.write(text_of("shiviz", [event]))


if __name__ == "__main__":
    main()
