"""Random calls between services, and the spans that they leave."""
import random
from typing import Any, NamedTuple

Attributes = tuple[tuple[str, str], ...]

DAY = 86_400_000_000_000
TICK = 1000
KINDS = {"internal": 1, "server": 2, "client": 3, "producer": 4, "consumer": 5}


class Told(NamedTuple):
    """A span, as its host tells it."""

    trace: int
    number: int
    parent: int
    name: str
    kind: str
    is_error: bool
    start: int
    end: int
    resource: Attributes
    own: Attributes
    events: list[tuple[int, str]]
    links: list[tuple[int, int]]


class Point(NamedTuple):
    """A start, an end or an event."""

    span: Told
    kind: str
    time: int
    text: str


class Service:
    """A service instance, with a clock of its own."""

    def __init__(self, rng: random.Random, name: str, instance: str) -> None:
        self.resource: Attributes = (("service.name", name), ("service.instance.id", instance))
        self._ahead = rng.randint(0, 10 * DAY // TICK)
        self._coarse = rng.choice([1, 1, 1, 3, 8])
        self._set_back = rng.randint(5, 60) if rng.random() < 0.12 else None
        self._by = rng.randint(1, 40)

    def clock(self, now: int) -> int:
        """What the clock says at this moment."""
        if self._set_back is not None and now >= self._set_back:
            now -= self._by
        return (20_000 * DAY // TICK + self._ahead + now // self._coarse) * TICK


class Calls:
    """Calls as they are made, in moments that no host knows."""

    def __init__(self, rng: random.Random) -> None:
        self.rng = rng
        self.services = [Service(rng, f"s{number % 3}", f"{number}") for number in range(rng.randint(1, 5))]
        self.made: list[tuple[int, Told]] = []

    def span(self, trace: int, parent: int, begin: int, kind: str, of: Service, deep: int) -> int:
        """A span that begins at this moment, with those below it; and the moment of its end."""
        rng, number = self.rng, rng_id(self.rng)
        now = begin
        events: list[tuple[int, str]] = []
        at = len(self.made)
        self.made.append((begin, Told(0, 0, 0, "", "", False, 0, 0, (), (), [], [])))
        links = [(it.trace, it.number) for moment, it in self.made if moment < begin and it.number
                 and rng.random() < 0.04] + ([(1, 1)] if rng.random() < 0.02 else [])
        last, is_error = now, kind == "client" and rng.random() < 0.2
        for _ in range(rng.choice([0, 1, 1, 2, 3]) if deep else 0):
            now += rng.randint(0, 3)
            if rng.random() < 0.3:
                events.append((of.clock(now), f"event {len(events)} of {number:x}"))
            below = "server" if kind == "client" else rng.choice(["internal", "client", "client", "producer"])
            other = rng.choice(self.services) if kind in ("client", "producer") else of
            over = self.span(trace, number, now + 1, "consumer" if kind == "producer" else below, other, deep - 1)
            # A call waits for the start of the server at least, if it has no error; parallel calls wait for none.
            now = max(now, rng.choice([over, now + 2])) if rng.random() < 0.7 else now
            last = max(last, now + 2)
        end = max(last, now) + rng.randint(0, 4)
        if is_error and rng.random() < 0.5:
            end = begin
        self.made[at] = begin, Told(trace, number, parent, f"{kind} {number:x}", kind, is_error, of.clock(begin),
                                    max(of.clock(begin), of.clock(end)), of.resource,
                                    (("thread.id", rng.choice("12")),), events, links)
        return end


def rng_id(rng: random.Random) -> int:
    return rng.randint(1, (1 << 64) - 1)


def calls(rng: random.Random) -> tuple[list[Told], list[dict[str, Any]]]:
    """Spans of which some are missing, and the requests that tell them, in any order."""
    made = Calls(rng)
    for _ in range(rng.randint(1, 4)):
        made.span(rng.getrandbits(128) or 1, 0, rng.randint(0, 40), rng.choice(["internal", "client", "server"]),
                  rng.choice(made.services), rng.randint(0, 4))
    lost = rng.choice([0, 0, 0.1, 0.3])
    spans = [span for _, span in made.made if rng.random() >= lost][:40] or [made.made[0][1]]
    rng.shuffle(spans)
    return spans, [request(rng, span) for span in spans]


def attributes(of: Attributes) -> list[dict[str, Any]]:
    return [{"key": key, "value": {"stringValue": value}} for key, value in of]


def request(rng: random.Random, span: Told) -> dict[str, Any]:
    """A span as a request of OTLP/JSON, whose times are texts or numbers."""
    spelled: Any = rng.choice([int, str])
    told: dict[str, Any] = {
        "traceId": f"{span.trace:032x}", "spanId": f"{span.number:016x}", "name": span.name, "kind": KINDS[span.kind],
        "startTimeUnixNano": spelled(span.start), "endTimeUnixNano": spelled(span.end), "flags": 257,
        "attributes": attributes(span.own), "status": {"code": 2 if span.is_error else rng.choice([0, 1])},
        "events": [{"timeUnixNano": spelled(time), "name": name} for time, name in span.events],
        "links": [{"traceId": f"{trace:032x}", "spanId": f"{number:016x}"} for trace, number in span.links]}
    if span.parent:
        told["parentSpanId"] = f"{span.parent:016x}"
    return {"resourceSpans": [{"resource": {"attributes": attributes(span.resource)},
                               "scopeSpans": [{"scope": {}, "spans": [told]}]}]}
