"""The spans of a set of traces, in columns: a million of them fit into some hundred megabytes."""

from array import array
from typing import Any, Dict, List, NamedTuple, Sequence, Set, Tuple

from ._trace_json import Wrong

SERVER, CLIENT = 2, 3

# What tells a host from others: attributes with their values.
Identity = Tuple[Tuple[str, str], ...]

# The attributes that tell service instances apart, where they are there.
SERVICE = "service.name"
INSTANCE = ("service.namespace", "service.instance.id", "host.name", "process.pid")


class Fault(Exception):
    """The spans give no log. The text says which span or which place is to blame."""


class Span(NamedTuple):
    """One span, as a reader finds it. An id of 0 is none."""

    trace: int
    number: int
    parent: int
    name: str
    kind: int
    is_error: bool
    start: int
    end: int
    host: Identity
    attributes: str  # as they stand behind its texts
    events: Sequence[Tuple[int, str]]
    links: Sequence[Tuple[int, int]]


class Naming(NamedTuple):
    """By which attributes hosts are told apart, and whether texts have the attributes."""

    attributes: Sequence[str] = ()
    has_texts: bool = False

    def needs_own(self) -> bool:
        """Whether the attributes of each span count."""
        return self.has_texts or bool(self.attributes)

    def identity(self, resource: Dict[str, str], own: Dict[str, str]) -> Identity:
        """The host of a span with these attributes, on a resource with those."""
        if self.attributes:
            found = {**resource, **own}
            if not any(name in found for name in self.attributes):
                raise Wrong(f"it has none of the attributes {', '.join(self.attributes)}")
            return tuple((name, found[name]) for name in self.attributes if name in found)
        if SERVICE not in resource:
            raise Wrong(f"its resource has no {SERVICE}: name other attributes by --host-attributes")
        return tuple((name, resource[name]) for name in (SERVICE, *INSTANCE) if name in resource)

    def texts(self, attributes: Dict[str, str]) -> str:
        """Attributes as they stand behind a text."""
        return "".join([f" {key}={value}" for key, value in attributes.items()]) if self.has_texts else ""


class Interned:
    """Values by their numbers, in the order in which they came."""

    def __init__(self) -> None:
        self.values: List[Any] = []
        self._numbers: Dict[Any, int] = {}

    def number(self, value: Any) -> int:
        """The number of a value."""
        number = self._numbers.setdefault(value, len(self.values))
        if number == len(self.values):
            self.values.append(value)
        return number


class Spans:
    """All spans that were read, each by its place."""

    def __init__(self) -> None:
        self._places: Dict[int, int] = {}
        self._traces, self._texts, self._hosts = Interned(), Interned(), Interned()
        self._trace, self._number, self._parent = array("I"), array("Q"), array("Q")
        self._name, self._attributes = array("I"), array("I")
        self.kind, self.is_error, self.host = array("B"), array("B"), array("I")
        self.start, self.end = array("Q"), array("Q")
        self.event_of, self.event_time, self._event_text = array("I"), array("Q"), array("I")
        self._link_of, self._link_trace, self._link_number = array("I"), array("I"), array("Q")

    def __len__(self) -> int:
        return len(self.start)

    def _key(self, span: Span) -> int:
        return self._traces.number(span.trace) << 64 | span.number

    def check(self, batch: Sequence[Span]) -> None:
        """Refuses spans that can't be added, one after another."""
        seen: Set[int] = set()
        for span in batch:
            key = self._key(span)
            if key in self._places or key in seen:
                raise Wrong(f"span {_described(span)}: it comes twice")
            if span.end < span.start:
                raise Wrong(f"span {_described(span)}: it ends before it starts")
            seen.add(key)

    def add(self, span: Span) -> None:
        """One more span, which `check` has seen."""
        place, key = len(self), self._key(span)
        self._places[key] = place
        self._trace.append(key >> 64)
        self._number.append(span.number)
        self._parent.append(span.parent)
        self._name.append(self._texts.number(span.name))
        self._attributes.append(self._texts.number(span.attributes))
        self.kind.append(span.kind)
        self.is_error.append(span.is_error)
        self.host.append(self._hosts.number(span.host))
        self.start.append(span.start)
        self.end.append(span.end)
        for time, text in span.events:
            self.event_of.append(place)
            self.event_time.append(time)
            self._event_text.append(self._texts.number(text))
        for trace, number in span.links:
            self._link_of.append(place)
            self._link_trace.append(self._traces.number(trace))
            self._link_number.append(number)

    def parents(self) -> Tuple["array[int]", int]:
        """The place of each span's parent, -1 where there is none; and how many parents aren't there."""
        found, missing = array("q"), 0
        for trace, parent in zip(self._trace, self._parent):
            place = self._places.get(trace << 64 | parent, -1) if parent else -1
            missing += place < 0 < parent
            found.append(place)
        return found, missing

    def links(self) -> Tuple["array[int]", "array[int]", int]:
        """The links, as the places of the spans that have them and of the linked ones; and how many of those aren't
        there. A link of a span to itself orders nothing."""
        linking, linked, missing = array("q"), array("q"), 0
        for of, trace, number in zip(self._link_of, self._link_trace, self._link_number):
            place = self._places.get(trace << 64 | number, -1)
            missing += place < 0
            if place not in (-1, of):
                linking.append(of)
                linked.append(place)
        return linking, linked, missing

    def text(self, point: int) -> str:
        """The text of a point: the starts come first, then the ends, then the events."""
        span = point % len(self) if point < 2 * len(self) else -1
        if span < 0:
            return str(self._texts.values[self._event_text[point - 2 * len(self)]])
        word = "start" if point < len(self) else "end"
        return f"{word} {self._texts.values[self._name[span]]}{self._texts.values[self._attributes[span]]}"

    def trace_of(self, place: int) -> str:
        """The id of a span's trace, in hexadecimal digits."""
        return f"{self._traces.values[self._trace[place]]:032x}"

    def id_of(self, place: int) -> str:
        """The id of a span, in hexadecimal digits."""
        return f"{self._number[place]:016x}"

    def described(self, place: int) -> str:
        """A span as a fault names it."""
        return f"{self.id_of(place)} ({self._texts.values[self._name[place]]}) of trace {self.trace_of(place)}"

    def names(self, is_whole: bool) -> List[str]:
        """The names of the hosts: of a service with one instance that of the service, unless names are whole; else the
        values of the attributes."""
        services = [identity[0][1] for identity in self._hosts.values]
        names = [services[at] if services.count(services[at]) == 1 and not is_whole else
                 "/".join([value for _, value in identity]) for at, identity in enumerate(self._hosts.values)]
        for name in names:
            if names.count(name) > 1 or not name or "=" in name:
                raise Fault(f"no host can be named {name!r}: name other attributes by --host-attributes"
                            if names.count(name) == 1 else
                            f"two hosts would be named {name!r}: name other attributes by --host-attributes")
        return names

    def untold(self) -> List[str]:
        """The services of which nothing tells one instance from another."""
        return [identity[0][1] for identity in self._hosts.values if len(identity) == 1]


def place_of(spans: Spans, point: int) -> int:
    """The span of a point."""
    count = len(spans)
    return point % count if point < 2 * count else spans.event_of[point - 2 * count]


def _described(span: Span) -> str:
    return f"{span.number:016x} ({span.name}) of trace {span.trace:032x}"
