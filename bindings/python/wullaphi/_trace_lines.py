"""The points of spans as lines that `wcptrace --form lines` reads."""

from typing import Dict, Iterator, List, Tuple

from ._trace_order import Calls, Order
from ._trace_spans import Fault, Spans, place_of
from .log import LONGEST, _compact

# A clock, without the host's own number.
Others = Tuple[int, ...]


class Lines:
    """The lines, as often as they are asked for."""

    def __init__(self, spans: Spans, calls: Calls, order: Order, names: List[str]) -> None:
        self._spans, self._calls, self._order = spans, calls, order
        self._names = [_compact(name) for name in names]
        # What stands in a line beside its text is no longer than this.
        self._longest = sum(len(name) + 12 for name in self._names) + max(map(len, self._names), default=0) + 120

    def check(self) -> None:
        """Refuses a line that `wcptrace` doesn't read."""
        texts = map(self._spans.text, self._order.points)
        if any(len(_compact(text)) + self._longest > LONGEST for text in texts):
            self._check_whole()

    def _check_whole(self) -> None:
        """Looks at each line as it would be written."""
        for point, line in zip(self._order.points, self):
            if len(line) > LONGEST:
                span = self._spans.described(place_of(self._spans, point))
                raise Fault(f"span {span}: its line would be longer than {LONGEST:,} bytes")

    def __iter__(self) -> Iterator[str]:
        """Each line, with the clock that its host has then."""
        counts = [0] * len(self._names)
        clocks: List[Others] = [(0,) * len(self._names) for _ in self._names]
        spelled = [""] * len(self._names)
        kept: Dict[int, Tuple[Others, int, List[int]]] = {}
        for point in self._order.points:
            host = self._order.lane_of(point)
            counts[host] += 1
            before = clocks[host]
            for other in self._calls.before(point):
                sender = self._order.lane_of(other)
                if sender != host:
                    clocks[host] = _merged(clocks[host], sender, _heard(kept, other))
            if clocks[host] is not before:
                spelled[host] = self._spelled(clocks[host], host)
            uses = sum(1 for later in self._calls.behind(point) if self._order.lane_of(later) != host)
            if uses:
                kept[point] = (clocks[host], counts[host], [uses])
            yield self._line(point, host, counts[host], spelled[host])

    def _spelled(self, clock: Others, host: int) -> str:
        """The numbers of the other hosts as they stand in a line."""
        return "".join([f",{name}:{count}" for at, (name, count) in enumerate(zip(self._names, clock))
                        if count and at != host])

    def _line(self, point: int, host: int, count: int, others: str) -> str:
        place = place_of(self._spans, point)
        return (f'{{"host":{self._names[host]},"clock":{{{self._names[host]}:{count}{others}}},'
                f'"event":{_compact(self._spans.text(point))},'
                f'"trace":"{self._spans.trace_of(place)}","span":"{self._spans.id_of(place)}"}}')


def _merged(clock: Others, sender: int, told: Tuple[Others, int]) -> Others:
    """The clock of a host that hears of a point of the sender."""
    others, count = told
    if clock[sender] >= count:
        return clock
    merged = [one if one > other else other for one, other in zip(clock, others)]
    merged[sender] = count
    return tuple(merged)


def _heard(kept: Dict[int, Tuple[Others, int, List[int]]], point: int) -> Tuple[Others, int]:
    """The clock at a point. It is kept until all points behind it have heard of it."""
    others, count, uses = kept[point]
    uses[0] -= 1
    if not uses[0]:
        del kept[point]
    return others, count
