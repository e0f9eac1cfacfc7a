"""The order of the points of spans: which happened before which, by the hosts' own clocks and by the calls.

A point is a start, an end or an event. With `n` spans, `p` is the start of span `p`, `n + p` its end, and `2 * n + e`
the event `e`."""

import heapq
from array import array
from typing import Iterator, List, Sequence, Set, Tuple

from ._trace_spans import CLIENT, SERVER, Fault, Spans, place_of

NOTHING = -1
UNSEEN = 0xFFFF_FFFF


class Calls:
    """Which points the calls put before which."""

    def __init__(self, spans: Spans, replies: bool) -> None:
        self._spans, self._count = spans, len(spans)
        self.parents, self.missing = spans.parents()
        linking, linked, self.missing_links = spans.links()
        self._children = Lists(self._count, self.parents, range(self._count))
        self._linking = Lists(self._count, linked, linking)
        self._linked = Lists(self._count, linking, linked)
        self._answer = self._answers()
        # The point of the server's span that is before the client's end.
        self._replied = self._count if replies else 0

    def _answers(self) -> "array[int]":
        """The one server's span below each client's span that ended without an error; NOTHING where there is none, or
        more than one."""
        found = array("q", [NOTHING]) * self._count
        several = bytearray(self._count)
        kinds, errors = self._spans.kind, self._spans.is_error
        for at, parent in enumerate(self.parents):
            if parent >= 0 and kinds[at] == SERVER and kinds[parent] == CLIENT and not errors[parent]:
                several[parent] = several[parent] or found[parent] != NOTHING
                found[parent] = at
        for at in range(self._count):
            if several[at]:
                found[at] = NOTHING
        return found

    def before(self, point: int) -> Iterator[int]:
        """The points that come right before this one."""
        if point < self._count:
            if self.parents[point] >= 0:
                yield self.parents[point]
            yield from self._linked.of(point)
        elif point < 2 * self._count:
            span = point - self._count
            if self._answer[span] != NOTHING:
                yield self._replied + self._answer[span]
            for child in self._children.of(span):
                if self._end_together(child, span):
                    yield self._count + child

    def behind(self, point: int) -> Iterator[int]:
        """The points that come right behind this one."""
        if point < self._count:
            yield from self._children.of(point)
            yield from self._linking.of(point)
        server, ended = point - self._replied, point - self._count
        if 0 <= server < self._count and self.parents[server] >= 0 and self._answer[self.parents[server]] == server:
            yield self._count + self.parents[server]
        if 0 <= ended < self._count and self.parents[ended] >= 0 and self._end_together(ended, self.parents[ended]):
            yield self._count + self.parents[ended]

    def _end_together(self, child: int, parent: int) -> bool:
        """Whether the clock of a host doesn't order the ends of a span and of its parent, which comes behind then."""
        hosts, ends = self._spans.host, self._spans.end
        return hosts[child] == hosts[parent] and ends[child] == ends[parent]

    def check(self) -> None:
        """Refuses a span that is above itself."""
        seen = array("I", [UNSEEN]) * self._count
        for first in range(self._count):
            at = first
            while at >= 0 and seen[at] == UNSEEN:
                seen[at] = first
                at = self.parents[at]
            if at >= 0 and seen[at] == first:
                raise Fault(f"span {self._spans.described(at)} is above its own parent, span "
                            f"{self._spans.described(self.parents[at])}")


class Lists:
    """A list of places for each place, in columns: each value is in the list of its owner, if that is one."""

    def __init__(self, count: int, owners: "array[int]", values: Sequence[int]) -> None:
        self._first = array("q", [NOTHING]) * count
        self._next = array("q", [NOTHING]) * len(owners)
        self._values = values
        for at in range(len(owners) - 1, -1, -1):
            if owners[at] >= 0:
                self._next[at] = self._first[owners[at]]
                self._first[owners[at]] = at

    def of(self, place: int) -> Iterator[int]:
        """The list of a place."""
        at = self._first[place]
        while at >= 0:
            yield self._values[at]
            at = self._next[at]


class Order:
    """An order of all points that fits, by their times as far as it can."""

    def __init__(self, spans: Spans, calls: Calls, names: Sequence[str]) -> None:
        self._spans, self._calls, self._names, self._count = spans, calls, names, len(spans)
        self._times = spans.start + spans.end + spans.event_time
        calls.check()
        self._lanes = self._sorted()
        self._needs = array("I", [sum(1 for _ in calls.before(point)) for point in range(len(self._times))])
        self._is_open = bytearray(len(self._times))
        # Of each lane the places from which and up to which its points are open, and how many of them aren't done.
        self._first, self._opened, self._left = ([0] * len(self._lanes) for _ in range(3))
        self._ready: List[Tuple[int, int]] = []
        self.points = self._fitting()

    def lane_of(self, point: int) -> int:
        """The host of a point."""
        return self._spans.host[place_of(self._spans, point)]

    def _sorted(self) -> List["array[int]"]:
        """The points of each host by its clock: of equal times first the starts, then the events, then the ends."""
        lanes: List["array[int]"] = [array("I") for _ in range(max(self._spans.host, default=NOTHING) + 1)]
        for points in (range(self._count), range(2 * self._count, len(self._times)),
                       range(self._count, 2 * self._count)):
            for point in points:
                lanes[self.lane_of(point)].append(point)
        return [array("I", sorted(lane, key=self._times.__getitem__)) for lane in lanes]

    def _fitting(self) -> "array[int]":
        """Takes the earliest of the points that no other must come before, as long as there are any."""
        points = array("I")
        for lane in range(len(self._lanes)):
            self._open(lane)
        while self._ready:
            _, point = heapq.heappop(self._ready)
            points.append(point)
            self._is_open[point] = 0
            for later in self._calls.behind(point):
                self._needs[later] -= 1
                if self._is_open[later] and not self._needs[later]:
                    heapq.heappush(self._ready, (self._times[later], later))
            lane = self.lane_of(point)
            self._left[lane] -= 1
            if not self._left[lane]:
                self._open(lane)
        if len(points) < len(self._times):
            raise Fault(self._contradiction(points))
        return points

    def _open(self, lane: int) -> None:
        """Opens the next point of a lane. Starts of the same time are opened at once, and so are ends: the clock orders
        none of them."""
        points, first = self._lanes[lane], self._opened[lane]
        if first == len(points):
            return
        last, alike = first + 1, self._alike(points[first])
        while last < len(points) and self._alike(points[last]) == alike:
            last += 1
        self._first[lane], self._opened[lane], self._left[lane] = first, last, last - first
        for point in points[first:last]:
            self._is_open[point] = 1
            if not self._needs[point]:
                heapq.heappush(self._ready, (self._times[point], point))

    def _alike(self, point: int) -> Tuple[int, int]:
        """The time of a point and its kind."""
        return self._times[point], point // self._count if point < 2 * self._count else point

    def _contradiction(self, points: "array[int]") -> str:
        """What keeps the open points from being done: a way back from point to point comes round, and one step of it is
        an order by a host's clock, or all are links."""
        done = set(points)
        point = next(at for lane in range(len(self._lanes)) for at in self._waiting(lane, done))
        seen: List[int] = []
        steps: List[Tuple[int, int]] = []
        while point not in seen:
            seen.append(point)
            needed = next(at for at in self._calls.before(point) if at not in done)
            point = needed if self._is_open[needed] else next(self._waiting(self.lane_of(needed), done))
            steps.append((point, needed))
        begin = seen.index(point)
        for first, second in steps[begin:]:
            if first != second:
                host = self._names[self.lane_of(first)]
                return (f"the clock of {host} has {self._said(first)} before {self._said(second)}, and by the calls it "
                        "came behind it: was the clock set back?")
        return f"{self._said(seen[begin])} and {self._said(seen[-1])} each come behind the other by their links"

    def _waiting(self, lane: int, done: Set[int]) -> Iterator[int]:
        """The open points of a lane that wait."""
        return (at for at in self._lanes[lane][self._first[lane]:self._opened[lane]] if at not in done)

    def _said(self, point: int) -> str:
        """A point as the fault names it."""
        word = ("the start", "the end")[point // self._count] if point < 2 * self._count else "an event"
        return f"{word} of span {self._spans.described(place_of(self._spans, point))}"
