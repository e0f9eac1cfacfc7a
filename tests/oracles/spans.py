"""The lines that `wullaphi.otel` makes of random spans, by docs/traces.md.

The spans are those of calls that were made, told by clocks of hosts that are days apart, in ticks, of which some are
set back. Of each two points it is worked out whether the page puts the one before the other, and what follows from
these orders by the closure. Where they contradict each other, a fault must say so; else the lines of each host must
stand in an order that fits, and each clock must count what happened before."""
import contextlib
import io
import json
import pathlib
import random
import re
import tempfile
from collections import Counter
from collections.abc import Sequence
from typing import Any

from jaeger_json import document
from programs import Word
from wullaphi import otel

from . import asked
from .called import Attributes, Point, Told, calls

KINDS = frozenset(["ordered", "ordered by replies", "a contradiction"])
CONTRADICTIONS = re.compile(r"wullaphi\.otel: the clock of (\S+) has .* of span (\w{16}) .* before .* of span (\w{16}) "
                            r".*, and by the calls it came behind it: was the clock set back\?\n")


def identity(span: Told, names: Sequence[str]) -> Attributes:
    """What tells the host of a span: the attributes that are there."""
    if names:
        return tuple((name, {**dict(span.resource), **dict(span.own)}.get(name, "")) for name in names
                     if name in dict(span.resource) or name in dict(span.own))
    wanted = ["service.name", "service.namespace", "service.instance.id", "host.name", "process.pid"]
    return tuple((name, dict(span.resource)[name]) for name in wanted if name in dict(span.resource))


def host_names(spans: Sequence[Told], names: Sequence[str]) -> dict[Attributes, str]:
    """The name of each host."""
    hosts = {identity(span, names) for span in spans}
    services = Counter(host[0][1] for host in hosts)
    return {host: host[0][1] if services[host[0][1]] == 1 and not names else "/".join(value for _, value in host)
            for host in hosts}


def points_of(spans: Sequence[Told]) -> list[Point]:
    found = []
    for span in spans:
        found.append(Point(span, "start", span.start, f"start {span.name}"))
        found += [Point(span, "event", time, name) for time, name in span.events]
        found.append(Point(span, "end", span.end, f"end {span.name}"))
    return found


def servers_of(client: Told, spans: Sequence[Told]) -> list[Told]:
    """The servers' spans of a call that ended without an error."""
    if client.kind != "client" or client.is_error:
        return []
    return [span for span in spans if span.parent == client.number and span.trace == client.trace
            and span.kind == "server"]


def is_by_clock(one: Point, other: Point) -> bool:
    """Whether the clock of their host puts one before the other."""
    kinds = ["start", "event", "end"]
    return (one.time, kinds.index(one.kind)) < (other.time, kinds.index(other.kind))


def is_by_calls(one: Point, other: Point, answered: dict[int, list[Told]], replies: bool) -> bool:
    """Whether the calls put one before the other."""
    if one.kind == "start" and other.kind == "start":
        is_parent = (one.span.trace, one.span.number) == (other.span.trace, other.span.parent)
        return one.span is not other.span and (is_parent or (one.span.trace, one.span.number) in other.span.links)
    if other.kind == "end" and one.kind == ("end" if replies else "start"):
        return answered[other.span.number] == [one.span]
    return False


def is_parents_end(one: Point, other: Point) -> bool:
    """Whether both end, and the second is the parent."""
    return (one.kind == other.kind == "end" and one.time == other.time and one.span.parent == other.span.number
            and one.span.trace == other.span.trace)


def closure(before: list[set[int]]) -> list[int] | None:
    """The points before each and itself, as the bits of a number; nothing where they go round."""
    past = [0] * len(before)
    left = set(range(len(before)))
    while left:
        ready = [at for at in left if not before[at] & left]
        if not ready:
            return None
        for at in ready:
            past[at] = 1 << at
            for other in before[at]:
                past[at] |= past[other]
        left -= set(ready)
    return past


def orders(spans: Sequence[Told], points: Sequence[Point], hosts: Sequence[str], replies: bool) -> list[set[int]]:
    """The points that the page puts before each."""
    answered = {span.number: servers_of(span, spans) for span in spans}
    return [{at for at, one in enumerate(points) if at != to and (
        is_by_calls(one, other, answered, replies)
        or (hosts[at] == hosts[to] and (is_by_clock(one, other) or is_parents_end(one, other))))}
        for to, other in enumerate(points)]


def check_lines(lines: Sequence[dict[str, Any]], points: Sequence[Point], hosts: Sequence[str],
                before: list[set[int]]) -> None:
    """Whether the lines stand in an order that fits, and their clocks count what happened before."""
    places = {point.text: at for at, point in enumerate(points)}
    order = [places[line["event"]] for line in lines]
    assert sorted(order) == list(range(len(points))), "each point has a line"
    for host in set(hosts):
        lane = [at for at in order if hosts[at] == host]
        for earlier, later in zip(lane, lane[1:]):
            before[later] = before[later] | {earlier}
    past = closure(before)
    assert past is not None, "the order of a host's lines doesn't fit"
    masks = {host: sum(1 << at for at in range(len(points)) if hosts[at] == host) for host in set(hosts)}
    for line, at in zip(lines, order):
        counts = {host: bin(past[at] & mask).count("1") for host, mask in masks.items()}
        wanted = {"host": hosts[at], "clock": {host: count for host, count in counts.items() if count},
                  "event": points[at].text, "trace": f"{points[at].span.trace:032x}",
                  "span": f"{points[at].span.number:016x}"}
        assert line == wanted, f"{line} wanted {wanted}"


def answer(rng: random.Random, requests: list[dict[str, Any]], words: list[str]) -> tuple[int, str, str]:
    """The status, the log and what was said, of spans in files of one of the forms."""
    with tempfile.TemporaryDirectory() as room:
        path, log = pathlib.Path(room) / "spans.json", pathlib.Path(room) / "log"
        paths = [str(path)]
        if rng.random() < 0.4:
            path.write_text(json.dumps(document(requests), indent=rng.choice([None, 1])))
        elif rng.random() < 0.3:
            merged = {"resourceSpans": [it for request in requests for it in request["resourceSpans"]]}
            path.write_text(json.dumps(merged, indent=rng.choice([None, 1])))
        else:
            paths.append(str(path) + ".2")
            half = rng.randint(0, len(requests))
            for name, part in zip(paths, (requests[:half], requests[half:])):
                pathlib.Path(name).write_text("".join(json.dumps(it) + "\n" for it in part))
        said = io.StringIO()
        with contextlib.redirect_stderr(said):
            status = otel.main(["lines", *words, "--output", str(log), *paths])
        return status, log.read_text() if log.exists() else "", said.getvalue()


def compare(program: Word, rng: random.Random) -> str:
    spans, requests = calls(rng)
    names = ["service.instance.id", "thread.id"] if rng.random() < 0.25 else []
    replies = rng.random() < 0.3
    words = [*(["--host-attributes", ",".join(names)] if names else []), *(["--replies"] if replies else [])]
    status, log, said = answer(rng, requests, words)
    named = host_names(spans, names)
    points = points_of(spans)
    hosts = [named[identity(point.span, names)] for point in points]
    before = orders(spans, points, hosts, replies)
    shown = f"{words}\n{json.dumps(requests)}\n{status} {said}{log}"
    if closure(before) is None:
        told = CONTRADICTIONS.fullmatch(said)
        assert (status, log) == (2, "") and told is not None and told[1] in hosts, shown
        assert {told[2], told[3]} <= {f"{span.number:016x}" for span in spans}, shown
        return "a contradiction"
    ids = {(span.trace, span.number) for span in spans}
    missing = sum(1 for span in spans if span.parent and (span.trace, span.parent) not in ids)
    assert status == 0 and f" {len(spans)} spans, {missing} whose parent isn't there" in said, shown
    try:
        check_lines([json.loads(line) for line in log.splitlines()], points, hosts, before)
    except AssertionError as wrong:
        raise AssertionError(f"{wrong}\n{shown}") from None
    read = asked.answer_to(program, ["--form", "lines", "--check", "--while", f"{hosts[0]}=never"], log)
    assert (read.status, read.errors) == (1, ""), f"{read}\n{shown}"
    return "ordered by replies" if replies else "ordered"
