"""The span processor of `wullaphi.otel`, by a stand-in of the interface of OpenTelemetry's SDK for Python, of which
Debian has no package."""

from __future__ import annotations

import enum
import io
import json
import logging
import os
import pathlib
import threading
from types import SimpleNamespace
from typing import Any

import pytest
from shared import run_together
from spans import Command

from wullaphi.otel import SpanFile, to_collector


class Kind(enum.Enum):
    """SpanKind of the API."""

    INTERNAL = 0
    SERVER = 1
    CLIENT = 2
    PRODUCER = 3
    CONSUMER = 4


class Code(enum.Enum):
    """StatusCode of the API."""

    UNSET = 0
    OK = 1
    ERROR = 2


class Ended:
    """ReadableSpan of the SDK, as far as a processor reads it."""

    def __init__(self, number: int, parent: int | None = None, kind: Kind = Kind.INTERNAL, code: Code = Code.UNSET,
                 attributes: dict[str, Any] | None = None, service: str = "ada") -> None:
        self.name = f"span {number}"
        self._number = number
        self.parent = None if parent is None else self._context(parent)
        self.kind, self.status = kind, SimpleNamespace(status_code=code, description=None)
        self.start_time, self.end_time = 1_000 + number, 2_000 - number
        self.attributes = attributes
        self.events = [SimpleNamespace(name="event", timestamp=1_500, attributes={"n": 1})] if attributes else ()
        self.links = [SimpleNamespace(context=self._context(77), attributes=None)] if attributes else ()
        self.resource = SimpleNamespace(attributes={"service.name": service, "process.pid": 7})
        self.instrumentation_scope = SimpleNamespace(name="lease", version=None)

    @staticmethod
    def _context(number: int) -> Any:
        return SimpleNamespace(trace_id=5, span_id=number, is_remote=False, trace_flags=1)

    def get_span_context(self) -> Any:
        return self._context(self._number)


def test_a_whole_span() -> None:
    out = io.StringIO()
    attributes = {"b": True, "i": 1 << 40, "f": 0.5, "s": "x", "l": ("a", "b"), "n": float("nan")}
    SpanFile(out).on_end(Ended(3, 2, Kind.CLIENT, Code.ERROR, attributes))
    ids = {"traceId": "0" * 31 + "5"}
    assert json.loads(out.getvalue()) == {"resourceSpans": [{
        "resource": {"attributes": [{"key": "service.name", "value": {"stringValue": "ada"}},
                                    {"key": "process.pid", "value": {"intValue": "7"}}]},
        "scopeSpans": [{"scope": {"name": "lease"}, "spans": [{
            **ids, "spanId": "0000000000000003", "parentSpanId": "0000000000000002", "name": "span 3", "kind": 3,
            "startTimeUnixNano": "1003", "endTimeUnixNano": "1997", "status": {"code": 2},
            "attributes": [{"key": "b", "value": {"boolValue": True}},
                           {"key": "i", "value": {"intValue": "1099511627776"}},
                           {"key": "f", "value": {"doubleValue": 0.5}}, {"key": "s", "value": {"stringValue": "x"}},
                           {"key": "l", "value": {"arrayValue": {"values": [{"stringValue": "a"},
                                                                            {"stringValue": "b"}]}}},
                           {"key": "n", "value": {"doubleValue": "nan"}}],
            "events": [{"timeUnixNano": "1500", "name": "event",
                        "attributes": [{"key": "n", "value": {"intValue": "1"}}]}],
            "links": [{**ids, "spanId": "000000000000004d", "attributes": []}]}]}]}]}


@pytest.mark.parametrize(("kind", "number"), [(Kind.INTERNAL, 1), (Kind.SERVER, 2), (Kind.CLIENT, 3),
                                              (Kind.PRODUCER, 4), (Kind.CONSUMER, 5)])
def test_a_kind(kind: Kind, number: int) -> None:
    out = io.StringIO()
    SpanFile(out).on_end(Ended(1, kind=kind))
    assert json.loads(out.getvalue())["resourceSpans"][0]["scopeSpans"][0]["spans"][0]["kind"] == number


def test_a_file_that_lines_reads(tmp_path: pathlib.Path, capsys: pytest.CaptureFixture[str]) -> None:
    """As the SDK calls a processor, by two services in one file."""
    path = tmp_path / "spans"
    spans = SpanFile(path)
    for ended in Ended(2, 1, Kind.SERVER, service="ben"), Ended(1, None, Kind.CLIENT):
        spans.on_start(ended, parent_context=None)
        spans._on_ending(ended)
        spans.on_end(ended)
    assert spans.force_flush(1_000)
    said = Command(tmp_path, capsys).run(str(path))
    assert said.clocks() == [("start span 1", {"ada": 1}), ("start span 2", {"ben": 1, "ada": 1}),
                             ("end span 2", {"ben": 2, "ada": 1}), ("end span 1", {"ada": 2, "ben": 1})]
    spans.shutdown()
    spans.on_end(Ended(4))
    assert len(path.read_text().splitlines()) == 2, "nothing is written behind the end"


def test_threads_and_processes_that_share_a_file(tmp_path: pathlib.Path) -> None:
    path = tmp_path / "spans"
    spans = SpanFile(path)

    def write(first: int) -> None:
        for number in range(first, first + 200):
            spans.on_end(Ended(number, attributes={"a": "x" * 3_000}))

    child = os.fork()
    if child == 0:
        write(1)
        os._exit(0)
    run_together(*(lambda first=first: write(first) for first in (1_000, 2_000, 3_000)))
    assert os.waitpid(child, 0)[1] == 0
    found = [json.loads(line)["resourceSpans"][0]["scopeSpans"][0]["spans"][0]["name"]
             for line in path.read_text().splitlines()]
    assert sorted(found) == sorted(f"span {first + at}" for first in (1, 1_000, 2_000, 3_000) for at in range(200))


def test_a_line_that_cannot_be_written(caplog: pytest.LogCaptureFixture) -> None:
    """The program goes on, and is told once."""
    def full(_: str) -> None:
        raise OSError("No space left on device")

    spans = SpanFile(full)
    with caplog.at_level(logging.WARNING):
        for number in 1, 2:
            spans.on_end(Ended(number))
    assert (spans.lost, spans.force_flush()) == (2, False)
    assert [it.getMessage() for it in caplog.records] == ["A span isn't written: No space left on device"]


def test_spans_for_a_collector(monkeypatch: pytest.MonkeyPatch) -> None:
    from wullaphi._trace_http import Refusal, Server

    class Taker:
        """What `collect` is to its server."""

        bodies: list[bytes] = []

        def answering(self) -> Any:
            return threading.Lock()

        def take(self, body: bytes) -> None:
            self.bodies.append(body)
            if len(self.bodies) > 1:
                raise Refusal(400, "that is enough")

        def refuse(self) -> None:
            pass

    with Server(("127.0.0.1", 0), Taker()) as server:
        threading.Thread(target=server.serve_forever, daemon=True).start()
        spans = SpanFile(to_collector(server.url.replace("/v1/traces", "/")))
        spans.on_end(Ended(1))
        assert (spans.lost, json.loads(Taker.bodies[0])["resourceSpans"][0]["scopeSpans"][0]["scope"]) == (
            0, {"name": "lease"})
        with pytest.raises(OSError, match="the collector answers 400: that is enough"):
            to_collector(server.url)("{}")
        server.shutdown()
    spans.on_end(Ended(2))
    assert spans.lost == 1, "where nothing listens the program goes on"
