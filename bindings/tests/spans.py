"""Spans for the tests of `wullaphi.otel`, and what the command makes of them."""

from __future__ import annotations

import json
import pathlib
from typing import Any, NamedTuple

import pytest

from wullaphi import otel

INTERNAL, SERVER, CLIENT, PRODUCER, CONSUMER = range(1, 6)
ERROR = {"code": 2}
TRACE = "0af7651916cd43dd8448eb211c80319c"


def identifier(number: int) -> str:
    return f"{number:016x}"


def span(number: int, start: int, end: int, parent: int = 0, kind: int = INTERNAL, **more: Any) -> dict[str, Any]:
    """A span of OTLP/JSON, named s1, s2 .. by its number."""
    told = {"traceId": TRACE, "spanId": identifier(number), "name": f"s{number}", "kind": kind,
            "startTimeUnixNano": str(start), "endTimeUnixNano": str(end)}
    return {**told, **({"parentSpanId": identifier(parent)} if parent else {}), **more}


def attribute(key: str, value: str) -> dict[str, Any]:
    return {"key": key, "value": {"stringValue": value}}


def resource(service: str, *spans: dict[str, Any], **more: str) -> dict[str, Any]:
    """The spans of a host: more attributes of it have `_` for a dot."""
    attributes = [attribute(key.replace("_", "."), value) for key, value in {"service_name": service, **more}.items()]
    return {"resource": {"attributes": attributes}, "scopeSpans": [{"spans": list(spans)}]}


def request(*resources: dict[str, Any]) -> dict[str, Any]:
    return {"resourceSpans": list(resources)}


class Said(NamedTuple):
    """What the command did: its status, the lines of the log, and those of standard error."""

    status: int
    lines: list[dict[str, Any]]
    errors: str

    def clocks(self) -> list[tuple[str, dict[str, int]]]:
        """The text and the clock of each line."""
        return [(line["event"], line["clock"]) for line in self.lines]


class Command:
    """Calls the command on files in a folder."""

    def __init__(self, room: pathlib.Path, capsys: pytest.CaptureFixture[str]) -> None:
        self._room, self._capsys = room, capsys

    def path(self, data: bytes, name: str = "spans.json") -> str:
        path = self._room / name
        path.write_bytes(data)
        return str(path)

    def run(self, *words: str) -> Said:
        status = otel.main(["lines", *words])
        output, errors = self._capsys.readouterr()
        return Said(status, [json.loads(line) for line in output.splitlines()], errors)

    def of(self, *documents: Any, words: tuple[str, ...] = ()) -> Said:
        """What it says of these documents, one a line."""
        return self.run(*words, self.path("".join(json.dumps(it) + "\n" for it in documents).encode()))


def fault(said: Said) -> str:
    """The one line of a fault: nothing was written."""
    assert (said.status, said.lines) == (2, [])
    assert said.errors.startswith("wullaphi.otel: ") and said.errors.count("\n") == 1, said.errors
    return said.errors[len("wullaphi.otel: "):-1]
