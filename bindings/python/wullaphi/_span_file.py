"""A span processor for OpenTelemetry's Python SDK, which writes OTLP/JSON."""

import http.client
import json
import logging
import os
import threading
import urllib.parse
from typing import Any, Callable, Dict, List, Mapping, Optional

from .log import Sink, _compact, _writer

_logger = logging.getLogger("wullaphi.otel")


class SpanFile:
    """Writes each span of a program as a line of OTLP/JSON when it ends: to a file by its name, to a text stream, or to
    a function that is called with each line, as `to_collector` gives one.

        provider.add_span_processor(SpanFile("spans.json"))

    Threads and processes may share a file: a line is written whole, and is in the file when the span has ended. Where a
    line can't be written the program goes on; `lost` counts these spans, and the first is told by `logging`.

    >>> spans = SpanFile(print)
    >>> spans.force_flush()
    True
    >>> spans.lost
    0
    """

    def __init__(self, out: Sink) -> None:
        self._write = _writer(out)
        self._lock = threading.Lock()
        self._is_shut = False
        self.lost = 0
        os.register_at_fork(after_in_child=self._renew)

    def _renew(self) -> None:
        self._lock = threading.Lock()

    def on_start(self, span: Any, parent_context: Optional[Any] = None) -> None:
        """A span starts: it is written when it ends."""

    def _on_ending(self, span: Any) -> None:
        """A span is about to end, as newer SDKs tell."""

    def on_end(self, span: Any) -> None:
        """A span has ended."""
        with self._lock:
            if self._is_shut:
                return
            try:
                self._write(_compact(request_of(span)))
            except Exception as error:  # pylint: disable=broad-exception-caught
                self.lost += 1
                if self.lost == 1:
                    _logger.warning("A span isn't written: %s", error)

    def shutdown(self) -> None:
        """Writes nothing more."""
        with self._lock:
            self._is_shut = True

    def force_flush(self, timeout_millis: int = 30_000) -> bool:
        """Each line is written when its span ends, so nothing waits. Whether all were written."""
        return self.lost == 0


def to_collector(url: str = "http://127.0.0.1:4318", timeout: float = 10) -> Callable[[str], None]:
    """What sends each line to a `collect` at once, and waits for its answer.

    >>> callable(to_collector("http://127.0.0.1:4318"))
    True
    """
    parts = urllib.parse.urlsplit(url)
    kind = http.client.HTTPSConnection if parts.scheme == "https" else http.client.HTTPConnection
    path = parts.path.rstrip("/")
    path = path if path.endswith("/v1/traces") else path + "/v1/traces"

    def send(line: str) -> None:
        connection = kind(parts.hostname or "", parts.port, timeout=timeout)
        try:
            connection.request("POST", path, line.encode(), {"Content-Type": "application/json"})
            answer = connection.getresponse()
            said = answer.read().decode("utf-8", "replace").strip()
        finally:
            connection.close()
        if answer.status != 200:
            raise OSError(f"the collector answers {answer.status}: {said}")

    return send


def request_of(span: Any) -> Dict[str, Any]:
    """An ended span of the SDK, as a request of OTLP/JSON."""
    scope = getattr(span, "instrumentation_scope", None)
    return {"resourceSpans": [{
        "resource": {"attributes": _attributes(span.resource.attributes)},
        "scopeSpans": [{"scope": {"name": getattr(scope, "name", "") or ""}, "spans": [_span(span)]}]}]}


def _span(span: Any) -> Dict[str, Any]:
    context = span.get_span_context()
    told: Dict[str, Any] = {
        **_ids(context), "name": span.name, "kind": span.kind.value + 1,
        "startTimeUnixNano": str(span.start_time), "endTimeUnixNano": str(span.end_time),
        "attributes": _attributes(span.attributes),
        "events": [{"timeUnixNano": str(it.timestamp), "name": it.name, "attributes": _attributes(it.attributes)}
                   for it in span.events],
        "links": [{**_ids(it.context), "attributes": _attributes(it.attributes)} for it in span.links],
        "status": {"code": span.status.status_code.value}}
    if span.parent is not None:
        told["parentSpanId"] = f"{span.parent.span_id:016x}"
    return told


def _ids(context: Any) -> Dict[str, str]:
    return {"traceId": f"{context.trace_id:032x}", "spanId": f"{context.span_id:016x}"}


def _attributes(attributes: Optional[Mapping[str, Any]]) -> List[Dict[str, Any]]:
    return [{"key": key, "value": _value(value)} for key, value in (attributes or {}).items()]


def _value(value: Any) -> Dict[str, Any]:
    if isinstance(value, bool):
        return {"boolValue": value}
    if isinstance(value, int):
        return {"intValue": str(value)}
    if isinstance(value, float):
        return {"doubleValue": value if json.dumps(value)[-1].isdigit() else str(value)}
    if isinstance(value, (list, tuple)):
        return {"arrayValue": {"values": [_value(one) for one in value]}}
    return {"stringValue": str(value)}
