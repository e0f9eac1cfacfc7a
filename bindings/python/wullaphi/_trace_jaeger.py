"""Jaeger's JSON, as its pages give it for download and its query service answers it."""

import json
from typing import Any, Dict, Iterator, List, Tuple

from ._trace_json import Wrong, an_object, identifier, needed, objects, spelled, text, whole_number
from ._trace_otlp import KINDS, called
from ._trace_spans import SERVICE, Naming, Span

# Times are microseconds here.
NANOSECONDS = 1000


def spans_of(document: Dict[str, Any], naming: Naming) -> Iterator[Span]:
    """The spans of a document, in its order."""
    for trace in objects(document, "data"):
        processes = an_object(trace, "processes")
        resources = {name: resource_of(an_object(processes, name)) for name in processes}
        for span in objects(trace, "spans"):
            yield span_of(span, resources, naming)


def resource_of(process: Dict[str, Any]) -> Dict[str, str]:
    """The attributes of a process. Jaeger's own clients write `hostname`."""
    found = {key: value_text(value) for key, value in tags(process, "tags").items()}
    if "hostname" in found:
        found.setdefault("host.name", found["hostname"])
    service = text(process, "serviceName")
    return {**found, SERVICE: service} if service else found


def span_of(span: Dict[str, Any], resources: Dict[str, Dict[str, str]], naming: Naming) -> Span:
    """One span."""
    try:
        own = tags(span, "tags")
        texts = {key: value_text(value) for key, value in own.items()} if naming.needs_own() else {}
        trace = needed(identifier(span, "traceID", 32, is_whole=False), "traceID")
        number = needed(identifier(span, "spanID", 16, is_whole=False), "spanID")
        start, duration = whole_number(span, "startTime"), whole_number(span, "duration")
        if not start or duration is None or (start + duration) * NANOSECONDS >= 1 << 64:
            raise Wrong("startTime or duration is missing or too great")
        if text(span, "processID") not in resources:
            raise Wrong(f"processID is {spelled(span.get('processID'))}, which is none of the processes")
        parent, links = references(span, trace)
        return Span(
            trace=trace, number=number, parent=parent, name=text(span, "operationName"), kind=kind_of(own),
            is_error=own.get("error") in (True, "true") or own.get("otel.status_code") == "ERROR",
            start=start * NANOSECONDS, end=(start + duration) * NANOSECONDS,
            host=naming.identity(resources[span["processID"]], texts), attributes=naming.texts(texts),
            events=[event(one, naming) for one in objects(span, "logs")], links=links)
    except Wrong as wrong:
        raise Wrong(f"span {called(span)}: {wrong}") from None


def references(span: Dict[str, Any], trace: int) -> Tuple[int, List[Tuple[int, int]]]:
    """The parent, which is the first span of the same trace that this one is a child of, and the other references as
    links."""
    parent = identifier(span, "parentSpanID", 16, is_whole=False)
    links: List[Tuple[int, int]] = []
    for one in objects(span, "references"):
        kind = text(one, "refType")
        if kind not in ("CHILD_OF", "FOLLOWS_FROM"):
            raise Wrong(f"refType is {spelled(kind)}")
        to = (needed(identifier(one, "traceID", 32, is_whole=False), "traceID of a reference"),
              needed(identifier(one, "spanID", 16, is_whole=False), "spanID of a reference"))
        if kind == "CHILD_OF" and to[0] == trace and parent in (0, to[1]):
            parent = to[1]
        else:
            links.append(to)
    return parent, links


def kind_of(own: Dict[str, Any]) -> int:
    """The kind by the tag of OpenTracing."""
    name = str(own.get("span.kind", "")).upper()
    return KINDS.index(name) if name in KINDS else 0


def event(one: Dict[str, Any], naming: Naming) -> Tuple[int, str]:
    """A log: its time, and the text of its field `event`, else `message`, else `log`."""
    fields = {key: value_text(value) for key, value in tags(one, "fields").items()}
    name = next((fields.pop(key) for key in ("event", "message") if key in fields), "log")
    time = whole_number(one, "timestamp")
    if not time or time * NANOSECONDS >= 1 << 64:
        raise Wrong("timestamp of a log is missing or too great")
    return time * NANOSECONDS, name + naming.texts(fields)


def tags(of: Dict[str, Any], name: str) -> Dict[str, Any]:
    """Tags or fields, by their keys."""
    return {text(one, "key"): one.get("value") for one in objects(of, name)}


def value_text(value: Any) -> str:
    """A value as a text."""
    return value if isinstance(value, str) else json.dumps(value, ensure_ascii=False, separators=(",", ":"))
