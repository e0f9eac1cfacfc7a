"""OTLP/JSON: the spans of an ExportTraceServiceRequest."""

import json
from typing import Any, Dict, Iterator, List, Tuple

from ._trace_json import Wrong, an_object, identifier, needed, objects, spelled, text, whole_number
from ._trace_spans import Naming, Span

KINDS = ["UNSPECIFIED", "INTERNAL", "SERVER", "CLIENT", "PRODUCER", "CONSUMER"]
CODES = ["UNSET", "OK", "ERROR"]
ERROR = 2


def spans_of(request: Dict[str, Any], naming: Naming) -> Iterator[Span]:
    """The spans of a request, in its order."""
    for of_resource in objects(request, "resourceSpans"):
        resource = attributes(an_object(of_resource, "resource"))
        # The second name is that of versions before 1.0.
        for scopes in "scopeSpans", "instrumentationLibrarySpans":
            for scope in objects(of_resource, scopes):
                for span in objects(scope, "spans"):
                    yield span_of(span, resource, naming)


def span_of(span: Dict[str, Any], resource: Dict[str, str], naming: Naming) -> Span:
    """One span."""
    try:
        number = needed(identifier(span, "spanId", 16), "spanId")
        own = attributes(span) if naming.needs_own() else {}
        return Span(
            trace=needed(identifier(span, "traceId", 32), "traceId"), number=number,
            parent=identifier(span, "parentSpanId", 16), name=text(span, "name"),
            kind=enumerated(span, "kind", "SPAN_KIND_", KINDS),
            is_error=enumerated(an_object(span, "status"), "code", "STATUS_CODE_", CODES) == ERROR,
            start=time(span, "startTimeUnixNano"), end=time(span, "endTimeUnixNano"),
            host=naming.identity(resource, own), attributes=naming.texts(own),
            events=[event(one, naming) for one in objects(span, "events")],
            links=[link(one) for one in objects(span, "links")])
    except Wrong as wrong:
        raise Wrong(f"span {called(span)}: {wrong}") from None


def called(span: Dict[str, Any]) -> str:
    """How a fault names a span that may have no id."""
    return str(span.get("spanId") or span.get("spanID") or span.get("name") or "without an id")[:60]


def time(of: Dict[str, Any], name: str) -> int:
    """A time, which must be there."""
    found = whole_number(of, name)
    if not found:
        raise Wrong(f"{name} is missing or zero")
    return found


def event(one: Dict[str, Any], naming: Naming) -> Tuple[int, str]:
    """An event: its time and its text."""
    own = naming.texts(attributes(one)) if naming.has_texts else ""
    return time(one, "timeUnixNano"), text(one, "name") + own


def link(one: Dict[str, Any]) -> Tuple[int, int]:
    """A link: the trace and the span that it leads to."""
    return (needed(identifier(one, "traceId", 32), "traceId of a link"),
            needed(identifier(one, "spanId", 16), "spanId of a link"))


def enumerated(of: Dict[str, Any], name: str, prefix: str, names: List[str]) -> int:
    """A member that is a number or a name. A number that isn't known counts as 0."""
    value = of.get(name)
    if value is None:
        return 0
    if type(value) is int:
        return value if 0 <= value < len(names) else 0
    if isinstance(value, str) and value.startswith(prefix) and value[len(prefix):] in names:
        return names.index(value[len(prefix):])
    raise Wrong(f"{name} is {spelled(value)}")


def attributes(of: Dict[str, Any]) -> Dict[str, str]:
    """The attributes of something, each as a text."""
    return {text(one, "key"): value_text(one.get("value")) for one in objects(of, "attributes")}


def value_text(value: Any) -> str:
    """A value as a text: a list or an object as JSON."""
    found = plain(value)
    return found if isinstance(found, str) else json.dumps(found, ensure_ascii=False, separators=(",", ":"))


def plain(value: Any) -> Any:
    """A value of OTLP as one of JSON."""
    if value is None or value == {}:
        return ""
    if not isinstance(value, dict):
        raise Wrong(f"the value of an attribute is {spelled(value)} and no object")
    for kind, it in value.items():
        if kind == "arrayValue":
            return [plain(one) for one in objects(an_object(value, kind), "values")]
        if kind == "kvlistValue":
            return {text(one, "key"): plain(one.get("value")) for one in objects(an_object(value, kind), "values")}
        if kind == "intValue":
            return int(it) if isinstance(it, str) and it.lstrip("-").isdecimal() else it
        if kind in ("stringValue", "boolValue", "doubleValue", "bytesValue"):
            return it
    return ""
