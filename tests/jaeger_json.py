"""OTLP/JSON as Jaeger gives the same spans for download: tests/jaeger_json.py FILE.. > FILE

A trace is an object with its spans and its processes. Times are microseconds, cut off. The parent is a reference
CHILD_OF, a link FOLLOWS_FROM; kind and status are tags, an event is a log with the field `event`."""
import json
import sys
from typing import Any

KINDS = {2: "server", 3: "client", 4: "producer", 5: "consumer"}
TYPES = {"stringValue": "string", "intValue": "int64", "boolValue": "bool", "doubleValue": "float64"}


def tags(attributes: list[dict[str, Any]]) -> list[dict[str, Any]]:
    """Attributes of plain values as tags."""
    found = []
    for one in attributes:
        [(kind, value)] = one["value"].items()
        found.append({"key": one["key"], "type": TYPES[kind], "value": int(value) if kind == "intValue" else value})
    return found


def reference(kind: str, trace: str, span: str) -> dict[str, str]:
    return {"refType": kind, "traceID": trace, "spanID": span}


def jaeger_span(span: dict[str, Any], process: str) -> dict[str, Any]:
    start, end = int(span["startTimeUnixNano"]), int(span["endTimeUnixNano"])
    references = [reference("FOLLOWS_FROM", it["traceId"], it["spanId"]) for it in span.get("links", ())]
    if span.get("parentSpanId"):
        references.insert(0, reference("CHILD_OF", span["traceId"], span["parentSpanId"]))
    told = tags(span.get("attributes", []))
    if span.get("kind") in KINDS:
        told.append({"key": "span.kind", "type": "string", "value": KINDS[span["kind"]]})
    if span.get("status", {}).get("code") == 2:
        told += [{"key": "otel.status_code", "type": "string", "value": "ERROR"},
                 {"key": "error", "type": "bool", "value": True}]
    logs = [{"timestamp": int(it["timeUnixNano"]) // 1000,
             "fields": [{"key": "event", "type": "string", "value": it["name"]}, *tags(it.get("attributes", []))]}
            for it in span.get("events", ())]
    return {"traceID": span["traceId"], "spanID": span["spanId"], "operationName": span["name"],
            "references": references, "startTime": start // 1000, "duration": (end - start) // 1000, "tags": told,
            "logs": logs, "processID": process, "warnings": None}


def document(requests: list[dict[str, Any]]) -> dict[str, Any]:
    """The download of all traces of these requests."""
    traces: dict[str, dict[str, Any]] = {}
    for of in (it for request in requests for it in request["resourceSpans"]):
        resource = of["resource"]["attributes"]
        [service] = [it["value"]["stringValue"] for it in resource if it["key"] == "service.name"]
        process = {"serviceName": service, "tags": tags([it for it in resource if it["key"] != "service.name"])}
        for span in (it for scope in of["scopeSpans"] for it in scope["spans"]):
            trace = traces.setdefault(span["traceId"], {"traceID": span["traceId"], "spans": [], "processes": {}})
            names = [name for name, it in trace["processes"].items() if it == process]
            name = names[0] if names else f"p{len(trace['processes']) + 1}"
            trace["processes"][name] = process
            trace["spans"].append(jaeger_span(span, name))
    return {"data": list(traces.values()), "total": 0, "limit": 0, "offset": 0, "errors": None}


def main() -> None:
    requests = [json.loads(line) for path in sys.argv[1:] for line in open(path, encoding="utf-8")]
    print(json.dumps(document(requests), indent=1))


if __name__ == "__main__":
    main()
