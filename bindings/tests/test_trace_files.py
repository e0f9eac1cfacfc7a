"""How files of spans are read, by `wullaphi.otel lines`, and what is said of damaged ones."""

from __future__ import annotations

import json
import pathlib
import re
from typing import Any

import pytest
from spans import SERVER, TRACE, Command, attribute, fault, identifier, request, resource, span

from wullaphi import otel

EXAMPLES = pathlib.Path(__file__).resolve().parents[2] / "examples" / "traces"


@pytest.fixture
def command(tmp_path: pathlib.Path, capsys: pytest.CaptureFixture[str]) -> Command:
    return Command(tmp_path, capsys)


SPAN = span(2, 10, 20, parent=1, kind=SERVER, status={"code": 1}, attributes=[attribute("a", "b")],
            events=[{"timeUnixNano": "15", "name": "event"}], links=[{"traceId": TRACE, "spanId": identifier(3)}])
WHOLE = request(resource("ada", SPAN, service_instance_id="1"))


def changed(name: str, value: Any) -> dict[str, Any]:
    """The request with another value of a member of its span."""
    return request(resource("ada", {**SPAN, name: value}, service_instance_id="1"))


@pytest.mark.parametrize(("name", "value", "why"), [
    ("spanId", 7, "spanId is 7 and no text"),
    ("spanId", "00", 'spanId is "00" and not 16 hexadecimal digits'),
    ("spanId", "0" * 16, "spanId is missing or zero"),
    ("spanId", None, "spanId is missing or zero"),
    ("traceId", "+" + "1" * 31, f'traceId is "+{"1" * 31}" and not 32 hexadecimal digits'),
    ("traceId", "", "traceId is missing or zero"),
    ("parentSpanId", "x" * 16, f'parentSpanId is "{"x" * 16}" and not 16 hexadecimal digits'),
    ("name", ["s2"], 'name is ["s2"] and no text'),
    ("kind", "SERVER", 'kind is "SERVER"'),
    ("kind", 1.5, "kind is 1.5"),
    ("kind", True, "kind is true"),
    ("startTimeUnixNano", "soon", 'startTimeUnixNano is "soon" and no whole number of 64 bits'),
    ("startTimeUnixNano", -1, "startTimeUnixNano is -1 and no whole number of 64 bits"),
    ("startTimeUnixNano", 1.0, "startTimeUnixNano is 1.0 and no whole number of 64 bits"),
    ("startTimeUnixNano", True, "startTimeUnixNano is true and no whole number of 64 bits"),
    ("startTimeUnixNano", 1 << 64, f"startTimeUnixNano is {1 << 64} and no whole number of 64 bits"),
    ("startTimeUnixNano", 0, "startTimeUnixNano is missing or zero"),
    ("endTimeUnixNano", None, "endTimeUnixNano is missing or zero"),
    ("status", 2, "status is 2 and no object"),
    ("status", {"code": "ERROR"}, 'code is "ERROR"'),
    ("events", {}, "events is {} and no list"),
    ("events", ["event"], 'events[0] is "event" and no object'),
    ("events", [{"name": "event"}], "timeUnixNano is missing or zero"),
    ("events", [{"timeUnixNano": 1, "name": 1}], "name is 1 and no text"),
    ("links", [{"traceId": TRACE}], "spanId of a link is missing or zero"),
])
def test_a_wrong_type(command: Command, name: str, value: Any, why: str) -> None:
    said = fault(command.of(WHOLE if name == "" else changed(name, value)))
    called = value or "s2" if name == "spanId" else identifier(2)
    assert re.fullmatch(rf"\S+spans\.json line 1: span {re.escape(str(called))}: {re.escape(why)}", said), said


@pytest.mark.parametrize(("document", "why"), [
    ([], "this is no JSON object"),
    ({}, "there is neither resourceSpans, as in OTLP, nor data, as in Jaeger's JSON"),
    ({"resourceSpans": {}}, "resourceSpans is {} and no list"),
    ({"resourceSpans": [1]}, "resourceSpans[0] is 1 and no object"),
    ({"resourceSpans": [{"resource": []}]}, "resource is [] and no object"),
    ({"resourceSpans": [{"scopeSpans": [{"spans": [None]}]}]}, "spans[0] is null and no object"),
    (request({"scopeSpans": [{"spans": [SPAN]}]}),
     f"span {identifier(2)}: its resource has no service.name: name other attributes by --host-attributes"),
    ({"resourceSpans": [{"resource": {"attributes": [{"key": "service.name", "value": "ada"}]}}]},
     'the value of an attribute is "ada" and no object'),
])
def test_a_wrong_document(command: Command, document: Any, why: str) -> None:
    assert fault(command.of(document)).endswith(f"spans.json line 1: {why}")


def test_ids_twice(command: Command) -> None:
    assert fault(command.of(WHOLE, WHOLE)).endswith(
        f"spans.json line 2: span {identifier(2)} (s2) of trace {TRACE}: it comes twice")


def test_a_span_that_ends_before_it_starts(command: Command) -> None:
    assert fault(command.of(changed("endTimeUnixNano", 9))).endswith(
        f"line 1: span {identifier(2)} (s2) of trace {TRACE}: it ends before it starts")


def test_a_parent_below_its_child(command: Command) -> None:
    spans = [span(1, 1, 9, parent=3), span(2, 2, 8, parent=1), span(3, 3, 7, parent=2), span(4, 3, 7, parent=3)]
    said = fault(command.of(request(resource("ada", *spans))))
    assert said == (f"span {identifier(1)} (s1) of trace {TRACE} is above its own parent, span {identifier(3)} (s3) of "
                    f"trace {TRACE}")
    assert fault(command.of(request(resource("ada", span(1, 1, 2, parent=1))))).startswith("span 0000000000000001 ")


def test_names_of_hosts_that_cant_be(command: Command) -> None:
    assert fault(command.of(request(resource("a=b", SPAN)))) == (
        "no host can be named 'a=b': name other attributes by --host-attributes")
    said = command.of(request(resource("a/b", SPAN), resource("a", span(3, 1, 2), host_name="b"),
                              resource("a", span(4, 1, 2), host_name="c")))
    assert fault(said) == "two hosts would be named 'a/b': name other attributes by --host-attributes"
    assert fault(command.of(WHOLE, words=("--host-attributes", "x,y"))).endswith(
        "it has none of the attributes x, y")


def test_a_line_that_is_too_long(command: Command) -> None:
    most = 65_536
    for length, status in ((most - 200, 0), (most, 2)):
        said = command.of(changed("name", "x" * length))
        assert said.status == status
    assert fault(said).endswith(": its line would be longer than 65,536 bytes")


REFERENCE = {"refType": "CHILD_OF", "traceID": "abc", "spanID": "1"}
TAGS = [{"key": "span.kind", "type": "string", "value": "client"}]
JAEGER: list[dict[str, Any]] = [
    {"traceID": "abc", "spanID": "1", "operationName": "asks", "startTime": 5, "duration": 2, "processID": "p1",
     "tags": TAGS},
    {"traceID": "abc", "spanID": "2", "operationName": "answers", "startTime": 1, "duration": 0, "processID": "p2",
     "references": [REFERENCE], "tags": [{"key": "span.kind", "type": "string", "value": "server"}], "logs": [
         {"timestamp": 1, "fields": [{"key": "message", "value": "said"}, {"key": "n", "value": 7}]},
         {"timestamp": 1, "fields": [{"key": "event", "value": "done"}]}]},
    {"traceID": "def", "spanID": "3", "operationName": "follows", "startTime": 1, "duration": 1, "processID": "p3",
     "references": [{**REFERENCE, "spanID": "2"}, {**REFERENCE, "refType": "FOLLOWS_FROM"}]}]
PROCESSES = {"p1": {"serviceName": "ada", "tags": [{"key": "hostname", "value": "h1"}]},
             "p2": {"serviceName": "ada", "tags": [{"key": "hostname", "value": "h2"}]},
             "p3": {"serviceName": "ben"}}


@pytest.mark.parametrize("name", ["one line", "lines", "a document", "jaeger"])
def test_files_that_are_cut_off(command: Command, name: str) -> None:
    """At each byte: a line names the place, or the file has fewer spans."""
    data = {"one line": json.dumps(WHOLE).encode(), "lines": (json.dumps(WHOLE) + "\n").encode() * 1
            + json.dumps(request(resource("ada", span(5, 1, 2)))).encode() + b"\n",
            "a document": json.dumps(WHOLE, indent=1).encode(),
            "jaeger": json.dumps({"data": [{"spans": JAEGER, "processes": PROCESSES}]}).encode()}[name]
    first = data.index(b"\n") if name == "lines" else len(data)
    for size in range(1, len(data)):
        said = command.run(command.path(data[:size]))
        if size in (first, first + 1) or size == len(data) - 1 and data.endswith(b"\n"):
            assert said.status == 0, size
        else:
            assert re.fullmatch(r"\S+ line \d+: no JSON at column \d+: .+", fault(said)), size


def test_damaged_bytes(command: Command) -> None:
    assert fault(command.run(command.path(b'{"resourceSpans": ["\xff"]}'))).endswith("spans.json line 1: no UTF-8")
    deep = b'{"resourceSpans":' + b"[" * 100_000
    assert fault(command.run(command.path(deep))).endswith("spans.json line 1: nested too deep")
    assert fault(command.run(str(EXAMPLES / "none.json"))).endswith("none.json: No such file or directory")
    assert fault(command.run(str(EXAMPLES))).endswith("traces: Is a directory")


def test_no_output_where_there_is_a_fault(command: Command, tmp_path: pathlib.Path) -> None:
    """A log that is there stays as it is."""
    log = tmp_path / "log"
    log.write_text("before")
    fault(command.of(changed("kind", "x"), words=("--output", str(log))))
    assert log.read_text() == "before"


def test_spellings(command: Command) -> None:
    """Numbers as texts or numbers, enums as names or numbers, with unknown members and values of null."""
    wanted = command.of(WHOLE).lines
    for name, value in [("startTimeUnixNano", 10), ("kind", "SPAN_KIND_SERVER"), ("unknown", {"a": [1]}),
                        ("traceState", None), ("status", None), ("traceId", TRACE.upper())]:
        assert command.of(changed(name, value)).lines == wanted, name
    older = {"resource": WHOLE["resourceSpans"][0]["resource"], "instrumentationLibrarySpans": [{"spans": [SPAN]}]}
    assert command.of({"resourceSpans": [older]}).lines == wanted
    assert command.run(command.path(b"\xef\xbb\xbf\n\n" + json.dumps(WHOLE).encode())).lines == wanted
    assert command.run(command.path(json.dumps(WHOLE, indent=2).encode())).lines == wanted
    assert command.run("--form", "otlp", command.path(b"{}\n" + json.dumps(WHOLE).encode())).lines == wanted


def test_texts_with_attributes(command: Command) -> None:
    values: list[dict[str, Any]] = [
        {"stringValue": "b c"}, {"intValue": "-3"}, {"boolValue": True}, {"doubleValue": 0.5},
        {"arrayValue": {"values": [{"intValue": 1}, {"stringValue": "x"}]}},
        {"kvlistValue": {"values": [{"key": "k", "value": {"stringValue": "v"}}]}}, {}]
    attributes = [{"key": f"a{at}", "value": value} for at, value in enumerate(values)]
    told = ' a0=b c a1=-3 a2=true a3=0.5 a4=[1,"x"] a5={"k":"v"} a6='
    event = {"timeUnixNano": 2, "name": "e", "attributes": attributes[:2]}
    told_of = span(1, 1, 9, attributes=attributes, events=[event])
    said = command.of(request(resource("ada", told_of)), words=("--texts", "attributes"))
    assert [line["event"] for line in said.lines] == [f"start s1{told}", "e a0=b c a1=-3", f"end s1{told}"]


def test_jaeger(command: Command) -> None:
    """Kinds and errors are tags, the parent is the first CHILD_OF of its trace, all other references are links."""
    spans, tags, processes = json.loads(json.dumps([JAEGER, TAGS, PROCESSES]))
    document = {"data": [{"traceID": "abc", "spans": spans, "processes": processes}]}
    said = command.of(document, words=("--texts", "attributes"))
    kind = " span.kind={}"
    assert said.clocks() == [
        ("start asks" + kind.format("client"), {"ada/h1": 1}),
        ("start answers" + kind.format("server"), {"ada/h2": 1, "ada/h1": 1}),
        ("start follows", {"ben": 1, "ada/h1": 1, "ada/h2": 1}),
        ("said n=7", {"ada/h2": 2, "ada/h1": 1}), ("done", {"ada/h2": 3, "ada/h1": 1}),
        ("end answers" + kind.format("server"), {"ada/h2": 4, "ada/h1": 1}),
        ("end follows", {"ben": 2, "ada/h1": 1, "ada/h2": 1}),
        ("end asks" + kind.format("client"), {"ada/h1": 2, "ada/h2": 1})]
    for error in [{"key": "error", "value": True}, {"key": "error", "value": "true"},
                  {"key": "otel.status_code", "value": "ERROR"}]:
        spans[0]["tags"] = [*tags, error]
        assert command.of(document).clocks()[-1] == ("end asks", {"ada/h1": 2}), error
    for name, value, why in [("processID", "p9", 'processID is "p9", which is none of the processes'),
                             ("duration", None, "startTime or duration is missing or too great"),
                             ("references", [{"refType": "BELOW"}], 'refType is "BELOW"')]:
        wrong = {"data": [{"spans": [{**spans[0], name: value}], "processes": processes}]}
        assert fault(command.of(wrong)).endswith(f"line 1: span 1: {why}")


def test_the_recorded_runs_in_both_forms(command: Command) -> None:
    """Jaeger's microseconds order them no otherwise."""
    for run, spans in ("good", 48), ("bad", 58):
        plain, jaeger = (command.run(str(EXAMPLES / f"{run}{ending}")) for ending in (".json", ".jaeger.json"))
        assert f" {spans} spans, 0 whose parent isn't there\n" in plain.errors
        assert plain.errors == jaeger.errors
        by_span = [sorted((it["span"], it["event"], sorted(it["clock"].items())) for it in said.lines)
                   for said in (plain, jaeger)]
        assert by_span[0] == by_span[1]


def test_words_that_are_refused(capsys: pytest.CaptureFixture[str]) -> None:
    for words, why in [("", "required: {lines,collect}"), ("lines", "required: FILE"),
                       ("lines --form zipkin x", "invalid choice: 'zipkin'"),
                       ("lines --host-attributes a,,b x", "'a,,b' isn't a list of names"),
                       ("collect --listen here", "'here' isn't HOST:PORT"),
                       ("collect --until-quiet -1", "'-1' isn't a number of seconds above 0")]:
        with pytest.raises(SystemExit) as ended:
            otel.main(words.split())
        assert ended.value.code == 2
        assert why in capsys.readouterr().err, words
