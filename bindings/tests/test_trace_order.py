"""What the lines of spans order: each rule of docs/traces.md by itself."""

from __future__ import annotations

import pathlib
from typing import Any

import pytest
from spans import (CLIENT, CONSUMER, ERROR, PRODUCER, SERVER, TRACE, Command, attribute, fault, identifier, request,
                   resource, span)


@pytest.fixture
def command(tmp_path: pathlib.Path, capsys: pytest.CaptureFixture[str]) -> Command:
    return Command(tmp_path, capsys)


def call(*servers: dict[str, Any], **of_client: Any) -> dict[str, Any]:
    """A call of ada, and the spans of ben, whose clock is behind."""
    return request(resource("ada", span(1, 1000, 2000, kind=CLIENT, **of_client)), resource("ben", *servers))


def test_a_call(command: Command) -> None:
    """The server's span starts behind the call's start, and the call ends behind that start and not behind its end."""
    assert command.of(call(span(2, 10, 20, parent=1, kind=SERVER))).clocks() == [
        ("start s1", {"ada": 1}), ("start s2", {"ben": 1, "ada": 1}), ("end s2", {"ben": 2, "ada": 1}),
        ("end s1", {"ada": 2, "ben": 1})]


def test_what_is_heard_of_others(command: Command) -> None:
    """A host that is called knows what its caller knew: cleo, called by ben, knows ada."""
    said = command.of(call(span(2, 10, 20, parent=1, kind=SERVER), span(3, 11, 19, parent=2, kind=CLIENT)),
                      request(resource("cleo", span(4, 1, 2, parent=3, kind=SERVER))))
    assert dict(said.clocks())["start s4"] == {"cleo": 1, "ada": 1, "ben": 2}
    assert dict(said.clocks())["end s3"] == {"ben": 3, "ada": 1, "cleo": 1}


def test_replies(command: Command) -> None:
    said = command.of(call(span(2, 10, 20, parent=1, kind=SERVER)), words=("--replies",))
    assert said.clocks()[-1] == ("end s1", {"ada": 2, "ben": 2})


@pytest.mark.parametrize("is_replying", [False, True])
@pytest.mark.parametrize("error", [ERROR, {"code": "STATUS_CODE_ERROR"}])
def test_a_call_with_an_error(command: Command, error: Any, is_replying: bool) -> None:
    said = command.of(call(span(2, 10, 20, parent=1, kind=SERVER), status=error),
                      words=("--replies",) if is_replying else ())
    assert dict(said.clocks())["end s1"] == {"ada": 2}
    assert dict(said.clocks())["start s2"] == {"ben": 1, "ada": 1}


@pytest.mark.parametrize("status", [{}, {"code": 0}, {"code": 1}, {"code": "STATUS_CODE_OK"}, None])
def test_a_call_without_an_error(command: Command, status: Any) -> None:
    said = command.of(call(span(2, 10, 20, parent=1, kind=SERVER), status=status))
    assert dict(said.clocks())["end s1"] == {"ada": 2, "ben": 1}


def test_two_servers_of_a_call(command: Command) -> None:
    """One may be a try that was given up."""
    said = command.of(call(span(2, 10, 20, parent=1, kind=SERVER), span(3, 30, 40, parent=1, kind=SERVER)))
    assert dict(said.clocks())["end s1"] == {"ada": 2}


@pytest.mark.parametrize(("above", "below"), [(PRODUCER, CONSUMER), (CLIENT, CONSUMER), (1, SERVER), (CLIENT, 1)])
def test_what_is_no_call(command: Command, above: int, below: int) -> None:
    said = command.of(request(resource("ada", span(1, 1000, 2000, kind=above)),
                              resource("ben", span(2, 10, 20, parent=1, kind=below))))
    assert dict(said.clocks())["start s2"] == {"ben": 1, "ada": 1}
    assert dict(said.clocks())["end s1"] == {"ada": 2}


def test_a_server_two_below(command: Command) -> None:
    """It answers the span that is its parent, and no other."""
    said = command.of(call(span(2, 10, 20, parent=1), span(3, 11, 12, parent=2, kind=SERVER)))
    assert dict(said.clocks())["end s1"] == {"ada": 2}


def test_a_link(command: Command) -> None:
    link = [{"traceId": TRACE, "spanId": identifier(1)}]
    said = command.of(request(resource("ada", span(1, 1000, 2000)), resource("ben", span(2, 10, 20, links=link))))
    assert said.clocks() == [("start s1", {"ada": 1}), ("start s2", {"ben": 1, "ada": 1}),
                             ("end s2", {"ben": 2, "ada": 1}), ("end s1", {"ada": 2})]


def test_events(command: Command) -> None:
    events = [{"timeUnixNano": 30, "name": "second"}, {"timeUnixNano": 20, "name": "first"},
              {"timeUnixNano": 40, "name": "with the end"}, {"timeUnixNano": 10, "name": "with the start"}]
    said = command.of(request(resource("ada", span(1, 10, 40, events=events))))
    assert said.clocks() == [(text, {"ada": at}) for at, text in enumerate(
        ["start s1", "with the start", "first", "second", "with the end", "end s1"], 1)]


def test_equal_times(command: Command) -> None:
    """Starts come first, a parent's before its child's, then events, then ends, a parent's behind its child's."""
    events = [{"timeUnixNano": 5, "name": "event"}]
    spans = [span(3, 5, 5, parent=2), span(1, 5, 5, events=events), span(2, 5, 5, parent=1)]
    said = command.of(request(resource("ada", *spans)))
    assert [line["event"] for line in said.lines] == [
        "start s1", "start s2", "start s3", "event", "end s3", "end s2", "end s1"]


def test_equal_times_and_a_call_there_and_back(command: Command) -> None:
    """Starts of one time are told in an order that fits: s4 comes behind s3 by way of ben, though it is above none."""
    spans = [span(4, 5, 9, parent=2), span(3, 5, 9, parent=1, kind=PRODUCER), span(1, 4, 9)]
    said = command.of(request(resource("ada", *spans), resource("ben", span(5, 1, 9, parent=3), span(2, 2, 9))))
    assert [line["event"] for line in said.lines if line["host"] == "ada"][:3] == ["start s1", "start s3", "start s4"]


def test_hosts_a_day_apart(command: Command) -> None:
    day = 86_400_000_000_000
    said = command.of(request(resource("ada", span(1, 10 * day, 10 * day + 9, kind=CLIENT)),
                              resource("ben", span(2, 1, 2, parent=1, kind=SERVER))))
    assert [line["event"] for line in said.lines] == ["start s1", "start s2", "end s2", "end s1"]


def test_two_instances_of_a_service(command: Command) -> None:
    """They are two hosts: nothing orders them."""
    said = command.of(request(resource("ada", span(1, 1, 2), service_instance_id="a"),
                              resource("ada", span(2, 3, 4), service_instance_id="b"), resource("ben", span(3, 5, 6))))
    assert said.clocks() == [("start s1", {"ada/a": 1}), ("end s1", {"ada/a": 2}), ("start s2", {"ada/b": 1}),
                             ("end s2", {"ada/b": 2}), ("start s3", {"ben": 1}), ("end s3", {"ben": 2})]


@pytest.mark.parametrize("name", ["service.namespace", "service.instance.id", "host.name", "process.pid"])
def test_what_tells_instances_apart(command: Command, name: str) -> None:
    more: list[dict[str, str]] = [{name.replace(".", "_"): value} for value in "xy"]
    said = command.of(request(*(resource("ada", span(at, 1, 2), **it) for at, it in enumerate(more, 1))))
    assert {line["host"] for line in said.lines} == {"ada/x", "ada/y"}
    assert "nothing tells" not in said.errors


def test_instances_that_nothing_tells_apart(command: Command) -> None:
    said = command.of(request(resource("ada", span(1, 1, 2)), resource("ben", span(2, 1, 2), host_name="b")))
    assert said.errors == (
        "wullaphi.otel: 2 spans, 0 whose parent isn't there\n"
        "wullaphi.otel: hosts: ada, ben\n"
        "wullaphi.otel: nothing tells one instance from another of ada: if several ran, their order is false\n")


def test_host_attributes(command: Command) -> None:
    """They are those of the span or of its resource; a host is told by those that are there."""
    spans = [span(1, 1, 2, attributes=[attribute("thread.id", "7")]), span(2, 3, 4)]
    said = command.of(request(resource("ada", *spans)), words=("--host-attributes", "service.name,thread.id"))
    assert said.clocks() == [("start s1", {"ada/7": 1}), ("end s1", {"ada/7": 2}), ("start s2", {"ada": 1}),
                             ("end s2", {"ada": 2})]


def test_missing_parents(command: Command) -> None:
    links = [{"traceId": TRACE, "spanId": identifier(9)}]
    said = command.of(request(resource("ada", span(1, 1, 2, parent=8), span(2, 3, 4, links=links),
                                       service_instance_id="a")))
    assert said.errors == ("wullaphi.otel: 2 spans, 1 whose parent isn't there, 1 links to spans that aren't there\n"
                           "wullaphi.otel: hosts: ada\n")


def test_a_parent_in_another_trace(command: Command) -> None:
    """The same id in another trace is another span."""
    other = "0" * 31 + "1"
    said = command.of(request(resource("ada", span(1, 10, 20)),
                              resource("ben", span(2, 1, 2, parent=1, traceId=other))))
    assert dict(said.clocks())["start s2"] == {"ben": 1}
    assert "2 spans, 1 whose parent isn't there" in said.errors


def described(number: int) -> str:
    return f"span {identifier(number)} (s{number}) of trace {TRACE}"


def test_a_clock_that_was_set_back(command: Command) -> None:
    """On ben s2 comes before s3 by its clock, and s3 calls ada, who calls s2."""
    said = command.of(request(resource("ada", span(1, 5, 6, parent=3)),
                              resource("ben", span(2, 10, 11, parent=1), span(3, 20, 21))))
    assert fault(said) == (f"the clock of ben has the start of {described(2)} before the start of {described(3)}, and "
                           "by the calls it came behind it: was the clock set back?")


def test_a_child_that_starts_before_its_parent_on_a_host(command: Command) -> None:
    said = command.of(request(resource("ada", span(1, 10, 20), span(2, 5, 6, parent=1))))
    assert f"the clock of ada has the end of {described(2)}" not in fault(said)
    assert f"the clock of ada has the start of {described(2)} before the start of {described(1)}, " in fault(said)


def test_links_that_go_round(command: Command) -> None:
    links = [[{"traceId": TRACE, "spanId": identifier(number)}] for number in (2, 1)]
    said = command.of(request(resource("ada", span(1, 1, 2, links=links[0])),
                              resource("ben", span(2, 1, 2, links=links[1]))))
    assert fault(said) == (f"the start of {described(1)} and the start of {described(2)} each come behind the other by "
                           "their links")
