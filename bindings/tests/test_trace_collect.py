"""`wullaphi.otel collect`: spans over HTTP, as exporters send them, and what becomes of them where the call ends."""

from __future__ import annotations

import gzip
import http.client
import json
import os
import pathlib
import signal
import socket
import subprocess
import sys
import threading
from typing import Any, Iterator

import pytest
from spans import CLIENT, SERVER, TRACE, identifier, request, resource, span

PYTHON = pathlib.Path(__file__).resolve().parents[1] / "python"
JSON = {"Content-Type": "application/json"}
# A call that takes longer has hung.
SECONDS = 120


class Collect:
    """A call of the command."""

    def __init__(self, *words: str) -> None:
        command = [sys.executable, "-m", "wullaphi.otel", "collect", "--listen", "127.0.0.1:0", *words]
        self.running = subprocess.Popen(command, env={**os.environ, "PYTHONPATH": str(PYTHON)}, text=True,
                                        stdout=subprocess.PIPE, stderr=subprocess.PIPE)
        assert self.running.stderr is not None
        told = self.running.stderr.readline()
        if not told.startswith("wullaphi.otel: listens at http://127.0.0.1:"):
            self.running.kill()
            pytest.fail(told)
        self.port = int(told.rpartition(":")[2].partition("/")[0])

    def send(self, body: bytes, headers: dict[str, str] = JSON, path: str = "/v1/traces") -> tuple[int, str]:
        """The status and the text of the answer."""
        connection = http.client.HTTPConnection("127.0.0.1", self.port, timeout=SECONDS)
        try:
            connection.request("POST", path, body, headers)
            answer = connection.getresponse()
            return answer.status, answer.read().decode()
        finally:
            connection.close()

    def end(self, number: int | None = signal.SIGTERM) -> tuple[int, list[dict[str, Any]], str]:
        """The status, the lines, and what was said."""
        if number is not None:
            self.running.send_signal(number)
        output, errors = self.running.communicate(timeout=SECONDS)
        return self.running.returncode, [json.loads(line) for line in output.splitlines()], errors


@pytest.fixture
def collects() -> Iterator[list[Collect]]:
    """Calls that end with the test."""
    made: list[Collect] = []
    yield made
    for it in made:
        it.running.kill()
        it.running.communicate()


def spelled(*spans: dict[str, Any], service: str = "ada") -> bytes:
    return json.dumps(request(resource(service, *spans, service_instance_id="1"))).encode()


@pytest.mark.parametrize("number", [signal.SIGINT, signal.SIGTERM])
def test_a_call_of_two_services(collects: list[Collect], number: int) -> None:
    """Spans come as they end, a server's before its client's; one of the requests is zipped."""
    collects.append(it := Collect())
    assert it.send(spelled(span(2, 1, 2, parent=1, kind=SERVER), service="ben")) == (200, "{}")
    zipped = {**JSON, "Content-Encoding": "gzip", "Content-Type": "application/json; charset=utf-8"}
    assert it.send(gzip.compress(spelled(span(1, 5, 6, kind=CLIENT))), zipped) == (200, "{}")
    status, lines, errors = it.end(number)
    assert (status, [(line["event"], line["clock"]) for line in lines]) == (0, [
        ("start s1", {"ada": 1}), ("start s2", {"ben": 1, "ada": 1}), ("end s2", {"ben": 2, "ada": 1}),
        ("end s1", {"ada": 2, "ben": 1})])
    assert errors == ("wullaphi.otel: 2 requests, 0 of them faulty\n"
                      "wullaphi.otel: 2 spans, 0 whose parent isn't there\n"
                      "wullaphi.otel: hosts: ada, ben\n")


def chunked(data: bytes) -> bytes:
    return b"".join(b"%x;x=y\r\n%s\r\n" % (len(data[at:at + 7]), data[at:at + 7]) for at in range(0, len(data), 7)) \
        + b"0\r\n\r\n"


def test_a_body_in_chunks_on_a_connection_that_is_kept(collects: list[Collect]) -> None:
    collects.append(it := Collect())
    head = b"POST /v1/traces HTTP/1.1\r\nHost: x\r\nContent-Type: application/json\r\n"
    with socket.create_connection(("127.0.0.1", it.port), timeout=SECONDS) as line, line.makefile("rb") as answers:
        for number in 1, 2:
            line.sendall(head + b"Transfer-Encoding: chunked\r\n\r\n" + chunked(spelled(span(number, 1, 2))))
            assert answers.readline() == b"HTTP/1.1 200 OK\r\n"
            while answers.readline() != b"\r\n":
                pass
            assert answers.read(2) == b"{}"
    assert len(it.end()[1]) == 4


BAD = spelled(span(1, 1, 2, status=3))


@pytest.mark.parametrize(("body", "headers", "status", "why"), [
    (b"{", JSON, 400, "no JSON at line 1 column 2: Expecting property name enclosed in double quotes"),
    (BAD, JSON, 400, f"span {identifier(1)}: status is 3 and no object"),
    (b"[]", JSON, 400, "this is no JSON object"),
    (b"\xff", JSON, 400, "no UTF-8, or nested too deep"),
    (b"[" * 100_000, JSON, 400, "no UTF-8, or nested too deep"),
    (spelled(span(1, 2, 1)), JSON, 400, f"span {identifier(1)} (s1) of trace {TRACE}: it ends before it starts"),
    (spelled(span(1, 1, 2), span(1, 1, 2)), JSON, 400,
     f"span {identifier(1)} (s1) of trace {TRACE}: it comes twice"),
    (b"\n", {"Content-Type": "application/x-protobuf"}, 415,
     "protobuf isn't read: set OTEL_EXPORTER_OTLP_PROTOCOL=http/json, or `encoding: json` of a collector's exporter "
     "otlphttp"),
    (b"{}", {"Content-Type": "text/xml"}, 415, "text/xml isn't read, but application/json"),
    (b"{}", {**JSON, "Content-Encoding": "br"}, 415, "Content-Encoding br isn't read, but gzip"),
    (b"{}", {**JSON, "Content-Encoding": "gzip"}, 400, "the request isn't gzip, or ends too early"),
    (gzip.compress(b"{}" * 999)[:-9], {**JSON, "Content-Encoding": "gzip"}, 400,
     "the request isn't gzip, or ends too early"),
    (gzip.compress(b" " * (1 << 26) + b"{}"), {**JSON, "Content-Encoding": "gzip"}, 413,
     "the request has more than 67,108,864 bytes"),
    (b"{}", {**JSON, "Content-Length": "67108865"}, 413, "the request has more than 67,108,864 bytes"),
    (b"", {**JSON, "Content-Length": "some"}, 411, "the request has no Content-Length"),
], ids=range(15))
def test_a_request_that_is_refused(collects: list[Collect], body: bytes, headers: dict[str, str], status: int,
                                   why: str) -> None:
    """It is told why and is counted, and nothing of it is taken; a request behind it is."""
    collects.append(it := Collect())
    assert it.send(body, headers) == (status, why + "\n")
    assert it.send(spelled(span(9, 1, 2))) == (200, "{}")
    status, lines, errors = it.end()
    assert (status, [line["event"] for line in lines]) == (0, ["start s9", "end s9"])
    assert errors.startswith("wullaphi.otel: 2 requests, 1 of them faulty\n")


def test_other_paths_and_ids_that_are_there(collects: list[Collect]) -> None:
    collects.append(it := Collect())
    assert it.send(b"{}", JSON, "/v1/metrics") == (404, "spans are taken at /v1/traces\n")
    assert it.send(spelled(span(1, 1, 2))) == (200, "{}")
    # The same request again: its answer may have been lost on the way.
    assert it.send(spelled(span(1, 1, 2))) == (200, "{}")
    assert it.send(spelled(span(2, 1, 2), span(1, 1, 2)))[0] == 400
    status, lines, errors = it.end()
    assert (status, [line["event"] for line in lines]) == (0, ["start s1", "end s1"])
    assert errors.startswith("wullaphi.otel: 4 requests, 2 of them faulty\n")


def test_the_end_where_no_request_comes(collects: list[Collect]) -> None:
    collects.append(it := Collect("--until-quiet", "0.3"))
    assert it.running.poll() is None
    assert it.send(spelled(span(1, 1, 2)))[0] == 200
    status, lines, _ = it.end(None)
    assert (status, len(lines)) == (0, 2)


def test_that_nothing_is_lost_that_was_answered(collects: list[Collect]) -> None:
    """Eight send as fast as they can, until the call is ended in the middle."""
    collects.append(it := Collect())
    taken: list[int] = []
    enough = threading.Event()

    def send(sender: int) -> None:
        for number in range(1, 10_000):
            try:
                status, _ = it.send(spelled(span(sender * 10_000 + number, 1, 2)))
            except (OSError, http.client.HTTPException):
                return
            if status != 200:
                assert status == 503
                return
            taken.append(sender * 10_000 + number)
            if len(taken) > 200:
                enough.set()

    senders = [threading.Thread(target=send, args=(sender,)) for sender in range(8)]
    for sender in senders:
        sender.start()
    assert enough.wait(SECONDS)
    status, lines, _ = it.end()
    for sender in senders:
        sender.join()
    assert status == 0
    there = {line["event"] for line in lines}
    assert [number for number in taken if f"start s{number}" not in there] == []


def test_what_is_kept(collects: list[Collect], tmp_path: pathlib.Path) -> None:
    """Also where the spans give no log: `lines` then says the same."""
    kept, log = tmp_path / "spans.json", tmp_path / "log"
    collects.append(it := Collect("--keep", str(kept), "--output", str(log)))
    round_about = spelled(span(1, 1, 2, parent=2), span(2, 1, 2, parent=1))
    assert it.send(round_about) == (200, "{}")
    assert it.send(BAD)[0] == 400
    assert [json.loads(line) for line in kept.read_text().splitlines()] == [json.loads(round_about)]
    status, lines, errors = it.end()
    assert (status, lines, log.exists()) == (2, [], False)
    assert errors.splitlines()[1].startswith(f"wullaphi.otel: span {identifier(1)} (s1) of trace {TRACE} is above")
    ran = subprocess.run([sys.executable, "-m", "wullaphi.otel", "lines", kept], text=True, capture_output=True,
                         env={**os.environ, "PYTHONPATH": str(PYTHON)}, timeout=SECONDS, check=False)
    assert (ran.returncode, ran.stdout, ran.stderr) == (2, "", errors.partition("\n")[2])


def test_an_address_that_is_taken(collects: list[Collect]) -> None:
    collects.append(it := Collect())
    ran = subprocess.run([sys.executable, "-m", "wullaphi.otel", "collect", "--listen", f"127.0.0.1:{it.port}"],
                         text=True, capture_output=True, env={**os.environ, "PYTHONPATH": str(PYTHON)},
                         timeout=SECONDS, check=False)
    wanted = f"wullaphi.otel: can't listen at 127.0.0.1:{it.port}: Address already in use\n"
    assert (ran.returncode, ran.stdout, ran.stderr) == (2, "", wanted)
