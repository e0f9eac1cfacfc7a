"""What `wcpcollect --logs` prints."""

from __future__ import annotations

from server import SECONDS, Server, collected, collector


def test_the_lines_of_a_stream(server: Server) -> None:
    """In the order in which they came."""
    client = server.client
    lines = [f"line {number}" for number in range(2500)]
    for line in lines:
        client.xadd("some logs", {"line": line})
    assert collected(server, "--logs", "some logs") == (0, lines, "")
    assert collected(server, "--logs", "some logs", "--patience", 0.3) == (
        3, lines, "wcpcollect: nothing came for 0.3 s\n"), "with patience"
    with collector(server, "--logs", "some logs", "--follow") as call:
        assert call.stdout is not None
        told = [call.stdout.readline().rstrip() for _ in lines]
        client.xadd("some logs", {"line": "one more"})
        assert (told, call.stdout.readline()) == (lines, "one more\n"), "followed"
        server.kill()
        server.start()
        assert call.wait(timeout=SECONDS) == 2, "a server that was started anew"


def test_no_logs(server: Server) -> None:
    assert collected(server, "--logs", "none") == (0, [], "")


def test_an_entry_that_is_no_line(server: Server) -> None:
    server.client.xadd("other logs", {"it": "is no line"}, id="1-0")
    assert collected(server, "--logs", "other logs") == (
        2, [], "wcpcollect: entry 1-0 of other logs is no line of a log\n")
