"""Logs with vector clocks by the names of hosts: files, text streams, records of `logging`, what is refused, and what a
line holds."""

from __future__ import annotations

import io
import json
import logging
import pathlib
import time
from typing import Any, Callable, Iterable

import pytest
from shared import ignore, run_together

import wullaphi
from wullaphi.log import LONGEST, MOST_EVENTS, HostLog

EVENTS = 500
KEY = "a secret"


def test_a_file_of_hosts_and_threads(tmp_path: pathlib.Path) -> None:
    """They share it, and each line is whole."""
    path = tmp_path / "log"
    logs = [HostLog(name, path) for name in ("ada", "ben")]

    def write(log: HostLog) -> None:
        for _ in range(EVENTS):
            log.event("x" * 3000)

    run_together(*(lambda log=log: write(log) for log in logs for _ in range(2)))
    events = [json.loads(line) for line in path.read_text().splitlines()]
    for name in ("ada", "ben"):
        counts = [it["clock"][name] for it in events if it["host"] == name]
        assert counts == list(range(1, 2 * EVENTS + 1)), f"the events of {name}"
    HostLog("cleo", str(path)).event("comes later")
    assert len(path.read_text().splitlines()) == 4 * EVENTS + 1, "it is appended"


def test_a_stream() -> None:
    out = io.StringIO()
    ada, ben = HostLog("ada", out), HostLog("ben", out)
    ben.receive(ada.send("asks"), "is asked")
    ada.receive(ben.stamp("ada"))
    told = [(it["host"], it["clock"], it["event"]) for it in map(json.loads, out.getvalue().splitlines())]
    assert told == [
        ("ada", {"ada": 1}, "asks"), ("ben", {"ada": 1, "ben": 1}, "is asked"),
        ("ben", {"ada": 1, "ben": 2}, "sends to ada"), ("ada", {"ada": 2, "ben": 2}, "receives a message")], "a stream"


def test_a_stream_that_is_open(tmp_path: pathlib.Path) -> None:
    """A line is in the file as soon as its event is counted, also where the test has the file open."""
    path = tmp_path / "open"
    with open(path, "w", encoding="utf-8") as out:
        log = HostLog("ada", out)
        for count in (1, 2):
            log.event("it")
            assert len(path.read_text().splitlines()) == count, "lines while the file is open"


def test_threads_that_share_a_log(switch_every: Callable[[float], None]) -> None:
    """They count each event once, and no line goes back."""
    switch_every(1e-6)
    lines: list[str] = []
    sent: list[str] = []

    def keep(line: str) -> None:
        lines.append(line)
        time.sleep(0)  # other threads go on meanwhile

    log, ben = HostLog("ada", keep), HostLog("ben", ignore)

    def talk() -> None:
        for number in range(EVENTS):
            if number % 2:
                log.receive(ben.send("asks"))
            else:
                sent.append(log.send("answers"))

    run_together(*[talk] * 4)
    clocks = [json.loads(line)["clock"] for line in lines]
    assert [it["ada"] for it in clocks] == list(range(1, 4 * EVENTS + 1)), "each event is counted once"
    known = [it.get("ben", 0) for it in clocks]
    assert all(before <= now for before, now in zip(known, known[1:])), "no line goes back"
    assert len({json.loads(it)["ada"] for it in sent}) == 2 * EVENTS, "each header has its own event"


def test_the_texts_of_events() -> None:
    lines: list[str] = []
    log = HostLog('a "host", ü', lines.append)
    for text in ("two\nlines", "ü", "a lone half \ud800", ""):
        log.event(text)
    assert [json.loads(line)["event"] for line in lines] == ["two\nlines", "ü", "a lone half ?", ""], "texts"
    assert all(line.isascii() and "\n" not in line for line in lines), "lines"
    assert json.loads(lines[0])["host"] == 'a "host", ü', "the host"
    room = LONGEST - len(lines[-1])
    with pytest.raises(ValueError):
        log.event("x" * (room + 1))
    assert (len(lines), log.clock[log.name]) == (4, 4), "nothing is counted"
    log.event("x" * room)
    assert len(lines[-1]) == LONGEST, "the longest"


@pytest.mark.parametrize("header", [
    "", "no clock", "[1]", "7", '{"ben":-1}', '{"ben":true}', '{"ben":1.5}', '{"ben":"1"}', "[" * 200_000,
    '{"ben":%d}' % (MOST_EVENTS + 1)], ids=lambda header: header[:20] or "nothing")
def test_a_header_that_is_refused(header: str) -> None:
    log = HostLog("ada", ignore)
    with pytest.raises(wullaphi.NoStamp):
        log.receive(header)
    assert log.clock == {"ada": 0}, "nothing has happened"


def test_a_header_of_events_that_were_not_made() -> None:
    log = HostLog("ada", ignore)
    with pytest.raises(wullaphi.Ahead):
        log.receive('{"ada":1}')
    assert log.clock == {"ada": 0}, "nothing has happened"


def test_the_end_of_a_clock_of_hosts() -> None:
    log = HostLog("ada", ignore)
    log.receive('{"ben":%d}' % MOST_EVENTS)
    assert log.clock == {"ada": 1, "ben": MOST_EVENTS}, "the greatest"
    log._clock["ada"] = MOST_EVENTS
    with pytest.raises(wullaphi.ClockEnd):
        log.event("one more")


def clock_of(hosts: Iterable[str], count: int = 1) -> str:
    return json.dumps(dict.fromkeys(hosts, count), separators=(",", ":"))


def headers_of_strangers() -> list[str]:
    """More hosts than a line has room for."""
    of_many = [clock_of(f"stranger{number}.{it}" + 60 * "y" for it in range(100)) for number in range(20)]
    return [*of_many, clock_of(["eve"]), *(clock_of([60 * "z" + str(it)]) for it in range(900))]


def test_that_strangers_leave_room_for_events() -> None:
    lines: list[str] = []
    ada, ben = HostLog("ada", lines.append), HostLog("ben", ignore)
    for header in headers_of_strangers():
        ada.receive(header)
    ada.event("x" * 30_000)
    assert len(lines[-1]) > 30_000, "there is room for an event"
    assert ada.receive(ben.send("asks"), "is asked") is True, "a header of a host"


@pytest.mark.parametrize("words", [
    {"hosts": ["ada", "ben"]}, {"key": KEY}, {"hosts": ["ada", "ben"], "key": b"a secret"}],
    ids=["hosts are named", "there is a key", "both"])
def test_that_strangers_do_not_fill_a_clock(words: dict[str, Any]) -> None:
    lines: list[str] = []
    ada = HostLog("ada", lines.append, **words)
    ben, eve = HostLog("ben", ignore, key=words.get("key")), HostLog("eve", ignore)
    for header in headers_of_strangers():
        ada.receive(header)
    assert (ada.clock, lines) == ({"ada": 0}, []), "nothing of strangers"
    ada.event("x" * 30_000)
    assert len(lines[-1]) > 30_000, "there is room for an event"
    assert ada.receive(ben.send("asks"), "is asked") is True, "a header of a host"
    assert ada.clock == {"ada": 2, "ben": 1}, "its count"
    assert ada.receive(eve.send("says")) is False, "a forged count"


def test_a_header_of_which_some_hosts_are_named() -> None:
    lines: list[str] = []
    ada = HostLog("ada", lines.append, hosts=["ben"])
    assert ada.receive(clock_of(["eve", "ben", "ben.2", "ben.3f"], 7)) is True, "some of the hosts"
    assert ada.clock == {"ada": 1, "ben": 7, "ben.2": 7, "ben.3f": 7}, "later runs are of the host"
    for number in range(1000):
        ada.receive(clock_of([f"ben.{number}" + 60 * "y"]))
    ada.event("x" * 30_000)
    with pytest.raises(TypeError):
        HostLog("ada", print, hosts="ben")


def test_headers_with_a_key() -> None:
    ada, ben = HostLog("ada", ignore, key=KEY), HostLog("ben", ignore, key=KEY)
    header = ben.send("asks")
    assert header.isascii() and "\n" not in header and len(header) < 100, "a header is short text"
    changed = header.replace('"ben":1', '"ben":9')
    told = [ada.receive(it) for it in (header, changed, header[:-1], header + "x", '{"ben":1}', "", "é\ud800")]
    assert told == [True, False, False, False, False, False, False], "headers with the key"
    assert HostLog("cleo", ignore).receive(header) is True, "one without a key reads it"


def test_a_line_that_cannot_be_written() -> None:
    """Its event is counted, and leaves a hole."""
    lines: list[str] = []
    tries: list[str] = []

    def write(line: str) -> None:
        tries.append(line)
        if len(tries) == 2:
            raise OSError("the disk is full")
        lines.append(line)

    log = HostLog("ada", write)
    log.event("it")
    with pytest.raises(OSError):
        log.event("it")
    log.event("it")
    assert [json.loads(line)["clock"]["ada"] for line in lines] == [1, 3], "the numbers"


def test_records_of_logging(monkeypatch: pytest.MonkeyPatch) -> None:
    monkeypatch.setattr(logging, "raiseExceptions", False)
    lines: list[str] = []
    logger = logging.Logger("of ada")
    handler = HostLog("ada", lines.append).handler(logging.INFO)
    handler.setFormatter(logging.Formatter("%(levelname)s %(message)s"))
    logger.addHandler(handler)
    logger.debug("not this")
    logger.info("holds %s", "the lock")
    logger.info("x" * LONGEST)
    logger.info("goes on")
    records = [(it["clock"]["ada"], it["event"]) for it in map(json.loads, lines)]
    assert records == [(1, "INFO holds the lock"), (2, "INFO goes on")]
