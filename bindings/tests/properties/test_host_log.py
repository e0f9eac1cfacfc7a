"""Logs of hosts: whatever threads do in which order, and whatever a file refuses, each line is whole, and its clock is
that of a model."""

import contextlib
import io
import json
import pathlib
import resource
import tempfile
from typing import Any, Callable, Dict, List, Optional, Tuple

import wullaphi
from hypothesis import given
from hypothesis import strategies as st
from hypothesis.stateful import RuleBasedStateMachine, initialize, invariant, rule
from wullaphi.log import LONGEST, MOST_EVENTS, HostLog

from .turns import Turns

HOSTS = ["ada", "ben", 'c "ü"']
hosts = st.sampled_from(range(len(HOSTS)))
texts = st.one_of(st.sampled_from(["", "it", "two\nlines", "\x00\ud800", '"}', "é" * 9]), st.text(max_size=9))
headers = st.recursive(
    st.one_of(st.none(), st.booleans(), st.integers(-1, 3), st.just(MOST_EVENTS + 1), st.floats(), st.text(max_size=3)),
    lambda inner: st.one_of(st.lists(inner, max_size=2), st.dictionaries(st.sampled_from(HOSTS), inner, max_size=3)))

Clock = Dict[str, int]


class Pipe(io.RawIOBase):
    """A device that may refuse what it is given."""

    def __init__(self) -> None:
        super().__init__()
        self.data = b""
        self.is_broken = False

    def writable(self) -> bool:
        return True

    def write(self, data: Any) -> int:
        if self.is_broken:
            raise OSError("the device is full")
        self.data += bytes(data)
        return len(data)


class Out:
    """Where a log goes, and what has come there."""

    def __init__(self, kind: str, folder: str) -> None:
        self.pipe, self.lines = Pipe(), [""]
        self.path = pathlib.Path(folder, "log")
        self.is_broken = False
        self.kind = kind
        self.lines = []
        self.stream = io.TextIOWrapper(io.BufferedWriter(self.pipe), encoding="utf-8")
        self.sink: Any = {"file": self.path, "name": str(self.path), "stream": self.stream, "call": self.keep}[kind]

    def keep(self, line: str) -> None:
        """A function that a log calls."""
        if self.is_broken:
            raise OSError("the device is full")
        self.lines.append(line)

    def come(self) -> List[str]:
        """The lines that have come."""
        if self.kind == "call":
            return self.lines
        data = self.pipe.data if self.kind == "stream" else self.path.read_bytes()
        assert data == b"" or data.endswith(b"\n")
        return data.decode().split("\n")[:-1]


class HostLogs(RuleBasedStateMachine):
    """Three hosts log to one place and tell each other of their clocks."""

    @initialize(kind=st.sampled_from(["file", "name", "stream", "call"]), key=st.sampled_from([None, "a key"]))
    def begin(self, kind: str, key: Optional[str]) -> None:
        self.folder = tempfile.TemporaryDirectory()
        self.out = Out(kind, self.folder.name)
        self.logs = [HostLog(name, self.out.sink, key=key) for name in HOSTS]
        self.clocks: List[Clock] = [{name: 0} for name in HOSTS]
        self.told: List[Tuple[str, Clock]] = []
        self.wanted: List[Tuple[str, Clock, str]] = []
        self.key = key

    def counted(self, at: int, text: str, more: Clock) -> None:
        """An event of a host that knows of more from now on."""
        clock = self.clocks[at]
        for name, count in more.items():
            clock[name] = max(count, clock.get(name, 0))
        clock[HOSTS[at]] += 1
        self.wanted.append((HOSTS[at], dict(clock), text.encode("utf-8", "replace").decode()))

    @rule(at=hosts, text=texts)
    def event(self, at: int, text: str) -> None:
        self.logs[at].event(text)
        self.counted(at, text, {})

    @rule(at=hosts, text=texts)
    def send(self, at: int, text: str) -> None:
        header = self.logs[at].send(text)
        self.counted(at, text, {})
        self.told.append((header, dict(self.clocks[at])))
        assert header.isascii() and "\n" not in header

    @rule(at=hosts, text=texts, data=st.data())
    def receive(self, at: int, text: str, data: Any) -> None:
        if self.told:
            header, clock = data.draw(st.sampled_from(self.told))
            assert self.logs[at].receive(header, text)
            self.counted(at, text, clock)

    @rule(at=hosts, header=headers)
    def receive_anything(self, at: int, header: Any) -> None:
        """What is no clock, or comes without the key, isn't received."""
        is_clock = isinstance(header, dict) and all(
            type(it) is int and 0 <= it <= MOST_EVENTS for it in header.values())
        text = json.dumps(header)
        if self.key is not None:
            assert not self.logs[at].receive(text)
        elif not is_clock:
            self.refused(wullaphi.NoStamp, lambda: self.logs[at].receive(text))
        elif header.get(HOSTS[at], 0) > self.clocks[at][HOSTS[at]]:
            self.refused(wullaphi.Ahead, lambda: self.logs[at].receive(text))
        else:
            assert self.logs[at].receive(text, "it")
            self.counted(at, "it", header)

    @rule(at=hosts)
    def event_of_a_long_text(self, at: int) -> None:
        self.refused(ValueError, lambda: self.logs[at].event("x" * LONGEST))

    @rule(at=hosts, call=st.sampled_from(["event", "send", "receive"]))
    def full_device(self, at: int, call: str) -> None:
        """The event is counted. Its line may come later, where it goes through a stream, and whole."""
        if self.out.kind in ("file", "name"):
            return
        self.out.is_broken = self.out.pipe.is_broken = True
        words = ("{}", "lost") if call == "receive" else ("lost",)
        if call != "receive" or self.key is None:
            self.refused(OSError, lambda: getattr(self.logs[at], call)(*words))
            self.counted(at, "lost", {})
            if self.out.kind == "call":
                self.wanted.pop()
        self.out.is_broken = self.out.pipe.is_broken = False
        if self.out.kind == "stream":
            self.out.stream.flush()

    @rule(at=hosts, room=st.integers(0, 60))
    def full_file(self, at: int, room: int) -> None:
        """There is room for a part of a line. The rest comes with the next one, so that both are whole."""
        if self.out.kind in ("stream", "call"):
            return
        before = resource.getrlimit(resource.RLIMIT_FSIZE)
        resource.setrlimit(resource.RLIMIT_FSIZE, (self.out.path.stat().st_size + room, before[1]))
        try:
            self.refused(OSError, lambda: self.logs[at].event("it is more than there is room for"))
        finally:
            resource.setrlimit(resource.RLIMIT_FSIZE, before)
        self.counted(at, "it is more than there is room for", {})
        if room == 0:
            self.wanted.pop()
        self.event(at, "goes on")

    @rule(at=hosts)
    def end_of_a_clock(self, at: int) -> None:
        if self.key is None and self.clocks[at][HOSTS[at]] == 0:
            log = HostLog(HOSTS[at], self.out.lines.copy().append)
            log._clock[HOSTS[at]] = MOST_EVENTS
            self.refused(wullaphi.ClockEnd, lambda: log.event("one more"))

    @staticmethod
    def refused(kind: Any, call: Callable[[], Any]) -> None:
        """This call is refused."""
        try:
            call()
        except kind:
            return
        raise AssertionError(f"it isn't refused by {kind.__name__}")

    @invariant()
    def lines_are_those_of_the_model(self) -> None:
        if hasattr(self, "out"):
            told = [json.loads(line) for line in self.out.come()]
            assert [(it["host"], it["clock"], it["event"]) for it in told] == self.wanted
            assert [log.clock for log in self.logs] == self.clocks

    def teardown(self) -> None:
        if hasattr(self, "folder"):
            self.folder.cleanup()


TestHostLogs = HostLogs.TestCase


@given(data=st.data(), works=st.lists(st.lists(st.sampled_from(["event", "send", "receive"]), min_size=1, max_size=4),
                                      min_size=2, max_size=3))
def test_threads_share_a_log(data: Any, works: List[List[str]]) -> None:
    """Each event is counted once, no line goes back, and a header tells of the event that it was made by."""
    lines: List[str] = []
    sent: List[Tuple[int, Clock]] = []
    turns = Turns(lambda waiting: int(data.draw(st.sampled_from(waiting))))

    def keep(line: str) -> None:
        turns.give()
        lines.append(line)
        turns.give()

    log = HostLog("ada", keep)
    log._lock = turns.lock()
    forged = iter(range(1, 99))

    def work(number: int, words: List[str]) -> None:
        for word in words:
            if word == "send":
                sent.append((number, json.loads(log.send(f"by {number}"))))
            elif word == "receive":
                log.receive(json.dumps({"ben": next(forged)}), "ben")
            else:
                log.event("it")

    turns.run([lambda number=number, words=words: work(number, words)  # type: ignore[misc]
               for number, words in enumerate(works)])
    told = [json.loads(line) for line in lines]
    assert [it["clock"]["ada"] for it in told] == list(range(1, sum(map(len, works)) + 1))
    known = [it["clock"].get("ben", 0) for it in told]
    assert known == sorted(known)
    of_sends = {it["clock"]["ada"]: (it["event"], it["clock"]) for it in told if it["event"].startswith("by")}
    assert {clock["ada"]: (f"by {number}", clock) for number, clock in sent} == of_sends


@given(count=st.integers(1, 3))
def test_closed_stream(count: int) -> None:
    """A stream that is closed refuses its lines; the events are counted."""
    out = io.StringIO()
    log = HostLog("ada", out)
    out.close()
    for _ in range(count):
        with contextlib.suppress(ValueError):
            log.event("it")
    assert log.clock == {"ada": count}
