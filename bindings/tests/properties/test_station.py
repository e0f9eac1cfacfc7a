"""One station: whatever is interrupted, lost or replaced, what the server has is what durably happened. No note is lost
that a call confirmed, none comes twice, and a call is refused only by a name that what happened allows."""

from typing import Any, List, Optional, Type

import redis  # type: ignore[import]
from hypothesis import strategies as st
from hypothesis.stateful import invariant, precondition, rule

import wullaphi
from wullaphi._line import Spoilt, run_token
from wullaphi._note import Note
from wullaphi._opening import EPOCH_SIZE
from wullaphi._probe import Probe, to_header
from wullaphi.station import Changed, Interrupted, OtherRun, Station, TakenOver

from .durable import Close, Receive
from .model_faults import Fault, Kind
from .model_values import Stream
from .site import LATER, allowed, faults, is_out_of_memory, losses
from .station_calls import ADA, BEN, StationCalls

tags = st.sampled_from([0, 1, 2, 2 ** 64 - 1])
calls = st.sampled_from(["true", "true", "false", "stamp", "receive"])
words = st.one_of(calls, st.just("write"))
openings = st.one_of(st.none(), st.builds(Fault, st.sampled_from(list(set(Kind) - {Kind.DELETED})),
                                          st.integers(0, 40), losses, st.just(b"")))


class StationMachine(StationCalls):
    """What happens to Ada's station and to the server."""

    # The calls.

    @precondition(lambda self: not self.station.is_closed)
    @rule(word=calls, tag=tags, fault=faults)
    def call(self, word: str, tag: int, fault: Optional[Fault]) -> None:
        self.make(lambda: self.do(word, tag), fault, at_once=word == "stamp")

    @precondition(lambda self: not self.station.is_closed)
    @rule(parts=st.lists(st.tuples(words, tags), max_size=4), fault=faults)
    def step(self, parts: Any, fault: Optional[Fault]) -> None:
        def steps() -> None:
            with self.station.step() as pipe:
                for word, tag in parts:
                    self.do(word, tag, pipe)
        self.make(steps, fault, at_once=True)

    @precondition(lambda self: not self.station.is_closed)
    @rule(word=words, fault=faults)
    def step_that_raises(self, word: str, fault: Optional[Fault]) -> None:
        def steps() -> None:
            with self.station.step() as pipe:
                self.do(word, 1, pipe)
                raise KeyError
        steps_before = self.site.steps
        self.make(steps, fault, KeyError)
        assert self.site.steps == steps_before

    @precondition(lambda self: not self.station.is_closed and not self.is_broken and not self.is_stale)
    @rule(word=words, is_changed=st.booleans())
    def step_on_a_key(self, word: str, is_changed: bool) -> None:
        def steps() -> None:
            with self.station.step() as pipe:
                self.station.transport.watch("mine")  # type: ignore[attr-defined]
                if is_changed:
                    self.site.server.run(b"INCR", b"mine")
                self.do(word, 1, pipe)
                self.do("write", 1, pipe)
        if self.site.server.is_full:
            return
        steps_before = self.site.steps
        error = self.make(steps, None, Changed, at_once=True)
        assert isinstance(error, Changed) == is_changed
        assert not is_changed or self.site.steps == steps_before

    @precondition(lambda self: not self.station.is_closed)
    @rule(fault=faults)
    def step_with_a_wrong_write(self, fault: Optional[Fault]) -> None:
        """The server refuses a write of the program's own as it does it. All else is done."""
        def steps() -> None:
            with self.station.step() as pipe:
                pipe.incr("wrong")
                self.do("write", 0, pipe)
                self.do("stamp", 0, pipe)
        self.site.server.run(b"RPUSH", b"wrong", b"it")
        self.make(steps, fault, redis.ResponseError, at_once=True)

    @precondition(lambda self: not self.station.is_closed)
    @rule(tag=tags, fault=faults)
    def close(self, tag: int, fault: Optional[Fault]) -> None:
        def close() -> None:
            self.site.doing[ADA].append(Close(tag))
            self.station.close(tag)
        self.make(close, fault, at_once=True)

    @rule(fault=faults)
    def flush(self, fault: Optional[Fault]) -> None:
        self.make(self.station.flush, fault, at_once=True)

    @rule(fault=faults)
    def check(self, fault: Optional[Fault]) -> None:
        """It shows what has happened to the server."""
        was_stale = self.is_stale
        error = self.make(self.station.check, fault, TakenOver)
        assert error is not None or not was_stale, "what happened to the server isn't seen"

    @precondition(lambda self: bool(self.station.is_closed))
    @rule(word=st.sampled_from(["true", "stamp", "receive"]))
    def call_behind_the_end(self, word: str) -> None:
        error = self.make(lambda: self.do(word, 0), None, wullaphi.Closed)
        assert error is not None

    @precondition(lambda self: not self.station.is_closed and not self.is_stale)
    @rule(run=st.sampled_from(["", "0" * 40, "of the epoch"]))
    def receive_of_another_run(self, run: str) -> None:
        line = self.station.transport._line  # type: ignore[attr-defined]
        told = run_token(line, "another epoch") if run == "of the epoch" else run
        header = f"{to_header(self.ben.stamp(ADA))}.{told}"
        error = self.make(lambda: self.station.receive(header), None, OtherRun)
        assert error is not None

    @precondition(lambda self: not self.station.is_closed)
    @rule(fault=faults)
    def receive_of_this_run(self, fault: Optional[Fault]) -> None:
        def receive() -> None:
            self.site.doing[ADA].append(Receive(self.number()))
            self.station.receive(f"{to_header(self.ben.stamp(ADA))}.{self.station.transport.run}")
        self.make(receive, fault)

    # It goes on from what is kept.

    @rule(fault=openings)
    def resume(self, fault: Optional[Fault]) -> None:
        self.site.waiting[ADA] = []
        self.judge_opening(fault, self.site.attempt(ADA, fault, self.station.resume))

    @rule(fault=openings)
    def start_again(self, fault: Optional[Fault]) -> None:
        self.restart(fault)

    def restart(self, fault: Optional[Fault]) -> None:
        """The process is killed and started again; or the old one lives on."""
        def start() -> None:
            self.station = self.opened()
        self.older.append(self.station)
        self.site.waiting[ADA] = []
        error = self.site.attempt(ADA, fault, start)
        self.judge_opening(fault, error)
        if error is not None:
            self.site.server.is_full = False
            self.judge_opening(None, self.site.attempt(ADA, None, start))

    def judge_opening(self, fault: Optional[Fault], error: Optional[BaseException]) -> None:
        """It goes on from what is there, unless something happened meanwhile."""
        self.site.waiting[ADA] = []
        self.is_broken, self.is_stale = error is not None, False
        if error is None and fault is not None and self.site.has_met:
            self.is_stale = self.is_gone()
            assert fault.kind in LATER or (fault.kind is Kind.FAILED_BACK and fault.at < 2), f"{fault} isn't seen"
        if error is None:
            return
        reasons: List[Type[BaseException]] = []
        if fault is not None and self.site.has_met:
            reasons += [*allowed(fault), *([TakenOver, Spoilt] if fault.kind in LATER else [])]
        is_full = self.site.server.is_full and is_out_of_memory(error)
        assert is_full or isinstance(error, tuple(reasons)), f"it doesn't open: {error!r}"

    @precondition(lambda self: self.older and not self.site.server.is_full)
    @rule(word=st.sampled_from(["true", "stamp", "check"]), data=st.data())
    def call_of_an_older_one(self, word: str, data: Any) -> None:
        """A station that a newer one has taken over from does nothing more."""
        self.need_refused(data.draw(st.sampled_from(self.older)), word)

    @precondition(lambda self: not self.site.server.is_full)
    @rule(word=st.sampled_from(["true", "stamp"]))
    def take_over(self, word: str) -> None:
        """A newer station comes in the middle of the work of an older one."""
        older = self.station
        self.restart(None)
        self.need_refused(older, word)

    def need_refused(self, older: Station, word: str) -> None:
        """A call of a station that isn't the newest writes nothing, and says why."""
        steps, stream = self.site.steps, self.entries()
        error = self.site.attempt(ADA, None, lambda: self.ask(older, word))
        assert (self.site.steps, self.entries()) == (steps, stream), "an older station has written"
        assert word == "true" or isinstance(error, (TakenOver, Interrupted, wullaphi.Closed)), repr(error)

    @staticmethod
    def ask(station: Station, word: str) -> None:
        """A call of a station."""
        if word == "true":
            station.observe(True)
        elif word == "stamp":
            station.stamp(BEN)
        else:
            station.check()

    # What happens to the server meanwhile.

    @rule(lost=losses, how=st.sampled_from(["restart", "fail_back"]))
    def replace(self, lost: int, how: str) -> None:
        getattr(self.site.server, how)(lost)
        self.is_stale = True

    @rule()
    def empty(self) -> None:
        self.site.server.run(b"FLUSHALL")
        self.is_stale = True

    @rule(is_full=st.booleans())
    def fill(self, is_full: bool) -> None:
        self.site.server.is_full = is_full

    @precondition(lambda self: not self.site.server.is_full)
    @rule()
    def save_of_another_process(self) -> None:
        """A probe of Ben's that has given as many notes is no probe of Ada's."""
        key = self.site.keys.probe(ADA).encode()
        held, told = self.site.server.data.values.get(key), self.site.come_to(ADA)
        if not isinstance(held, bytes):
            return
        foreign = Probe(self.site.watch, BEN, flag_of_sends=self.site.flag_of_sends)
        for note in told.notes:
            _ = foreign.close() if note.is_last else (foreign.observe(True), foreign.stamp(ADA))
        moments = len(self.site.server.journal)
        with self.site.foreign():
            self.site.server.run(b"SET", key, held[:EPOCH_SIZE] + foreign.to_bytes())
        error = self.site.attempt(ADA, None, self.station.resume)
        # Where an opening was cut off on a server that lost all, that is told first.
        refusals = (wullaphi.NoProbe, Spoilt) if self.is_broken or self.is_stale else (wullaphi.NoProbe,)
        assert isinstance(error, refusals), f"another process's probe is taken: {error!r}"
        self.site.server.lose(len(self.site.server.journal) - moments)
        self.site.waiting[ADA], self.is_broken = [], True

    # What the server has.

    def entries(self) -> Any:
        """The entries of Ada's stream."""
        stream = self.site.server.data.values.get(self.site.keys.notes(ADA).encode(), Stream())
        return stream.entries if isinstance(stream, Stream) else stream

    @invariant()
    def notes_are_those_of_what_durably_happened(self) -> None:
        if not hasattr(self, "site"):
            return
        told = self.site.come_to(ADA)
        notes = [Note(fields[1]) for _, fields in self.entries()]
        assert [entry for entry, _ in self.entries()] == [(at + 1, 0) for at in range(len(told.notes))]
        assert [(it.process, it.number) for it in notes] == [(ADA, at) for at in range(len(told.notes))]
        found = [(note.tag, note.is_last, None if note.is_last else note.clock[ADA]) for note in notes]
        assert found == [(it.tag, it.is_last, None if it.is_last else it.interval) for it in told.notes]
        log = self.site.server.data.values.get(self.site.log(ADA), ())
        assert log == tuple(b"%d" % it for it in told.writes)

    @invariant()
    def it_knows_of_all_it_did(self) -> None:
        if hasattr(self, "site") and not self.is_broken and not self.is_stale:
            assert not self.station.is_interrupted
            events = len(self.site.in_memory(ADA).events)
            assert f"clock=({events}, " in repr(self.station)


TestStation = StationMachine.TestCase
