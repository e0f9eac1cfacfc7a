"""A machine of stations that send messages and of a collector, for the tests of what a collector says."""


from typing import Any, Dict, List, Optional, Tuple, Type

import pytest
from hypothesis import strategies as st
from hypothesis.stateful import RuleBasedStateMachine, initialize, precondition, rule
from wullaphi._line import Spoilt, Unreachable
from wullaphi._probe import Probe
from wullaphi.collect import Anew, Collector, Gap, Lost
from wullaphi.redis import open_station
from wullaphi.station import Station

from .durable import Close, Deed, History, Impossible, Observe, Process, Receive, Send
from .model_faults import Fault
from .model_values import Stream
from .site import LATER, Site, faults, losses

NAMES = ["ada", "ben", "cleo"]
processes = st.integers(0, 2)
# A collector that meets nothing comes to rest within so many polls.
POLLS = 20
LOST_AFTER = 5.0


class Clock:
    """The time of the collector."""

    def __init__(self) -> None:
        self.now = 0.0

    def monotonic(self) -> float:
        """The time."""
        return self.now

    def sleep(self, _: float) -> None:
        """Nothing comes meanwhile."""


clock = Clock()


class CollectorMachine(RuleBasedStateMachine):
    """Three processes, and a collector that asks of each two, or of all."""

    collector: Collector

    @initialize(words=st.fixed_dictionaries({
        "asked": st.sampled_from(["all", "pairs", "two"]), "save": st.sampled_from([None, "here"]),
        "trim": st.booleans(), "lost_after": st.sampled_from([None, None, LOST_AFTER]),
        "save_every": st.sampled_from([0.0, 1000.0])}),
        lasts=st.booleans(), late=st.lists(processes, max_size=2))
    def begin(self, words: Dict[str, Any], lasts: bool, late: List[int]) -> None:
        self.site = Site(NAMES)
        self.words: Dict[str, Any] = {**words, "trim": words["trim"] and words["save"] is not None}
        asked = self.words.pop("asked")
        self.words |= {"pairs": asked == "pairs", "questions": [NAMES[:2]] if asked == "two" else []}
        self.lasts = lasts
        self.count = 0
        self.letters: List[Tuple[int, int, str]] = []
        self.is_gone = False
        self.lost: Dict[str, int] = {}
        self.stations: List[Optional[Station]] = [None] * len(NAMES)
        for at in set(range(len(NAMES))) - set(late):
            self.start(at)
        self.collector = self.started()

    def started(self, **words: Any) -> Collector:
        """A collector."""
        told: Dict[str, Any] = {**self.words, **words}
        return Collector(self.site.server.url, self.site.watch.number, **told)

    def start(self, at: int) -> None:
        """Starts a process, again or for the first time. Where keys are gone it may be refused."""
        self.site.waiting[at] = []
        try:
            self.stations[at] = open_station(self.site.server.url, self.site.watch, at, lasts=self.lasts, beat=None)
        except Spoilt:
            assert self.is_gone
            self.stations[at] = None

    # What the processes do.

    def make(self, at: int, deeds: List[Deed], fault: Optional[Fault], call: Any) -> Optional[BaseException]:
        """Makes a step of a process, which is started again where it fails."""
        station = self.stations[at]
        if station is None or station.is_closed:
            return None
        begin = station.step

        def step() -> None:
            self.site.doing[at] += deeds
            with begin() as pipe:
                call(station, pipe)
        error = self.site.attempt(at, fault, step)
        if self.site.has_met and fault is not None:
            self.is_gone = self.is_gone or fault.kind in LATER
        if error is not None:
            self.start(at)
        return error

    @rule(at=processes, holds=st.booleans(), tag=st.integers(0, 3), fault=faults)
    def observe(self, at: int, holds: bool, tag: int, fault: Optional[Fault]) -> None:
        self.make(at, [Observe(holds, tag, self.lasts)], fault, lambda station, _: station.observe(holds, tag))

    @rule(at=processes, to=processes, fault=faults)
    def send(self, at: int, to: int, fault: Optional[Fault]) -> None:
        """The header stays in memory, as of a message over another way."""
        if at == to:
            return
        self.count += 1
        number, told = self.count, []
        error = self.make(at, [Send(number)], fault, lambda station, _: told.append(station.stamp(to)))
        if told and error is None:
            self.letters.append((to, number, told[0]))

    @rule(data=st.data(), fault=faults, holds=st.booleans())
    def receive(self, data: Any, fault: Optional[Fault], holds: bool) -> None:
        """What was sent may be lost meanwhile; then it isn't received."""
        if not self.letters:
            return
        letter = data.draw(st.sampled_from(self.letters))
        to, number, header = letter
        self.letters.remove(letter)
        deeds: List[Deed] = [Receive(number), *([Observe(True, number, self.lasts)] if holds else [])]

        def call(station: Station, _: Any) -> None:
            station.receive(header)
            if holds:
                station.observe(True, number)
        self.make(to, deeds, fault, call)

    @rule(at=processes, fault=faults)
    def close(self, at: int, fault: Optional[Fault]) -> None:
        self.make(at, [Close(0)], fault, lambda station, _: station.close())

    @rule(at=processes)
    def restart_process(self, at: int) -> None:
        self.start(at)

    @rule(at=st.lists(processes, max_size=3))
    def time_passes(self, at: List[int]) -> None:
        """Some show that they are alive."""
        clock.now += LOST_AFTER * 0.6
        for it in at:
            self.site.server.run(b"INCR", self.site.keys.beat(it).encode())

    # What happens to the server.

    @rule(lost=losses, how=st.sampled_from(["restart", "fail_back"]))
    def replace(self, lost: int, how: str) -> None:
        getattr(self.site.server, how)(lost)

    @rule()
    def empty(self) -> None:
        self.site.server.run(b"FLUSHALL")

    @rule(at=processes, data=st.data())
    def delete_key(self, at: int, data: Any) -> None:
        keys = self.site.keys
        key = data.draw(st.sampled_from([keys.notes(at), keys.notes(at), keys.probe(at), keys.owner(at),
                                         keys.conditions, keys.names, keys.saved("here")]))
        self.is_gone = True
        self.site.server.run(b"DEL", key.encode())

    @rule(at=processes, data=st.data())
    def delete_entry(self, at: int, data: Any) -> None:
        """A note that the collector hasn't read is gone from the stream: it says so."""
        entries = self.entries(at)
        if entries:
            self.is_gone = True
            entry = data.draw(st.sampled_from(entries))[0]
            self.site.server.run(b"XDEL", self.site.keys.notes(at).encode(), b"%d-%d" % entry)

    @precondition(lambda self: not self.is_gone and not self.words["trim"])
    @rule(at=processes, of=processes, before=st.integers(0, 2))
    def forge(self, at: int, of: int, before: int) -> None:
        """An entry with a note of another process or number is none of the stream."""
        for it in range(len(NAMES)):
            self.start(it)
        count, moments = len(self.entries(at)), len(self.site.server.journal)
        ended = count > 0 and self.site.come_to(at).is_closed
        if ended or self.stations[at] is None or (at == of and before == 0) or count < before:
            return
        probe = Probe(self.site.watch, of)
        notes = [(probe.observe(True), probe.stamp((of + 1) % 3)) for _ in range(count - before + 1)]
        forged = notes[-1][0]
        assert forged is not None
        with self.site.foreign():
            self.site.server.run(b"XADD", self.site.keys.notes(at).encode(), b"%d-0" % (count + 1), b"note", forged)
        with pytest.raises(Gap):
            self.rest(self.started(save=None, trim=False, lost_after=None))
        self.site.server.lose(len(self.site.server.journal) - moments)

    def entries(self, at: int) -> Any:
        """The entries of a stream."""
        return self.stream(at).entries

    def stream(self, at: int) -> Stream:
        """The stream of a process."""
        held = self.site.server.data.values.get(self.site.keys.notes(at).encode(), Stream())
        assert isinstance(held, Stream)
        return held

    # What the collector says.

    @rule(fault=faults)
    def poll(self, fault: Optional[Fault]) -> None:
        """Polls once. Its answer is right for what the server has, or had before a fault."""
        truths = [self.site.server.beside]
        error = self.polled(fault)
        truths.append(self.site.server.beside)
        if error is None:
            assert any(self.is_right(truth) for truth in truths), self.said()

    def polled(self, fault: Optional[Fault]) -> Optional[BaseException]:
        """A poll that may meet a fault. The collector is started anew where it has to be."""
        news: List[Any] = []
        error = self.site.attempt(0, fault, lambda: news.extend(self.collector.poll()))
        has_met = self.site.has_met and fault is not None
        for event in news:
            if isinstance(event, Lost):
                self.lost[event.process] = self.collector.taken[event.process]
            elif isinstance(event, Anew):
                self.lost = {}
        if error is None:
            return None
        reasons: List[Type[BaseException]] = [Gap, Spoilt] if self.is_gone else []
        reasons += [Unreachable, KeyboardInterrupt] if has_met else []
        if fault is not None and fault.kind in LATER and has_met:
            reasons += [Gap, Spoilt]
        # It meets the end of a line at its next poll.
        assert isinstance(error, (Unreachable, *reasons)), f"it fails for nothing: {error!r}"
        line = self.collector.streams._line
        assert not isinstance(error, KeyboardInterrupt) or line is None or not line.is_open, "the line is open"
        if not isinstance(error, Unreachable):
            self.restart_collector()
        return error

    @rule()
    def restart_collector(self) -> None:
        self.collector = self.started()
        self.lost = {}

    @rule()
    def come_to_rest(self) -> None:
        """It has read all that the server has, and says what follows from that."""
        try:
            self.rest(self.collector)
        except (Gap, Spoilt) as error:
            assert self.is_gone, repr(error)
            self.restart_collector()
            return
        assert self.is_right(self.site.server.beside), self.said()
        for at, name in enumerate(self.collector.streams.names):
            if self.collector.questions and not self.collector.is_done:
                assert self.collector.taken[name] == self.stream(at).last[0], f"{name}: {self.collector.taken}"
                assert self.is_gone or self.lost or self.has_all(at), f"notes of {name} went into no report"
        if not self.is_gone and not self.lost:
            self.judge_rest()

    def has_all(self, at: int) -> bool:
        """Whether all snapshots that were read of a process went into the report."""
        told = [it for it in self.site.come_to(at).notes[:self.collector.taken[NAMES[at]]] if not it.is_last]
        return self.collector.questions[0].checker.taken(NAMES[at]) == len(told)

    def rest(self, collector: Collector) -> None:
        """Polls until nothing is new."""
        for _ in range(POLLS):
            before = dict(collector.taken)
            try:
                events = collector.poll()
            except Unreachable:
                continue
            for event in events:
                if isinstance(event, Lost):
                    self.lost[event.process] = collector.taken[event.process]
                elif isinstance(event, Anew):
                    self.lost = {}
            if not events and before == collector.taken:
                return
        raise AssertionError("it doesn't come to rest")

    def judge_rest(self) -> None:
        """What it says where nothing is missing. There is nothing once all processes have closed, asked for or not."""
        history = self.history(self.site.server.beside)
        for question in self.collector.questions:
            asked = [NAMES.index(name) for name in question.processes]
            if "lost" in self.collector.ended.values():
                return
            if history.cut(asked) is not None:
                assert question.known == "found", f"it misses {history.cut(asked)}"
            else:
                assert question.known == ("nothing" if self.are_closed(history) else "undecided")

    @staticmethod
    def are_closed(history: History) -> bool:
        """Whether all processes have ended their part."""
        return all(it.is_closed for it in history.processes)

    def history(self, beside: Any) -> History:
        """What happened."""
        return History([Process(deeds) for deeds in beside])

    def is_right(self, beside: Any) -> bool:
        """Whether what the collector says is true of this."""
        said = [(question, question.known) for question in self.collector.questions]
        if all(known == "undecided" for _, known in said):
            return True
        try:
            history = self.history(beside)
        except Impossible:
            return False
        return all(self.is_right_of(history, question, known) for question, known in said)

    def is_right_of(self, history: History, question: Any, known: str) -> bool:
        """The same of one question."""
        asked = [NAMES.index(name) for name in question.processes]
        cut = history.cut(asked)
        if known == "nothing":
            return cut is None and not self.lost and self.are_closed(history)
        if known == "undecided":
            return True
        if cut is None or question.found is None:
            return False
        wanted = [(NAMES[at], cut[at], history.processes[at].true[cut[at]]) for at in asked]
        return [tuple(it) for it in question.found.cut] == wanted and all(
            self.was_told(history.processes[at], cut[at], self.lost.get(NAMES[at])) for at in asked)

    @staticmethod
    def was_told(process: Any, interval: int, taken: Optional[int]) -> bool:
        """Whether the note of this interval is one of those that were taken of a process that was called lost."""
        return taken is None or interval in [it.interval for it in process.notes[:taken] if not it.is_last]

    def said(self) -> str:
        """What the collector says."""
        told = [(question.processes, question.known, question.found) for question in self.collector.questions]
        return f"{told}, and not {self.site.server.beside}"
