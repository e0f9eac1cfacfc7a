"""The calls of a station that may be interrupted, and how they may end."""

from typing import Any, Callable, List, Optional, Type

from hypothesis import strategies as st
from hypothesis.stateful import RuleBasedStateMachine, initialize
from wullaphi._probe import Probe, to_header
from wullaphi.redis import open_station
from wullaphi.station import Interrupted, Station

from .durable import Observe, Receive, Send, Write
from .model_faults import Fault
from .site import LATER, Site, allowed, is_out_of_memory

ADA, BEN = 0, 1


class StationCalls(RuleBasedStateMachine):
    """Ada's station. Ben only sends to her."""

    station: Station

    @initialize(batch=st.sampled_from([1, 1, 3]), lasts=st.booleans(), flag_of_sends=st.booleans())
    def begin(self, batch: int, lasts: bool, flag_of_sends: bool) -> None:
        self.site = Site(["ada", "ben"], flag_of_sends)
        self.batch, self.lasts = batch, lasts
        self.older: List[Station] = []
        self.ben = Probe(self.site.watch, BEN)
        self.count = 0
        self.is_broken = self.is_stale = self.is_spoilt = False
        self.station = self.opened()

    def opened(self) -> Station:
        """A station of the process."""
        return open_station(self.site.server.url, self.site.watch, ADA, flag_of_sends=self.site.flag_of_sends,
                            batch=self.batch, lasts=self.lasts, beat=None)

    # What a call does.

    def number(self) -> int:
        """A number that nothing else has."""
        self.count += 1
        return self.count

    def do(self, word: str, tag: int, pipe: Any = None) -> None:
        """One of the words, as a call of the station, and as what the process does."""
        deeds = self.site.doing[ADA]
        if word in ("true", "false"):
            deeds.append(Observe(word == "true", tag, self.lasts))
            self.station.observe(word == "true", tag)
        elif word == "stamp":
            deeds.append(Send(self.number()))
            header = self.station.stamp(BEN)
            assert header.endswith(f".{self.station.transport.run}")
        elif word == "receive":
            deeds.append(Receive(self.number()))
            self.station.receive(to_header(self.ben.stamp(ADA)), stored=True)
        elif pipe is not None:
            number = self.number()
            pipe.rpush(self.site.log(ADA), number)
            deeds.append(Write(number))

    def make(self, call: Callable[[], None], fault: Optional[Fault], *refusals: Type[BaseException],
             at_once: bool = False) -> Optional[BaseException]:
        """Makes a call of the station, and judges how it ended."""
        steps, before = self.site.steps, self.site.in_memory(ADA)
        was_broken, was_stale = self.is_broken, self.is_stale
        error = self.site.attempt(ADA, fault, call)
        is_done = self.site.steps > steps
        assert self.site.steps - steps <= 1, "a step is done twice"
        if was_broken:
            assert isinstance(error, Interrupted) and not is_done, f"it goes on: {error!r}"
        elif error is None:
            self.judge_success(fault, is_done, at_once, was_stale)
        elif isinstance(error, refusals):
            self.is_broken = self.station.is_interrupted
        else:
            self.judge_refusal(fault, error, was_stale)
        if before.is_closed:
            assert not is_done, "a closed process goes on"
        return error

    def judge_success(self, fault: Optional[Fault], is_done: bool, at_once: bool, was_stale: bool) -> None:
        """A call that ends well has kept all it did, or as much as a batch lets wait."""
        assert not (is_done and was_stale), "it goes on from what the server has lost"
        if self.site.has_met and fault is not None:
            assert fault.kind in LATER, f"{fault.kind} isn't seen"
            self.is_stale = self.is_gone()
        if was_stale or self.site.has_met:
            return
        now, kept = self.site.in_memory(ADA), self.site.come_to(ADA)
        if self.batch == 1 or at_once:
            assert now.state == kept.state, "what a call confirmed is not kept"
        assert len(now.notes) - len(kept.notes) < self.batch

    def judge_refusal(self, fault: Optional[Fault], error: BaseException, was_stale: bool) -> None:
        """A call that fails has a reason to."""
        reasons: List[Type[BaseException]] = [Interrupted] if was_stale else []
        if fault is not None and self.site.has_met:
            reasons += allowed(fault)
        is_full = self.site.server.is_full and is_out_of_memory(error)
        assert is_full or isinstance(error, tuple(reasons)), f"it fails for nothing: {error!r}"
        self.need_closed_line(error)
        self.is_broken = True

    def need_closed_line(self, error: Optional[BaseException]) -> None:
        """Behind a call that was interrupted replies may come that belong to no later one."""
        if isinstance(error, KeyboardInterrupt):
            assert not self.station.transport._line.is_open, "the line is open"  # type: ignore[attr-defined]

    def is_gone(self) -> bool:
        """Whether the server has no station of Ada's any more."""
        return bool(self.site.keys.owner(ADA).encode() not in self.site.server.data.values)
