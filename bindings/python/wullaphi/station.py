"""A probe with a transport: notes go to the checker by themselves, and stamps are text that goes into a header.

>>> from wullaphi import Watch
>>> watch = Watch(42, ["api", "worker1"])
>>> checker = watch.checker()
>>> api, worker1 = (Station(watch, name, Direct(checker.take)) for name in watch.names)
>>> api.observe(True)
>>> worker1.receive(api.stamp("worker1"))  # the header goes with a message
>>> worker1.close()
>>> checker.taken("api")
1
"""

from contextlib import contextmanager
from typing import Any, Callable, Iterator, List, Optional, Tuple

from ._forks import Locked
from ._library import PROBE_SIZE
from ._note import Note
from ._places import Meetings, Visit
from ._probe import Probe, from_header, text_of
from ._refusals import NoProbe
from ._watch import Process, Watch
from .transport import (Changed, Direct, Interrupted, OtherRun, OtherSettings, OverPipe, TakenOver, Transport,
                        notes_from)

__all__ = ["Station", "Transport", "Direct", "OverPipe", "notes_from", "Changed", "Interrupted", "OtherRun",
           "OtherSettings", "TakenOver"]

# What lasts is saved with its tag, of so many bytes.
TAG_SIZE = 8


class Station(Locked):
    """The probe of a process of the watch, with a transport. Threads may share it.

    Each call is a step of its own. With `batch` above 1 up to so many notes wait for each other, until a stamp is
    given, `flush` or the end of a step; what waits is lost where the process is killed, and its probe is then the one
    that was saved before, so the report stays right.

    With a `meeting` the process waits for others at its place there: where it has observed that its condition holds,
    before its next call that isn't within a step. All its threads wait then. A name of the meeting that the watch
    hasn't is a `ValueError`.

    >>> from wullaphi import Watch
    >>> notes = []
    >>> station = Station(Watch(1, 2), 0, Direct(notes.append), batch=10)
    >>> station.observe(True)
    >>> len(notes)
    0
    >>> station.flush()
    >>> len(notes)
    1
    """

    def __init__(self, watch: Watch, process: Process, transport: Transport, watched: bool = True,
                 flag_of_sends: bool = False, batch: int = 1, lasts: bool = False,
                 meeting: Optional[Meetings] = None) -> None:
        if batch < 1:
            raise ValueError("a batch has at least one note")
        if meeting is not None:
            meeting.check(watch.names or ())
        super().__init__()
        self.watch = watch
        self.process = watch.number_of(process)
        self.transport = transport
        self._settings = watched, flag_of_sends
        self._batch = batch
        self._lasts = lasts
        self._meeting = meeting
        # The tag with which the condition was seen to hold, until the next call.
        self._seen: Optional[int] = None
        self._visit: Optional[Visit] = None
        self._in_step = False
        self.interrupted = 0
        self.resuming: Any = None
        self._writes: Any = None
        self._has_begun = False
        self._broken = True
        self.resume()

    def resume(self) -> None:
        """Goes on from what the transport has saved, whatever was done before; after `Interrupted`, and at the start.

        What an earlier station of the process said with `lasts` is still true, until the next `observe`. Read what you
        have saved beside the probe after this call, and not before. Where the transport keeps no probe, there is
        nothing to go on from: a new run begins, with a number of its own.
        """
        with self._lock:
            if self._in_step or (self._has_begun and not self.transport.keeps_probe):
                raise RuntimeError("a station can't resume within a step, nor where its probe isn't kept")
            self._broken = True
            saved = self.transport.load()
            self._notes: List[Note] = []
            self._probe = Probe(self.watch, self.process, None, *self._settings)
            self._holding: Optional[int] = None
            self._seen = None
            if saved is not None:
                self._restore(saved)
            self._saved = self._state()
            self._broken, self._has_begun = False, True
            self.interrupted = 0
            self._observe_again()
            self._settle()

    def _restore(self, saved: bytes) -> None:
        """Goes on from what `_state` gave. What lasts stays true, whatever `lasts` is now."""
        fresh, self._probe = self._probe, Probe.from_bytes(saved[:PROBE_SIZE], self.watch)
        if self._probe.process != self.process:
            raise NoProbe("the probe that was saved is of another process")
        if _settings_of(self._probe) != _settings_of(fresh):
            raise OtherSettings()
        tag = saved[PROBE_SIZE:]
        if len(tag) not in (0, TAG_SIZE):
            raise NoProbe()
        self._holding = int.from_bytes(tag, "little") if tag else None

    def _state(self) -> bytes:
        """What is saved: the probe, and behind it the tag of what lasts, where something does."""
        probe = self._probe.to_bytes()
        return probe if self._holding is None else probe + self._holding.to_bytes(TAG_SIZE, "little")

    def _fork(self) -> None:
        # What another thread of the parent was doing is done there: this one has a part of it.
        if self._is_held_elsewhere():
            self._in_step, self._broken = False, True
        super()._fork()

    @property
    def name(self) -> Process:
        """The name of the process, or its number where it has none."""
        return self.watch.name_of(self.process)

    @property
    def is_interrupted(self) -> bool:
        """Whether it can't go on before it is resumed. `interrupted` has how many calls have met that."""
        return self._broken

    @property
    def is_closed(self) -> bool:
        """Whether the process has ended its part."""
        return bool(self._probe._memory.closed)

    def observe(self, holds: bool, tag: int = 0) -> None:
        """The process looks at its condition. `tag` leads back to this moment, where it is in a cut: any number below
        2 ** 64, as that of a line of a log."""
        with self._lock:
            self._need_whole()
            self._come()
            self._observe(holds, tag)
            self._holding = tag if holds and self._lasts else None
            self._settle()

    def stamp(self, to: Process) -> str:
        """The process sends a message to this one: the answer goes with it, as a header. Within a step it goes into
        one of the step's own writes, or waits until the step is done."""
        with self._lock:
            self._need_whole()
            self._come()
            header = text_of(self._probe.stamp(to))
            self._observe_again()
            self._settle(at_once=True)
            return f"{header}.{self.transport.run}" if self.transport.run else header

    def receive(self, header: str, stored: bool = False) -> None:
        """The process receives the message that came with this header.

        `stored` says that the message was read from the server of the transport, which thus still has it; then it may
        be older than the run of the server.
        """
        with self._lock:
            self._need_whole()
            stamp, _, run = header.partition(".")
            if not stored and run != self.transport.run:
                self._check()
                raise OtherRun()
            self._come()
            self._probe.receive(from_header(stamp))
            self._observe_again()
            self._settle()

    def close(self, tag: int = 0) -> None:
        """The process ends its part: its last note goes out."""
        with self._lock:
            self._need_whole()
            if self.resuming is not None and not self._in_step:
                with self.step():
                    self.close(tag)
                return
            self._come()
            self._notes.append(self._probe.close(tag))
            self._holding = None
            if self.resuming is not None and self.resuming.is_whole:
                self.transport.unmark(self._writes)
            self._settle(at_once=True)
            if self._meeting is not None:
                self._meeting.end(str(self.name))

    def flush(self) -> None:
        """Sends the notes that wait."""
        with self._lock:
            self._need_whole()
            self._settle(at_once=True)

    def check(self) -> None:
        """Raises `Interrupted` where the connection was lost, or the server's data were replaced: for a process that
        waits for messages, now and then. Else it would not learn that the server has lost what it did before, and may
        be waiting for what it has to do again."""
        with self._lock:
            self._need_whole()
            self._check()

    @contextmanager
    def step(self) -> Iterator[Any]:
        """Makes one step of all calls in the block, and of what the program writes by what the block is given, as a
        pipeline of Redis. All of it is done or nothing; where the block raises, nothing. A write of the program's own
        that the server refuses only as it does it, as one to a key of another type, is the exception: that one isn't
        done, the rest is, and its error is raised. Notes and probe are done together, or neither.

        >>> notes = []
        >>> station = Station(Watch(1, 2), 0, Direct(notes.append))
        >>> with station.step():
        ...     station.observe(True)
        ...     header = station.stamp(1)
        ...     station.observe(True)
        ...     len(notes)
        0
        >>> len(notes)
        2
        """
        with self._lock:
            self._need_whole()
            if self._in_step:
                raise RuntimeError("a step within a step")
            self._come()
            before, notes, holding = self._probe.to_bytes(), list(self._notes), self._holding
            self._writes = self.transport.begin()
            self._in_step = True
            try:
                yield self._writes
                self._commit()
            except BaseException:
                self._probe, self._notes, self._holding = Probe.from_bytes(before, self.watch), notes, holding
                self._seen = None
                self._abort()
                raise
            finally:
                self._in_step = False

    def _need_whole(self) -> None:
        if self._broken:
            self.interrupted += 1
            raise Interrupted()

    def _come(self) -> None:
        """A call is about to be made: the process stands at the end of its interval, and may wait there for others.
        Where it does already, a signal's handler makes the call, and from here on it stands there no longer."""
        if self._visit is not None:
            self._visit.go()
        seen, self._seen = self._seen, None
        if self._meeting is None or self._visit is not None or seen is None or self._in_step:
            return
        visit = self._visit = Visit(str(self.name))
        try:
            place = self._meeting.place_of(visit.name, self._probe.clock[self.process], [(str(seen), f"tag {seen}")])
            if place is not None:
                visit.place = place
                self._meeting.meet(visit)
        finally:
            self._visit = None

    def _observe(self, holds: bool, tag: int) -> None:
        self._seen = tag if holds else None
        note = self._probe.observe(holds, tag)
        if note is not None:
            self._notes.append(note)

    def _observe_again(self) -> None:
        if self._holding is not None:
            self._observe(True, self._holding)

    def _settle(self, at_once: bool = False) -> None:
        """Makes a step of what was done, where the time has come."""
        if self._in_step:
            return
        is_full = len(self._notes) >= self._batch
        is_changed = bool(self._notes) or self._state() != self._saved
        if is_full or (is_changed and (at_once or self._batch == 1)):
            self.transport.begin()
            self._commit()

    def _commit(self) -> None:
        state = self._state()
        try:
            if self._notes:
                self.transport.put(self._notes)
            if state != self._saved:
                self.transport.save(state)
            self.transport.commit()
        except Changed:
            raise
        except BaseException:
            self._broken = True
            self.interrupted += 1
            raise
        self._notes, self._saved = [], state

    def _abort(self) -> None:
        if not self._broken:
            self._ask_whether_whole(self.transport.abort)

    def _check(self) -> None:
        self._ask_whether_whole(self.transport.check)

    def _ask_whether_whole(self, call: Callable[[], None]) -> None:
        """Makes a call of the transport, whose error says that the station can't go on."""
        self._broken = True
        self.interrupted += 1
        call()
        self._broken = False
        self.interrupted -= 1

    def __repr__(self) -> str:
        return f"Station({self.watch!r}, {self.name!r}, clock={self._probe.clock})"


def _settings_of(probe: Probe) -> Tuple[int, int]:
    """Whether the process has a condition, and what resets its flag."""
    return probe._memory.watched, probe._memory.flag
