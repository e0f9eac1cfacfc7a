"""The probe of a process, and the stamps of its messages."""

import base64
import binascii
import ctypes
from typing import Optional, Tuple, Union

from ._forks import Locked
from ._library import (DONE_WITH_NOTE, NO_PROBE, NO_STAMP, PROBE_SIZE, STAMP_SIZE, RawNote, RawProbe, RawStamp, answer,
                       library, many)
from ._note import Note
from ._refusals import NoProbe, NoStamp, Stranger
from ._watch import Process, Watch, watch_of


class Probe(Locked):
    """The probe of a process, one of `processes` of the watch with the number `watch`, or of a `Watch`.

    `watched` says whether the process has a condition, and `flag_of_sends` that only sends reset the probe's flag:
    fewer notes, and the same reports. A probe may be pickled, to go on with elsewhere: go on with one copy only. A
    process that was forked has a copy too, and its calls never wait for a thread of the parent.

    >>> ada = Probe(watch=1, process=0, processes=2)
    >>> len(ada.observe(True)) == NOTE_SIZE  # the note to send to the checker
    True
    >>> stamp = ada.stamp(1)  # goes with a message to process 1
    >>> ada
    Probe(Watch(1, 2), 0, clock=(1, 0))
    >>> ada.receive(stamp)
    Traceback (most recent call last):
        ...
    wullaphi.NotMine: The stamp is addressed to another process.
    """

    def __init__(self, watch: Union[int, Watch], process: Process, processes: Optional[int] = None,
                 watched: bool = True, flag_of_sends: bool = False) -> None:
        self._begin(watch_of(watch, processes))
        number = self.watch._told(process)
        answer(library.wcp_probe_init_with(self._at, self.watch.number, number, self.watch.processes,
                                           int(bool(watched)), int(bool(flag_of_sends))))

    def _begin(self, watch: Watch) -> None:
        super().__init__()  # a lock, since a method may make two calls
        self.watch = watch
        self._memory = RawProbe()
        self._at = ctypes.pointer(self._memory)
        self._note = RawNote()
        self._note_at = ctypes.pointer(self._note)
        self._stamp = RawStamp()
        self._stamp_at = ctypes.pointer(self._stamp)

    @property
    def process(self) -> int:
        """The number of the process."""
        return int(self._memory.process)

    @property
    def clock(self) -> Tuple[int, ...]:
        """How many events of each process this one knows of; its own are its sends and receives."""
        return tuple(self._memory.clock[:self.watch.processes])

    def observe(self, holds: bool, tag: int = 0) -> Optional[Note]:
        """The process looks at its condition. The answer is the note to send to the checker, if there is one.

        `tag` goes with the note, and comes back by `Checker.tag`: any number below 2 ** 64.
        """
        many(tag)
        with self._lock:
            if answer(library.wcp_probe_observe(self._at, 1 if holds else 0)) == DONE_WITH_NOTE:
                return self._next(tag)
            return None

    def stamp(self, to: Optional[Process] = None) -> bytes:
        """The process sends a message to process `to`, or an open one to whichever takes it: this goes along with it.

        One process takes an open message, as from a work queue. Where that is its sender, nothing changes.

        >>> ada, ben = Probe(1, 0, 2), Probe(1, 1, 2)
        >>> ben.receive(ada.stamp())
        """
        receiver = None if to is None else self.watch._told(to)
        with self._lock:
            if receiver is None:
                answer(library.wcp_probe_stamp_open(self._at, self._stamp_at))
            else:
                answer(library.wcp_probe_stamp(self._at, receiver, self._stamp_at))
            return bytes(self._stamp)

    def receive(self, stamp: bytes) -> None:
        """The process receives the message that came with this stamp."""
        if len(stamp) != STAMP_SIZE:
            raise NoStamp()
        with self._lock:
            answer(library.wcp_probe_receive(self._at, ctypes.pointer(RawStamp.from_buffer_copy(stamp))))

    def next(self, tag: int = 0) -> Optional[Note]:
        """The pending note, if there is one; it then is no longer pending. `observe` and `close` give it already."""
        many(tag)
        with self._lock:
            return self._next(tag)

    def _next(self, tag: int) -> Optional[Note]:
        if answer(library.wcp_probe_next(self._at, tag, self._note_at)) == DONE_WITH_NOTE:
            return Note._of(self._note)
        return None

    def close(self, tag: int = 0) -> Note:
        """The process ends its part. The answer is its last note."""
        many(tag)
        with self._lock:
            answer(library.wcp_probe_close(self._at))
            note = self._next(tag)
            assert note is not None
            return note

    def to_bytes(self) -> bytes:
        """The probe as bytes, to go on with elsewhere, by `from_bytes`."""
        with self._lock:
            return bytes(self._memory)

    @classmethod
    def from_bytes(cls, data: bytes, watch: Optional[Watch] = None) -> "Probe":
        """The probe that `to_bytes` wrote, of this watch, which has the names of its processes."""
        if len(data) != PROBE_SIZE:
            raise NoProbe()
        memory = RawProbe.from_buffer_copy(data)
        if library.wcp_probe_observe(ctypes.pointer(memory), 0) == NO_PROBE:
            raise NoProbe()
        if watch is None:
            watch = Watch(memory.watch, memory.processes)
        elif (watch.number, watch.processes) != (memory.watch, memory.processes):
            raise Stranger()
        probe = cls.__new__(cls)
        probe._begin(watch)
        ctypes.memmove(probe._at, data, len(data))
        return probe

    def __reduce__(self) -> Tuple[object, Tuple[bytes, Watch]]:
        return type(self).from_bytes, (self.to_bytes(), self.watch)

    def __repr__(self) -> str:
        return f"Probe({self.watch!r}, {self.watch.name_of(self.process)!r}, clock={self.clock})"


def to_header(stamp: bytes) -> str:
    """A stamp as text of 120 characters, for the header of a message, as of HTTP.

    >>> stamp = Probe(1, 0, 2).stamp(1)
    >>> from_header(to_header(stamp)) == stamp
    True
    """
    _need_stamp(stamp)
    return text_of(stamp)


def text_of(stamp: bytes) -> str:
    """The header of bytes that are a stamp."""
    return base64.urlsafe_b64encode(stamp).decode("ascii")


def from_header(text: str) -> bytes:
    """The stamp that `to_header` made a text of.

    >>> from_header("no stamp")
    Traceback (most recent call last):
        ...
    wullaphi.NoStamp: The bytes are no stamp, or a damaged one.
    """
    try:
        stamp = base64.b64decode(text.encode("ascii"), altchars=b"-_", validate=True)
    except (UnicodeEncodeError, binascii.Error):
        raise NoStamp() from None
    _need_stamp(stamp)
    return stamp


def _need_stamp(data: bytes) -> None:
    """Refuses bytes that are no stamp, as a probe does that is made for this alone."""
    probe = ctypes.pointer(RawProbe())
    answer(library.wcp_probe_init_with(probe, 0, 0, 1, 1, 0))
    if len(data) != STAMP_SIZE or library.wcp_probe_receive(
            probe, ctypes.pointer(RawStamp.from_buffer_copy(data))) == NO_STAMP:
        raise NoStamp()
