"""What a probe tells a checker."""

import ctypes
import sys
import threading
from typing import Any, Tuple

from ._checker import Checker
from ._library import NO_NOTE, NOTE_SIZE, SNAPSHOT, Missing, RawNote, RawProbe, answer, library
from ._refusals import NoNote


class _Test(threading.local):
    """Tells the bytes of a note from others: a checker whose process is closed takes nothing, and says what is none.
    Each thread has one, so there is no lock that a forked process could find taken."""

    def __init__(self) -> None:
        if isinstance(library, Missing):
            return
        self._checker = Checker(0, 1)
        probe, note = ctypes.pointer(RawProbe()), ctypes.pointer(RawNote())
        answer(library.wcp_probe_init_with(probe, 0, 0, 1, 1, 0))
        answer(library.wcp_probe_close(probe))
        answer(library.wcp_probe_next(probe, 0, note))
        answer(library.wcp_checker_take(self._checker._at, note))

    def is_note(self, data: bytes) -> bool:
        """Whether these bytes, as many as a note has, are a note."""
        note = ctypes.pointer(RawNote.from_buffer_copy(data))
        return bool(library.wcp_checker_take(self._checker._at, note) != NO_NOTE)


_TEST = _Test()


# Where the words of a note lie that are read of each.
_PROCESS, _NUMBER, _KIND = (getattr(RawNote, name).offset for name in ("process", "number", "kind"))


class Note(bytes):
    """What a probe tells a checker: bytes, to be sent as you like, between machines of one byte order.

    A snapshot says that the condition of its process held; a last note, that the process is closed or lost. `Note`
    makes one of the bytes that came; others are refused by `NoNote`. It proves nothing about who made them.

    >>> note = Probe(1, 0, 2).observe(True, tag=77)
    >>> Note(bytes(note)) == note
    True
    >>> note.process, note.number, note.clock, note.tag, note.is_last
    (0, 0, (0, 0), 77, False)
    >>> note
    Note(watch=1, process=0, number=0, clock=(0, 0), tag=77)
    """

    def __new__(cls, data: bytes) -> "Note":
        if len(data) != NOTE_SIZE or not _TEST.is_note(data):
            raise NoNote()
        return cls._of(data)

    @classmethod
    def _of(cls, data: Any) -> "Note":
        """The note of bytes that are one."""
        return super().__new__(cls, data)

    @property
    def _raw(self) -> RawNote:
        return RawNote.from_buffer_copy(self)

    def _word(self, at: int) -> int:
        return int.from_bytes(self[at:at + 4], sys.byteorder)

    @property
    def watch(self) -> int:
        """The number of the watch."""
        return int(self._raw.watch)

    @property
    def processes(self) -> int:
        """How many processes the watch has."""
        return int(self._raw.processes)

    @property
    def process(self) -> int:
        """The number of the process."""
        return self._word(_PROCESS)

    @property
    def number(self) -> int:
        """How many snapshots of the process came before this note."""
        return self._word(_NUMBER)

    @property
    def is_last(self) -> bool:
        """Whether it is the last note of its process: that it is closed, or lost."""
        return self._word(_KIND) != SNAPSHOT

    @property
    def is_watched(self) -> bool:
        """Whether the process has a condition."""
        return bool(self._raw.watched)

    @property
    def clock(self) -> Tuple[int, ...]:
        """How many events of each process the state knows of; a last note has no clock, `()`."""
        return () if self.is_last else tuple(self._raw.clock[:self.processes])

    @property
    def tag(self) -> int:
        """The number that the caller gave with it."""
        return int(self._raw.tag)

    def __repr__(self) -> str:
        told = "is_last=True" if self.is_last else f"clock={self.clock}"
        return f"Note(watch={self.watch}, process={self.process}, number={self.number}, {told}, tag={self.tag})"

    __str__ = __repr__


def is_last(note: bytes) -> bool:
    """Whether this is the last note of its process: that it is closed, or lost.

    >>> probe = Probe(1, 0, 2)
    >>> is_last(probe.observe(True)), is_last(probe.close())
    (False, True)
    """
    return (note if isinstance(note, Note) else Note(note)).is_last
