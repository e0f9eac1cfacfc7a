"""Why a call is refused."""

from typing import Dict, Type


class Refused(Exception):
    """A call was refused, and has changed nothing."""

    def __str__(self) -> str:
        return super().__str__() or self.__doc__ or type(self).__name__


class NoProbe(Refused):
    """The memory holds no probe, or a damaged one."""


class NoStamp(Refused):
    """The bytes are no stamp, or a damaged one."""


class NoNote(Refused):
    """The bytes are no note, or a damaged one, or one of version 1."""


class NoChecker(Refused):
    """The checker was ended."""


class OutOfRange(Refused):
    """A number or a name names no process or no question, or there are too few or too many of them."""


class NoSaved(Refused):
    """The bytes are no saved checker, or a damaged one, or of another version."""


class InUse(Refused):
    """The handle holds a checker already."""


class NotInCut(Refused):
    """No cut was found, or the process is not watched."""


class NoSuch(Refused):
    """The receiver is no process of the watch, or is the probe's own."""


class Closed(Refused):
    """The probe is closed."""


class Backlog(Refused):
    """A note is pending: take it by `Probe.next` first."""


class Stranger(Refused):
    """The stamp or the note is of another watch."""


class NotMine(Refused):
    """The stamp is addressed to another process."""


class Ahead(Refused):
    """The stamp knows of events of this process that it has not made."""


class ClockEnd(Refused):
    """The process has made as many events as a clock can count."""


class OtherWatch(Refused):
    """The note is of a watch of another number of processes."""


class Ended(Refused):
    """The process was closed, or lost."""


class OutOfTurn(Refused):
    """A note of the process that comes before this one is missing."""


class NotAgreed(Refused):
    """The checker watches the process, whose probe has no condition."""


class TakenAlready(Refused):
    """The note was taken before: drop it, and go on."""


BY_NUMBER: Dict[int, Type[Exception]] = {
    16: NoProbe, 17: NoStamp, 18: NoNote, 19: NoChecker, 20: OutOfRange, 21: InUse, 22: MemoryError, 23: NotInCut,
    25: NoSaved,
    32: NoSuch, 33: Closed, 34: Backlog, 35: Stranger, 36: NotMine, 37: Ahead, 38: ClockEnd,
    48: OtherWatch, 49: Ended, 50: OutOfTurn, 51: NotAgreed, 52: TakenAlready,
}
