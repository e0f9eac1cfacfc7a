"""Wullaphi for Python: the probe of a process, the checker, and the report of a text.

A probe tells a checker, by notes, when the condition of its process holds, and each message between the processes
goes with a stamp. The checker finds the first moment at which all conditions could have held at once, or that there
was none. Stamps and notes are `bytes`: send them as you like, between threads, processes or machines of one byte
order. A stamp may go as text, by `to_header`.

Threads may call one `Probe` or one `Checker` at once: one call is made after another. Threads that share a probe must
still bring its notes to the checker in the order in which it gives them, so they hold a lock of their own from
`observe` or `close` until the note is on its way. Other threads wait while a call runs, except for `single`. In an
interpreter that was built without its global lock, take a lock of your own for the calls of a checker.

Threads that the standard library's locks and queues keep apart need no probe of their own: a program imports
`wullaphi.threading`, `wullaphi.queue` or `wullaphi.futures` in the place of the standard modules, and says by `holding`
when a condition holds, within a block of `watching`. `confirm` runs it again until the moment that was found happens.

The package loads `libwullaphi.so` from its own folder, where a wheel puts it, and in a clone without an installed
package from `bindings/out`. Where the variable `WULLAPHI_LIBRARY` is set, it loads the file that this names.
Without the library, logs (`wullaphi.log`) and traces (`wullaphi.otel`) can be written, and other calls fail.

>>> import wullaphi
>>> ada, ben = wullaphi.Probe(1, 0, 2), wullaphi.Probe(1, 1, 2)
>>> checker = wullaphi.Checker(1, 2)
>>> checker.take(ada.observe(True))
>>> ben.receive(ada.stamp(1))  # the stamp goes with a message
>>> checker.take(ben.observe(True))
>>> checker.report()  # what ada saw happened before what ben saw
Report(known='undecided', cut=None)
>>> checker.take(ada.observe(True))
>>> checker.report()
Report(known='found', cut=(1, 1))
"""

from ._checker import Checker, Report
from ._confirm import Confirmed, confirm
from ._holding import holding, watching
from ._library import MAX_PROCESSES, NOTE_SIZE, STAMP_SIZE, library
from ._meeting import Meeting
from ._note import Note, is_last
from ._places import GaveUp, Place
from ._probe import Probe, from_header, to_header
from ._refusals import (Ahead, Backlog, ClockEnd, Closed, Ended, InUse, NoChecker, NoNote, NoProbe, NoSaved, NoStamp,
                        NoSuch, NotAgreed, NotInCut, NotMine, OtherWatch, OutOfRange, OutOfTurn, Refused, Stranger,
                        TakenAlready)
from ._single import Single, single
from ._watch import Watch
from ._watching import Outcome, Watching

__all__ = [
    "Refused", "NoProbe", "NoStamp", "NoNote", "NoChecker", "OutOfRange", "InUse", "NotInCut", "NoSaved", "NoSuch",
    "Closed", "Backlog", "Stranger", "NotMine", "Ahead", "ClockEnd", "OtherWatch", "Ended", "OutOfTurn", "NotAgreed",
    "TakenAlready", "Watch", "Probe", "Note", "Checker", "Report", "Single", "is_last", "single", "to_header",
    "from_header", "watching", "holding", "Watching", "Outcome", "Place", "Meeting", "GaveUp", "confirm", "Confirmed",
    "library_version", "MAX_PROCESSES", "NOTE_SIZE", "STAMP_SIZE",
]

__version__ = "0.3.0"


def library_version() -> str:
    """The version of the library that was loaded.

    >>> library_version() == __version__
    True
    """
    number = int(library.wcp_version())
    return f"{number // 10000}.{number // 100 % 100}.{number % 100}"


# Where a name is shown or pickled, it is that of the package.
for _name in __all__:
    _it = globals()[_name]
    if callable(_it):
        _it.__module__ = __name__
del _name, _it
