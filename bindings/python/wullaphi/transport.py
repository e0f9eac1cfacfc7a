"""How the notes of a station come to the checker."""

from typing import Any, Callable, Iterator, Optional, Sequence

from ._library import NOTE_SIZE
from ._note import Note
from ._refusals import Refused


class _Explained(Exception):
    def __str__(self) -> str:
        return super().__str__() or self.__doc__ or type(self).__name__


class Interrupted(_Explained):
    """It isn't known whether the last step was done: what the transport has saved counts. Read your own state again,
    call `Station.resume`, and go on from there; or let the process end, and start it again."""


class TakenOver(_Explained):
    """A newer station of this process has taken over, and goes on with its probe. This one is done."""


class Changed(Refused):
    """Something that the step depends on was changed meanwhile, so nothing of the step was done."""


class OtherRun(Refused):
    """The stamp was made before the server started anew, or after; or another server took over meanwhile, or the watch
    began anew: the server may have lost the event that it tells of. Let the message be sent again."""


class OtherSettings(Refused):
    """The process was opened before with another `watched` or `flag_of_sends`, which goes with its saved probe. Open it
    with the same one, or give the next run a number of its own."""


class Transport:
    """How the notes of a station come to the checker, and where its probe is kept. `put` is all that a transport needs.

    A station makes a step of several calls: `begin`, then `put` of its notes, `save` of its probe, and `commit`. A
    transport that keeps the probe does all of a step at `commit` or nothing, or says by an error that it isn't known.

    >>> from wullaphi import Watch
    >>> from wullaphi.station import Station
    >>> class Printed(Transport):
    ...     def put(self, notes):
    ...         print([note.number for note in notes])
    >>> Station(Watch(1, 2), 0, Printed()).observe(True)
    [0]
    """

    run = ""
    """Which run of the server it is; stamps of another run are refused."""

    keeps_probe = False
    """Whether it saves the probe, so that `load` gives it back."""

    def put(self, notes: Sequence[Note]) -> None:
        """Sends these notes, in this order, behind all earlier ones."""
        raise NotImplementedError

    def load(self) -> Optional[bytes]:
        """The probe that was saved last, if there is one. Whatever was begun and not done is dropped."""

    def save(self, probe: bytes) -> None:
        """Saves the probe. Where something lasts, its tag is in 8 more bytes behind it, and belongs to it."""

    def begin(self) -> Any:
        """Begins a step. The answer takes the program's own writes, where there are such."""

    def commit(self) -> None:
        """Ends a step, which is done then."""

    def abort(self) -> None:
        """Ends a step of which nothing is to be done."""

    def check(self) -> None:
        """Raises `Interrupted` if the transport can't go on."""

    def limit(self, seconds: float) -> None:
        """No call waits longer than this from here on."""

    def mark(self) -> bool:
        """Leaves the mark that the process may have done something that no note tells. Whether there was none yet."""
        return True

    def unmark(self, writes: Any) -> None:
        """Takes the mark away, as a write of the step."""

    def close(self) -> None:
        """Lets go of what it holds."""


class Direct(Transport):
    """Calls a function with each note: `checker.take` in the process of the checker, `notes.append` of a list, or
    `queue.put` of a queue.

    >>> from wullaphi import Watch
    >>> from wullaphi.station import Station
    >>> notes = []
    >>> Station(Watch(1, 2), 0, Direct(notes.append)).observe(True)
    >>> notes
    [Note(watch=1, process=0, number=0, clock=(0, 0), tag=0)]
    """

    def __init__(self, call: Callable[[Note], Any]) -> None:
        self._call = call

    def put(self, notes: Sequence[Note]) -> None:
        for note in notes:
            self._call(note)


class OverPipe(Transport):
    """Sends notes over a connection of `multiprocessing`, from whose other end `notes_from` reads them.

    >>> from multiprocessing import Pipe
    >>> from wullaphi import Watch
    >>> from wullaphi.station import Station
    >>> reader, writer = Pipe(duplex=False)
    >>> Station(Watch(1, 2), 0, OverPipe(writer)).close()
    >>> writer.close()
    >>> list(notes_from(reader))
    [Note(watch=1, process=0, number=0, is_last=True, tag=0)]
    """

    def __init__(self, connection: Any) -> None:
        self._connection = connection

    def put(self, notes: Sequence[Note]) -> None:
        self._connection.send_bytes(b"".join(notes))


def notes_from(connection: Any) -> Iterator[Note]:
    """The notes that `OverPipe` sends, until the other end is closed.

    >>> from multiprocessing import Pipe
    >>> reader, writer = Pipe(duplex=False)
    >>> writer.close()
    >>> list(notes_from(reader))
    []
    """
    while True:
        try:
            data = connection.recv_bytes()
        except EOFError:
            return
        for at in range(0, len(data), NOTE_SIZE):
            yield Note(data[at:at + NOTE_SIZE])
