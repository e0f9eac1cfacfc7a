"""A station whose program goes on where the server of its watch is away.

A `Station` refuses each call from when its server is away until it is resumed, since its program may have to fall back
to what the server has. A service doesn't fall back: it answers requests, with or without its watch.
"""

import threading
import time
from typing import Callable, List, Optional, Tuple, TypeVar, Union

from ._forks import Locked
from ._library import PROBE_SIZE, many
from ._line import Spoilt
from ._note import Note
from ._probe import Probe
from ._refusals import Refused
from .station import Station
from .transport import OtherRun, TakenOver

__all__ = ["Resuming"]

# After how many seconds the server is tried again: at first, and at most.
FIRST_PAUSE, LONGEST_PAUSE = 0.1, 5.0

T = TypeVar("T")


class Resuming(Locked):
    """A station that resumes by itself. Its calls never raise `Interrupted`, and wait for the server no longer than
    `patience` seconds. Give it to what stamps, and observe by it too.

    While the server is away, a thread tries it again and again. Messages then go without stamps: `stamp` gives None,
    and `receive` takes nothing. So order is left out, which can only add moments to those that are found. What
    `observe` is told meanwhile is kept, and told when the server is back: the time away is one interval of the process.

    What stays untold never leads to `none`. From its beginning the server has a mark that the process may have left
    something out, and `close` takes it away only if all was told. It stays where the process ends in another way or
    goes on as a newer station, where the server has lost what it had acknowledged, and where the program has met
    `Interrupted` in a call of the station itself. While it is there, a collector says `undecided` in the place of
    `none`.

    >>> from wullaphi import Watch
    >>> from wullaphi.station import Direct
    >>> notes = []
    >>> process = Resuming(Station(Watch(1, 2), 0, Direct(notes.append)))
    >>> process.observe(True)
    >>> len(notes), process.is_away
    (1, False)
    """

    def __init__(self, station: Station, patience: float = 1.0) -> None:
        super().__init__()
        self.station = station
        station.resuming = self
        self._is_away = self._is_over = False
        self._is_whole, self._is_marked, self._is_ending = True, False, False
        self._held: Optional[int] = None  # the tag of the first True that waits
        self._last: Optional[Tuple[bool, int]] = None
        self._closing: Optional[int] = None
        self._notes: List[Note] = []
        self._thread: Optional[threading.Thread] = None
        station.transport.limit(patience)
        with station._lock:
            try:
                self._mark()
            except Exception:  # pylint: disable=broad-exception-caught
                station._broken = True
        if station.is_interrupted:
            self._go_away()

    def _fork(self) -> None:
        # The parent may go on with the same process, so this one can't tell whether all was told.
        super()._fork()
        self._is_whole, self._thread = False, None

    @property
    def name(self) -> Union[str, int]:
        """The name of the process, or its number where it has none."""
        return self.station.name

    @property
    def is_away(self) -> bool:
        """Whether the server is away, or a newer station of the process has taken over."""
        return self._is_away or self._is_over

    def observe(self, holds: bool, tag: int = 0) -> None:
        """The process looks at its condition, as by `Station.observe`. While the server is away this waits."""
        many(tag)
        while not self._make(lambda: self.station.observe(holds, tag))[0]:
            with self._lock:
                if self.is_away:
                    self._held = tag if holds and self._held is None else self._held
                    self._last = holds, tag
                    return

    def stamp(self, to: Union[str, int]) -> Optional[str]:
        """The process sends a message to this one: the answer goes with it. None while the server is away."""
        return self._make(lambda: self.station.stamp(to))[1]

    def receive(self, header: str, stored: bool = False) -> bool:
        """The process receives the message that came with this header. Whether it did: not while the server is away,
        and not where the header is of another run of the server."""
        try:
            return self._make(lambda: self.station.receive(header, stored))[0]
        except OtherRun:
            return False

    def close(self, tag: int = 0) -> None:
        """The process ends its part. While the server is away this waits, as long as the program runs."""
        many(tag)
        is_done, _ = self._make(lambda: self.station.close(tag))
        while not is_done:
            with self._lock:
                if self.is_away:
                    self._closing = tag
                    return
            is_done, _ = self._make(lambda: self._close_again(tag))

    def _close_again(self, tag: int) -> None:
        """Closes the station, unless it was closed by a call that nothing was heard of."""
        if not self.station.is_closed:
            self.station.close(tag)

    @property
    def is_whole(self) -> bool:
        """Whether the server has been told all."""
        return self._is_whole and (self._is_ending or not self.is_away)

    def _make(self, call: Callable[[], T]) -> Tuple[bool, Optional[T]]:
        """Makes a call of the station, unless the server is away. Whether it was made, and its answer."""
        if self.is_away:
            self._begin_thread()
            return False, None
        with self.station._lock:
            try:
                return True, call()
            except TakenOver:
                self._is_over = True
            except Exception:
                if not self.station.is_interrupted:
                    raise
                self._count_as_own()
        self._go_away()
        return False, None

    def _count_as_own(self) -> None:
        """Leaves a call that was made here out of those that the program itself knows of."""
        if self.station.is_interrupted and self.station.interrupted > 0:
            self.station.interrupted -= 1

    def _go_away(self) -> None:
        self._is_away = True
        self._begin_thread()

    def _begin_thread(self) -> None:
        """Begins to try the server again, unless that has begun."""
        with self._lock:
            if self._is_away and not self._is_over and (self._thread is None or not self._thread.is_alive()):
                self._thread = threading.Thread(target=self._run, name="wullaphi resumes", daemon=True)
                self._thread.start()

    def _run(self) -> None:
        pause = FIRST_PAUSE
        while True:
            time.sleep(pause)
            try:
                if self._come_back():
                    return
            except (Refused, RuntimeError, Spoilt, TakenOver):
                self._is_over = True
                return
            except Exception:  # pylint: disable=broad-exception-caught
                pause = min(2 * pause, LONGEST_PAUSE)

    def _come_back(self) -> bool:
        """Resumes, and tells what waits. Whether nothing waits any more."""
        with self.station._lock:
            try:
                self._resume()
            except BaseException:
                self.station.interrupted = 0
                raise
        while True:
            with self._lock:
                held, last, closing = self._held, self._last, self._closing
                if held is None and last is None and closing is None:
                    self._is_away, self._thread = False, None
                    return True
                self._held = self._last = self._closing = None
            try:
                self._tell(held, last, closing)
            except BaseException:
                with self._lock:
                    self._held = held if held is not None else self._held
                    self._last = self._last or last
                    self._closing = closing if closing is not None else self._closing
                raise

    def _resume(self) -> None:
        """Resumes the station, and tells of the notes that waited in it, unless the server has them."""
        station = self.station
        if station.interrupted > 0:
            self._is_whole = False  # the program may have gone on after that
        self._notes += station._notes
        station._notes = []
        before = Probe.from_bytes(station._saved[:PROBE_SIZE])._memory
        station.resume()
        now = station._probe._memory
        count, me = now.emitted, station.process
        if count < before.emitted or now.clock[me] < before.clock[me]:
            self._is_whole = False
        self._mark()
        for note in self._notes:
            if note.number >= count and not note.is_last:
                station.observe(True, note.tag)
        self._notes = []

    def _tell(self, held: Optional[int], last: Optional[Tuple[bool, int]], closing: Optional[int]) -> None:
        station = self.station
        with station._lock:
            if station.is_closed:
                return
            try:
                if held is not None:
                    station.observe(True, held)
                if last is not None:
                    station.observe(*last)
                if closing is not None:
                    self._is_ending = True
                    station.close(closing)
            except BaseException:
                self._count_as_own()
                raise
            finally:
                self._is_ending = False

    def _mark(self) -> None:
        """Leaves the mark. One that was there before, of another station, stays for good. A process that has ended
        leaves nothing out any more: as it ended, the mark went or stayed."""
        if self.station.is_closed and self._is_whole:
            return
        is_first = self.station.transport.mark()
        self._is_whole = self._is_whole and (is_first or self._is_marked)
        self._is_marked = True

    def __repr__(self) -> str:
        return f"Resuming({self.station!r})"
