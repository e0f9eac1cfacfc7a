"""Stations over Redis Streams: for processes on many machines, which may be killed and started again.

Each process has a stream of its notes. `open_station` gives its station, which goes on where an earlier one of the
process ended; `wcpcollect` takes the streams to the checker. It needs the package `redis` (Debian: python3-redis):

    watch = wullaphi.Watch(42, ["api", "worker1"])
    station = wullaphi.redis.open_station("redis://localhost", watch, "api")
    with station.step() as pipe:        # one MULTI: all of it is done, or nothing
        pipe.set("api:state", state)    # what the program keeps
        pipe.xadd("worker1:inbox", {"stamp": station.stamp("worker1"), "order": order})

Where the connection is lost, or the server was started anew, or holds other data than it did, a call raises
`Interrupted`: nobody knows whether the step was done, and the server may have lost earlier ones. What the server has
counts, so the program calls `station.resume()`, reads what it keeps there again, and goes on; or it ends, and is
started again.
"""

import uuid
from typing import Any, Callable, List, Optional, Sequence, Tuple

from ._beat import Beat
from ._gathering import Meeting
from ._line import EPOCH, LOOK, Keys, Line, Spoilt, Unreachable, client_of, run_token
from ._note import Note
from ._opening import Opening
from ._places import Meetings
from ._steps import Steps
from ._watch import Process, Watch
from .station import Station
from .transport import Changed, Interrupted, TakenOver, Transport

__all__ = ["open_station", "forget", "Meeting", "RedisTransport", "Spoilt"]


def open_station(url: str, watch: Watch, process: Process, watched: bool = True, flag_of_sends: bool = False,
                 batch: int = 1, lasts: bool = False, beat: Optional[float] = 1.0,
                 meeting: Optional[Meetings] = None) -> Station:
    """The station of a process over the server at `url`. An earlier station of the process is `TakenOver`.

    `beat` says after how many seconds each it shows that the process is alive; None: it doesn't. `meeting` is a
    `Meeting` over the server. The other words are those of `Station`. A process that comes again keeps `watched` and
    `flag_of_sends`, or it is `OtherSettings`. `Spoilt` where the server has lost a part of what it held of the process;
    `Interrupted` where it can't be reached, or is a replica.
    """
    transport = RedisTransport(url, watch, process, watched, beat)
    try:
        return Station(watch, process, transport, watched, flag_of_sends, batch, lasts, meeting)
    except BaseException:
        transport.close()
        raise


def forget(url: str, watch: Watch) -> None:
    """Deletes all that the server holds of a watch, once no station and no collector needs it."""
    keys = Keys(watch.number)
    each = [key(process) for key in (keys.notes, keys.probe, keys.owner, keys.beat, keys.standing, keys.waking)
            for process in range(watch.processes)]
    client = client_of(url)
    client.delete(keys.names, keys.conditions, keys.meeting, keys.gave_up, *each,
                  *client.scan_iter(match=keys.saved("*")))


class RedisTransport(Transport):
    """Notes go to a stream of the process, and its probe beside it. `client` is for what the program reads itself."""

    keeps_probe = True

    def __init__(self, url: str, watch: Watch, process: Process, watched: bool = True,
                 beat: Optional[float] = 1.0) -> None:
        self.client = client_of(url)
        self._watch = watch
        self._process = watch.number_of(process)
        self._is_watched = watched
        self._keys = Keys(watch.number)
        self._beat = beat and Beat(client_of(url), self._keys, self._process, beat)
        self._line: Optional[Line] = None
        self._seconds: Optional[float] = None
        self._token = b""
        self._is_newest = False
        self._steps: Optional[Steps] = None
        self._notes: Sequence[Note] = ()
        self._probe: Optional[bytes] = None
        self._pipe = self.client.pipeline(transaction=True)
        self._writes: Any = None
        self._is_watching = False
        # What the server holds as the probe: the epoch of the watch, and what was saved.
        self._epoch = b""
        self._held = b""

    def load(self) -> Optional[bytes]:
        """The probe as the server has it, over a new connection. From here on this is the station of the process."""
        if self._line:
            self._line.close()
        self._token = uuid.uuid4().hex.encode()
        try:
            line = self._line = Line(self.client, self._seconds)
            epoch, saved = Opening(line, self._watch, self._process, self._is_watched, self._token).run()
        except Unreachable as error:
            raise Interrupted(str(error)) from error
        self._is_newest = True
        self._steps = Steps(self._keys, self._process, self._token, line.encode)
        self._epoch = epoch.encode()
        self._held = self._epoch + (saved or b"")
        self.run = run_token(line, epoch)
        if self._beat:
            self._beat.begin(self._token)
        return saved

    def watch(self, *keys: str) -> None:
        """The step that was begun is done only if nobody changes these keys from now on; else it is `Changed`. Read
        them after this call, by `client`."""
        if self._writes is None:
            raise RuntimeError("keys are watched within a step")
        self._ask(("WATCH", *keys))
        self._is_watching = True

    def begin(self) -> Any:
        self._need_newest()
        self._notes, self._probe = (), None
        self._pipe.reset()
        self._writes = self._pipe
        return self._writes

    def put(self, notes: Sequence[Note]) -> None:
        self._notes = notes

    def save(self, probe: bytes) -> None:
        self._probe = self._epoch + probe

    def commit(self) -> None:
        """Makes one step of it all, which the server refuses if there is a newer station, or if what this one stands on
        was changed: then nothing is done."""
        assert self._line is not None and self._steps is not None
        writes = [words for words, _ in self._writes.command_stack]
        is_watching = self._is_watching
        self._writes, self._is_watching = None, False
        step = self._steps.pack(self._notes, self._probe or self._held, self._probe is None, writes)
        replies = self._sent(self._line.ask_packed, *step, 1)
        if len(replies) > 1:
            done, _, owner, about = replies[-4:]
            self._end(done, owner, about, is_watching)
        elif not self._line.is_as_before(replies[0]):
            self._look(self._token, replies[0])
        self._held = self._probe or self._held

    def _end(self, done: Any, owner: Optional[bytes], about: Any, is_watching: bool) -> None:
        """Says what became of a step, of which this is the reply to EXEC and to the look behind it."""
        self._look(owner, about, is_done=done is not None)
        if done is None:
            if is_watching and self._holds_what_it_stands_on():
                raise Changed()
            raise Interrupted("what the station stands on was changed on the server; nothing of the step was done")
        _raise_first(done)

    def _look(self, owner: Optional[bytes], about: Any, is_done: bool = False) -> None:
        """Looks at the word of the newest station, and at what the server answers to `LOOK`."""
        assert self._line is not None
        self._is_newest = owner == self._token
        try:
            if not self._line.still_holds(about):
                raise Interrupted("the server's data were replaced, or may have been")
        except Unreachable as error:
            raise Interrupted(str(error)) from error
        if owner is None:
            raise Interrupted("the server has lost what the station stands on")
        if not is_done:
            self._need_newest()

    def _holds_what_it_stands_on(self) -> bool:
        """Whether the server holds the probe and the epoch of which this station knows."""
        probe, epoch = self._ask(("GET", self._keys.probe(self._process)), ("HGET", self._keys.names, EPOCH))
        return (probe, epoch) == (self._held, self._epoch)

    def abort(self) -> None:
        assert self._steps is not None
        self._writes = None
        if self._is_watching:
            self._is_watching = False
            self._look(*self._ask(("UNWATCH",), *self._steps.look)[-2:])

    def check(self) -> None:
        owner, epoch, about = self._ask(("GET", self._keys.owner(self._process)),
                                        ("HGET", self._keys.names, EPOCH), LOOK)
        self._look(owner, about)
        if epoch != self._epoch:
            raise Interrupted("the watch was begun anew on the server")

    def limit(self, seconds: float) -> None:
        self._seconds = seconds
        if self._line:
            self._line.limit(seconds)

    def mark(self) -> bool:
        return bool(self._ask(("HSETNX", self._keys.conditions, self._keys.untold(self._process), 1))[0])

    def unmark(self, writes: Any) -> None:
        writes.hdel(self._keys.conditions, self._keys.untold(self._process))

    def _ask(self, *commands: Tuple[Any, ...]) -> List[Any]:
        """The replies to these commands; the first that is an error is raised."""
        assert self._line is not None
        return self._sent(self._line.ask, *commands)

    def _sent(self, send: Callable[..., List[Any]], *words: Any) -> List[Any]:
        try:
            replies = send(*words)
        except Unreachable as error:
            raise Interrupted(str(error)) from error
        _raise_first(replies)
        return replies

    def close(self) -> None:
        if self._beat:
            self._beat.end()
        if self._line:
            self._line.close()

    def _need_newest(self) -> None:
        if not self._is_newest:
            if self._beat:
                self._beat.end()
            raise TakenOver()


def _raise_first(replies: Sequence[Any]) -> None:
    """Raises the first reply that is an error."""
    for reply in replies:
        if isinstance(reply, Exception):
            raise reply
