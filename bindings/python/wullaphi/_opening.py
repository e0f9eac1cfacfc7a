"""How a station opens on a server: whether what the server holds of its process fits together, and what that is."""

import uuid
from typing import Any, Dict, List, NamedTuple, Optional

from ._library import NOTE_SIZE, PROBE_SIZE, RawNote, RawProbe
from ._line import EPOCH, LOOK, Keys, Line, Spoilt, last_number, names_of, table, text
from ._watch import Watch
from .transport import Interrupted, OtherSettings, TakenOver

# How often it is tried while others of the same process open too.
TRIES = 20

# In front of a saved probe stands the epoch of the watch.
EPOCH_SIZE = 32


class Opened(NamedTuple):
    """What the station goes on from: the epoch of the watch, and what was saved of the process, if anything."""

    epoch: str
    saved: Optional[bytes]


class Opening:
    """Makes this the newest station of a process. Who opens first leaves an epoch with the names, and each process
    leaves it in front of its probe as soon as it has come: whatever is gone later is missed."""

    def __init__(self, line: Line, watch: Watch, process: int, is_watched: bool, token: bytes) -> None:
        self._line = line
        self._keys = Keys(watch.number)
        self._watch = watch
        self._process = process
        self._name = watch.name_of(process)
        self._is_watched = is_watched
        self._token = token

    def run(self) -> Opened:
        """Opens, or says why not."""
        self._test_rights()
        for _ in range(TRIES):
            opened = self._try()
            if opened is not None:
                return opened
        raise TakenOver()

    def _test_rights(self) -> None:
        """What else the script of a step needs: a server that forbids it would say so in the middle of the step. No
        entry can have the id 0-0."""
        script, entry = self._line.ask(("EVAL", "return 1", 0),
                                       ("XADD", self._keys.notes(self._process), "0-0", "note", ""))
        _raise_first([script])
        if str(entry).startswith("NOPERM"):
            raise entry

    def _try(self) -> Optional[Opened]:
        """Opens, unless somebody else of the process opens meanwhile, or the first of the watch."""
        keys, me = self._keys, self._process
        replies = self._ask(
            ("UNWATCH",), ("MULTI",), ("HGETALL", keys.names), ("HGETALL", keys.conditions), ("GET", keys.owner(me)),
            ("GET", keys.probe(me)), ("XINFO", "STREAM", keys.notes(me)), ("EXEC",),
            ("WATCH", keys.names, keys.owner(me)), ("HGET", keys.names, EPOCH), ("GET", keys.owner(me)))
        held, (epoch, owner) = replies[7], replies[9:]
        names, conditions = table(held[0]), table(held[1])
        if not names:
            self._begin(conditions)
            return None
        self._test_names(names, conditions)
        is_new = self._test_process(conditions, held[2:4], held[4])
        if (text(epoch), owner) != (names[EPOCH], held[2]):
            return None
        return self._claim(names[EPOCH], is_new)

    def _begin(self, conditions: Dict[str, str]) -> None:
        """The first station of the watch gives the server the names, and the epoch."""
        if conditions:
            raise Spoilt(f"the names of watch {self._watch.number} are gone from the server")
        epoch = uuid.uuid4().hex
        names = [word for number, name in enumerate(self._names()) for word in (str(number), name)]
        held = self._ask(("WATCH", self._keys.names), ("EXISTS", self._keys.names))[1]
        if not held:
            _raise_first(self._ask(("MULTI",), ("HSET", self._keys.names, *names, EPOCH, epoch),
                                   ("HSET", self._keys.conditions, EPOCH, epoch), ("EXEC",))[-1] or ())

    def _names(self) -> List[str]:
        return [str(self._watch.name_of(process)) for process in range(self._watch.processes)]

    def _test_names(self, names: Dict[str, str], conditions: Dict[str, str]) -> None:
        number = self._watch.number
        if EPOCH not in names:
            raise Spoilt(f"watch {number} was begun by stations of an earlier version")
        if names_of(names) != self._names():
            raise Spoilt(f"the processes of watch {number} are {names_of(names)} on the server, and not "
                         f"{self._names()}")
        if conditions.get(EPOCH) != names[EPOCH]:
            raise Spoilt(f"which processes of watch {number} have come is gone from the server")

    def _test_process(self, conditions: Dict[str, str], owner_and_probe: List[Any], about: Any) -> bool:
        """Whether the process comes for the first time; then the server holds nothing of it, and else its probe."""
        condition = conditions.get(str(self._process))
        if condition is None:
            if owner_and_probe != [None, None] or last_number(about):
                raise Spoilt(f"the server holds something of {self._name}, and not that it has come")
            return True
        if owner_and_probe[1] is None:
            raise Spoilt(f"{self._name} has come before, and its probe is gone from the server")
        if condition != str(int(self._is_watched)):
            raise OtherSettings()
        return False

    def _claim(self, epoch: str, is_new: bool) -> Optional[Opened]:
        """Makes this the newest station, unless there is a newer one already, and reads what is saved."""
        keys, me = self._keys, self._process
        marks = [("SET", keys.probe(me), epoch)] if is_new else []
        claim = (("MULTI",), ("HSET", keys.conditions, me, int(self._is_watched)),
                 ("SET", keys.owner(me), self._token), *marks, ("EXEC",))
        replies = self._ask(*claim, ("WATCH", keys.owner(me), keys.probe(me), keys.names), ("GET", keys.owner(me)),
                            ("HGET", keys.names, EPOCH), ("GET", keys.probe(me)),
                            ("XINFO", "STREAM", keys.notes(me)),
                            ("XREVRANGE", keys.notes(me), "+", "-", "COUNT", 1), LOOK)
        done, _, owner, held_epoch, probe, about, last, look = replies[len(claim) - 1:]
        if not self._line.still_holds(look):
            raise Interrupted("the server's data were replaced, or may have been")
        if done is None:
            return None
        _raise_first(done)
        if owner != self._token:
            raise TakenOver()
        if held_epoch is None or text(held_epoch) != epoch or probe is None or not probe.startswith(epoch.encode()):
            raise Spoilt(f"the server holds the probe of {self._name} of another run of watch {self._watch.number}")
        saved = bytes(probe[EPOCH_SIZE:]) or None
        self._test_notes(saved, last_number(about), last)
        return Opened(epoch, saved)

    def _test_notes(self, saved: Optional[bytes], ended: int, last: Any) -> None:
        """The stream has as many notes as the probe has given; the last is its own, unless it was trimmed."""
        told = _notes_of(saved)
        if ended != told:
            raise Spoilt(f"{self._name} has {ended} notes in its stream, and {told} by its probe")
        _raise_first([last])
        for _, fields in last:
            note = dict(zip(fields[::2], fields[1::2])).get(b"note", b"")
            if len(note) != NOTE_SIZE or _place_of(note) != (self._process, told - 1):
                raise Spoilt(f"the last entry in the stream of {self._name} is not its last note")

    def _ask(self, *commands: Any) -> List[Any]:
        replies = self._line.ask(*commands)
        _raise_first(reply for reply in replies if not _is_absence(reply))
        return replies


def _is_absence(reply: Any) -> bool:
    """What XINFO answers of a stream that isn't there."""
    return isinstance(reply, Exception) and "no such key" in str(reply)


def _raise_first(replies: Any) -> None:
    """Raises the first reply that is an error."""
    for reply in replies:
        if isinstance(reply, Exception):
            raise reply


def _notes_of(saved: Optional[bytes]) -> int:
    """How many notes a saved probe has given."""
    if saved is None:
        return 0
    if len(saved) < PROBE_SIZE:
        raise Spoilt("what is saved is no probe")
    raw = RawProbe.from_buffer_copy(saved)
    return int(raw.emitted) + int(raw.closed)


def _place_of(note: bytes) -> Any:
    raw = RawNote.from_buffer_copy(note)
    return int(raw.process), int(raw.number)
