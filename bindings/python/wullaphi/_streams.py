"""The streams of a watch on a Redis server, read from their beginning, each note in its turn."""

import json
import uuid
from typing import Any, Dict, List, Optional, Set, Tuple

from ._line import EPOCH, LOOK, Keys, Line, Spoilt, client_of, last_number, names_of, number_of, table, text
from ._note import Note
from ._refusals import NoNote
from .transport import TakenOver


class Gap(Exception):
    """A note is missing from a stream, or isn't one: there is no report."""


class StartedAnew(Exception):
    """The server was started anew, or holds other data than it did: all must be read again, from the beginning or from
    what was saved there."""


BEGUN_ANEW = "the watch was begun anew on the server"
REPLACED = "the server's data were replaced, or may have been"

# What is saved replaces what was, and the notes behind it are deleted, at once: only the newest collector may do that,
# and only where the server holds what it has read. The checker comes in parts, since a server takes no word that is too
# long.
SAVE = """
local about = redis.call('INFO', 'replication')
if not string.find(about, 'role:master', 1, true) or not string.find(about, ARGV[2], 1, true)
    or (redis.call('HGET', KEYS[2], 'epoch') or '') ~= ARGV[3] then return -1 end
if redis.call('HGET', KEYS[1], 'token') ~= ARGV[1] then return 0 end
local parts = tonumber(ARGV[5])
redis.call('HSET', KEYS[1], 'state', ARGV[4])
for part = 1, parts do redis.call('HSET', KEYS[1], 'checker:' .. part, ARGV[5 + part]) end
local surplus = parts + 1
while redis.call('HDEL', KEYS[1], 'checker:' .. surplus) == 1 do surplus = surplus + 1 end
redis.call('HDEL', KEYS[1], 'checker')
for at = 3, #KEYS do redis.call('XTRIM', KEYS[at], 'MINID', ARGV[at + 3 + parts]) end
return 1
"""
PART = 262_144

# What the state says that is saved beside a checker.
STATE = {"pairs": bool, "given": list, "asked": list, "ended": dict, "names": list, "places": list, "parts": int}


class Streams:
    """Reads the notes of all processes of a watch. `places` has the number of notes read of each.

    Behind each request the server is looked at once more: the replies count only if it still holds what was read
    before. A word that it looks at never comes back once it has changed: the `run_id` of the server, its
    `master_replid`, and the epoch of the watch."""

    def __init__(self, url: str, watch: int) -> None:
        self._client = client_of(url)
        self._keys = Keys(watch)
        self._line: Optional[Line] = None
        # The run of the server and its `master_replid`, and the epoch of the watch, once they are known.
        self._server: Optional[Tuple[str, str]] = None
        self._epoch: Optional[str] = None
        self._saved = self._token = ""
        self.names: List[str] = []
        self.places: List[int] = []
        # The processes that have come.
        self._come: Set[int] = set()

    def ask(self, *commands: Tuple[Any, ...]) -> List[Any]:
        """The replies to these commands; `StartedAnew` where the server doesn't hold what was read so far."""
        line = self._connected()
        *replies, epoch, about = line.ask(*commands, ("HGET", self._keys.names, EPOCH), LOOK)
        if not line.still_holds(about):
            line.close()
            raise StartedAnew(REPLACED)
        if self._epoch is not None and _epoch_of(epoch) != self._epoch:
            raise StartedAnew(BEGUN_ANEW)
        return replies

    def _connected(self) -> Line:
        if self._line is None or not self._line.is_open:
            line = self._line = Line(self._client)
            before, self._server = self._server, (line.run, line.replication)
            if before is not None and before != self._server:
                raise StartedAnew("the server was started anew" if before[0] != line.run else REPLACED)
        return self._line

    def restart(self) -> None:
        """Reads all again from here on, whatever the server holds."""
        self._server = self._epoch = None
        if self._line is not None:
            self._line.close()
        self.names, self.places, self._come = [], [], set()

    def claim(self, name: str) -> Optional[Tuple[Dict[str, Any], bytes]]:
        """Makes this the newest collector of this name. The answer is what was saved last, unless the server has lost
        notes that went into it."""
        self._saved = self._keys.saved(name)
        self._token = uuid.uuid4().hex
        _, state, checker = self._answered(("HSET", self._saved, "token", self._token), ("HGET", self._saved, "state"),
                                           ("HGET", self._saved, "checker"))
        if state is None:
            return None
        told = _state_of(state, name)
        if told["parts"] > 0:
            fields = [f"checker:{part + 1}" for part in range(told["parts"])]
            checker = b"".join(it or b"" for it in self._answered(("HMGET", self._saved, *fields))[0])
        held = table(self.ask(("HGETALL", self._keys.names))[0])
        names, epoch = names_of(held), held.get(EPOCH, "")
        ends = [last_number(it) for it in self.ask(*(
            ("XINFO", "STREAM", self._keys.notes(process)) for process in range(len(told["places"]))))]
        if (names, epoch) != (told["names"], told.get(EPOCH, "")) \
                or any(end < place for end, place in zip(ends, told["places"])):
            return None
        self.names, self.places, self._epoch = told["names"], told["places"], epoch
        return told, checker or b""

    def _answered(self, *commands: Tuple[Any, ...]) -> List[Any]:
        """The replies to these commands; the first that is an error is raised."""
        replies = self.ask(*commands)
        for reply in replies:
            if isinstance(reply, Exception):
                raise reply
        return replies

    def save(self, told: Dict[str, Any], checker: bytes, trims: bool) -> None:
        """Saves this, with the run of the server, the epoch of the watch and how many notes of each process went into
        it. With `trims` it deletes the notes behind it."""
        run, replication = self._server or ("", "")
        parts = [checker[at:at + PART] for at in range(0, len(checker), PART)]
        state = json.dumps({**told, "run": run, "replication": replication, EPOCH: self._epoch, "names": self.names,
                            "places": self.places, "parts": len(parts)})
        keys = [self._keys.notes(process) for process in range(len(self.names))] if trims else []
        done = self._answered(("EVAL", SAVE, 2 + len(keys), self._saved, self._keys.names, *keys, self._token,
                               f"master_replid:{replication}", self._epoch or "", state, len(parts), *parts,
                               *(place + 1 for place in self.places[:len(keys)])))[0]
        if done == -1:
            raise StartedAnew(REPLACED)
        if done != 1:
            raise TakenOver("a newer collector goes on from what this one saved")

    def may_halve_steps(self) -> bool:
        """Whether the server starts over a file that ends in the middle of a step. It then drops the half, but leaves
        the step open in the file, and does the half when it is started once more."""
        told = [table(it) for it in self.ask(("CONFIG", "GET", "appendonly"), ("CONFIG", "GET", "aof-load-truncated"))
                if not isinstance(it, Exception)]
        return len(told) == 2 and all("yes" in it.values() for it in told)

    def evicting(self) -> str:
        """The server's `maxmemory-policy`, where it deletes keys once its memory is full."""
        policy = text(self.ask(("INFO", "memory"))[0]).partition("\r\nmaxmemory_policy:")[2].partition("\r\n")[0]
        return "" if policy == "noeviction" else policy

    def conditions(self) -> List[Optional[bool]]:
        """Whether each process has a condition; None for one that hasn't come yet. Nothing, before the first has."""
        *replies, epoch = self.ask(("HGETALL", self._keys.names), ("HGETALL", self._keys.conditions),
                                   ("HGET", self._keys.names, EPOCH))
        names, told = map(table, replies)
        if not names and (epoch is not None or not told):
            return []
        if _epoch_of(epoch) != names.get(EPOCH, ""):
            raise StartedAnew(BEGUN_ANEW)
        if not self.names:
            self.names = names_of(names)
            self.places = [0] * len(self.names)
            self._epoch = names.get(EPOCH, "")
        self._test_conditions(told)
        conditions = [told[str(it)] == "1" if str(it) in told else None for it in range(len(self.names))]
        self._come = {process for process, condition in enumerate(conditions) if condition is not None}
        return conditions

    def untold(self) -> List[str]:
        """The processes that may have done something that no note tells."""
        told = table(self._answered(("HGETALL", self._keys.conditions))[0])
        self._test_conditions(told)
        return [name for number, name in enumerate(self.names) if self._keys.untold(number) in told]

    def _test_conditions(self, told: Dict[str, str]) -> None:
        if told.get(EPOCH, "") != (self._epoch or ""):
            raise Gap("the server has lost which processes have come")

    def beats(self) -> List[str]:
        """What each process shows to be alive by; it rises."""
        reply = self.ask(("MGET", *(self._keys.beat(process) for process in range(len(self.names)))))[0]
        return [text(it) for it in reply]

    def read(self, seconds: float, most: int = 1000) -> List[Note]:
        """The next notes; it waits so long for one."""
        keys = [self._keys.notes(process) for process in range(len(self.names))]
        wait: Tuple[Any, ...] = ("BLOCK", max(1, int(1000 * seconds))) if seconds > 0 else ()
        reply = self.ask(("XREAD", "COUNT", most, *wait, "STREAMS", *keys, *self.places))[0]
        if isinstance(reply, Exception):
            raise reply
        found = [(keys.index(text(key)), entries) for key, entries in reply or ()]
        # All of them, before a note counts as read: the line may be lost here, and the notes come again then.
        for process, _ in found:
            if process not in self._come and self.conditions()[process] is None:
                raise Gap(f"{self.names[process]} has notes, and the server has lost that it has come")
        return [self._note(process, text(entry), fields) for process, entries in found for entry, fields in entries]

    def _note(self, process: int, entry: str, fields: Any) -> Note:
        """The note of an entry, which must be the next of its process."""
        place = self.places[process]
        if number_of(entry) > place + 1:
            raise self._gap(process)
        try:
            note = Note(dict(zip(fields[::2], fields[1::2]))[b"note"] if entry == f"{place + 1}-0" else b"")
        except (KeyError, NoNote):
            raise Gap(f"entry {entry} of {self.names[process]} is no note") from None
        if (note.process, note.number) != (process, place):
            raise Gap(f"entry {entry} of {self.names[process]} is another note: {note!r}")
        self.places[process] += 1
        return note

    def _gap(self, process: int) -> Gap:
        return Gap(f"note {self.places[process]} of {self.names[process]} is missing from the stream")

    def behind(self) -> int:
        """How many notes wait to be read. Those that were deleted are a `Gap`, and those that the server lost since
        they were read are `StartedAnew`."""
        ends = [last_number(it) for it in self.ask(*(
            ("XINFO", "STREAM", self._keys.notes(process)) for process in range(len(self.names))))]
        if any(end < place for end, place in zip(ends, self.places)):
            raise StartedAnew("the server has lost notes that it had")
        for process, (end, place) in enumerate(zip(ends, self.places)):
            if end > place and not self._range(process, place + 1, end):
                raise self._gap(process)
        return sum(ends) - sum(self.places)

    def _range(self, process: int, first: int, last: int) -> List[Any]:
        reply = self.ask(("XRANGE", self._keys.notes(process), first, last, "COUNT", 1))[0]
        if isinstance(reply, Exception):
            raise reply
        return list(reply)


def _epoch_of(reply: Any) -> str:
    return text(reply) if reply is not None else ""


def _state_of(state: bytes, name: str) -> Dict[str, Any]:
    """What was saved beside a checker under this name."""
    try:
        told = json.loads(state)
    except ValueError:
        told = None
    if isinstance(told, dict):
        told.setdefault("parts", 0)  # a version before this one saved the checker whole
    if not isinstance(told, dict) or not all(isinstance(told.get(it), kind) for it, kind in STATE.items()):
        raise Spoilt(f"what is saved as {name!r} is damaged")
    return told
