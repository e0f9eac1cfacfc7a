"""What a model of a Redis server holds, and its replies as bytes. All values are immutable, so that a copy of the table
of keys is a copy of the data."""

from typing import Any, Callable, Dict, List, NamedTuple, Optional, Tuple, Union

EntryId = Tuple[int, int]
Entry = Tuple[EntryId, Tuple[bytes, ...]]
FIRST: EntryId = (0, 0)
LARGEST: EntryId = (2 ** 64 - 1, 2 ** 64 - 1)


class Stream(NamedTuple):
    """A stream. `last` is the id that was given last, also where that entry is gone."""

    entries: Tuple[Entry, ...] = ()
    last: EntryId = FIRST
    deleted: EntryId = FIRST
    added: int = 0


class Hash(Dict[bytes, bytes]):
    """The fields of a hash, in the order in which they came. Nobody changes it."""


class Words(Tuple[bytes, ...]):
    """The elements of a list."""


Value = Union[bytes, Hash, Words, Stream]


class Refusal(Exception):
    """A reply that is an error."""


class Status(bytes):
    """A reply such as OK."""


class NoArray:
    """The reply of EXEC where nothing was done, and of XREAD where nothing came."""


OK = Status(b"OK")
WRONG_TYPE = "WRONGTYPE Operation against a key holding the wrong kind of value"


class Data:
    """The keys of a server. `touched` is called with each key that a command changes."""

    def __init__(self, touched: Callable[[bytes], None]) -> None:
        self.values: Dict[bytes, Value] = {}
        self._touched = touched

    def put(self, key: bytes, value: Value) -> None:
        """The key has this value from now on."""
        self.values[key] = value
        self._touched(key)

    def drop(self, key: bytes) -> bool:
        """The key is gone from now on. Whether it was there."""
        if key not in self.values:
            return False
        del self.values[key]
        self._touched(key)
        return True

    def text(self, key: bytes) -> Optional[bytes]:
        """The text of a key."""
        value = self.values.get(key)
        if value is not None and not isinstance(value, bytes):
            raise Refusal(WRONG_TYPE)
        return value

    def hash(self, key: bytes) -> Hash:
        """A copy of the hash of a key."""
        value = self.values.get(key, Hash())
        if not isinstance(value, Hash):
            raise Refusal(WRONG_TYPE)
        return Hash(value)

    def words(self, key: bytes) -> Words:
        """The list of a key."""
        value = self.values.get(key, Words())
        if not isinstance(value, Words):
            raise Refusal(WRONG_TYPE)
        return value

    def stream(self, key: bytes) -> Optional[Stream]:
        """The stream of a key."""
        value = self.values.get(key)
        if value is not None and not isinstance(value, Stream):
            raise Refusal(WRONG_TYPE)
        return value


def shown_id(entry: EntryId) -> bytes:
    """The id of an entry as the server writes it."""
    return b"%d-%d" % entry


def read_id(word: bytes, rest: int = 0) -> EntryId:
    """The id in a command. `rest` is its second number where the command leaves it out."""
    first, dash, second = word.partition(b"-")
    if not first.isdigit() or (dash and not second.isdigit()):
        raise Refusal("ERR Invalid stream ID specified as stream command argument")
    return int(first), int(second) if dash else rest


def read_bound(word: bytes, rest: int) -> EntryId:
    """The end of a range of entries."""
    return FIRST if word == b"-" else LARGEST if word == b"+" else read_id(word, rest)


def read_int(word: bytes) -> int:
    """A whole number in a command."""
    digits = word[1:] if word.startswith(b"-") else word
    if not digits.isdigit() or (digits.startswith(b"0") and word != b"0"):
        raise Refusal("ERR value is not an integer or out of range")
    return int(word)


def pairs_of(entries: Tuple[Entry, ...]) -> List[Any]:
    """Entries as a reply."""
    return [[shown_id(entry), list(fields)] for entry, fields in entries]


def encoded(reply: Any) -> bytes:
    """A reply on the wire."""
    if isinstance(reply, Refusal):
        return b"-%b\r\n" % str(reply).encode()
    if isinstance(reply, Status):
        return b"+%b\r\n" % reply
    if isinstance(reply, bytes):
        return b"$%d\r\n%b\r\n" % (len(reply), reply)
    if isinstance(reply, int):
        return b":%d\r\n" % reply
    if reply is None:
        return b"$-1\r\n"
    if reply is NoArray:
        return b"*-1\r\n"
    return b"*%d\r\n" % len(reply) + b"".join(map(encoded, reply))
