"""One connection to a Redis server, and the keys of a watch."""

import hashlib
import importlib
import os
from typing import Any, Dict, List, Optional, Tuple, Union

from ._library import MAX_PROCESSES
from ._wire import Replies, packed

Word = Union[bytes, str, int]

# The field of the epoch, which changes where the watch begins anew on the server.
EPOCH = "epoch"


class Unreachable(Exception):
    """The server can't be reached, or the connection to it was lost."""


class Spoilt(Exception):
    """What the server holds of the watch doesn't fit together. Give the next run a number of its own."""


def package() -> Any:
    """The package `redis`, which only what speaks with a server needs."""
    try:
        return importlib.import_module("redis")
    except ImportError as error:
        raise ImportError("the package redis is missing (Debian: python3-redis)") from error


def client_of(url: str, timeout: float = 10.0) -> Any:
    """A client of the package `redis`, for a `url` such as redis://localhost:6379/0 or unix:///run/redis.sock."""
    words = {"socket_timeout": timeout}
    if not url.startswith("unix:"):  # to which there is no time to connect
        words["socket_connect_timeout"] = timeout
    return package().Redis.from_url(url, **words)


class Replica(Unreachable):
    """The server is a replica: it lags behind its primary, and loses what its primary lacks."""


# What is asked to learn which server it is that answers, and whose data it holds.
LOOK = ("INFO", "replication")
PRIMARY = b"\r\nrole:master\r\n"


class Line:
    """A connection that never connects again by itself: what a server had acknowledged it may have lost when it is
    started anew, so each new connection is looked at first. `run` tells the runs of a server apart. With `seconds` it
    waits no longer than so for the server.

    A server that goes on running may lose writes too: as a replica it takes the data of another one in place of its
    own. It never is a primary again under the same `replication`, its `master_replid`. So whoever reads or writes asks
    for `LOOK` behind that, and `still_holds` says whether the server was a primary all the time."""

    def __init__(self, client: Any, seconds: Optional[float] = None) -> None:
        exceptions = package().exceptions
        self._lost = (exceptions.ConnectionError, exceptions.TimeoutError, OSError)
        self._connection: Any = client.connection_pool.make_connection()
        if seconds is not None:
            self._connection.socket_timeout = self._connection.socket_connect_timeout = seconds
        self._process = os.getpid()
        self.is_open = True
        try:
            self._connection.connect()
        except self._lost as error:
            raise self._unreachable(error) from error
        self.encode = self._connection.encoder.encode
        self._replies = Replies(self._connection._sock, exceptions.ResponseError)
        server, replication = map(text, self.ask(("INFO", "server"), LOOK))
        self.run = _told(server, "run_id")
        self.replication = _told(replication, "master_replid")
        if not self.run or not self.replication:
            raise self._unreachable(f"the server doesn't say which run it is: {(server + replication)[:200]}")
        self._mark = f"\r\nmaster_replid:{self.replication}\r\n".encode()
        self.still_holds(replication.encode())

    def is_as_before(self, about: bytes) -> bool:
        """Whether the server that answered `LOOK` so is a primary, and was one since this connection was made."""
        return self._mark in about and PRIMARY in about

    def still_holds(self, about: Any) -> bool:
        """Whether the server that answered `LOOK` so still holds the data that it held when this connection was made.
        Where it is a replica now, that is raised, and the connection is closed."""
        if isinstance(about, Exception):
            raise about
        if PRIMARY not in about:
            self.close()
            raise Replica("the server is a replica, which lags behind its primary; give the address of the primary")
        return self._mark in about

    def limit(self, seconds: float) -> None:
        """No reply is waited for longer than this from here on."""
        if self.is_open:
            self._connection._sock.settimeout(seconds)

    def ask(self, *commands: Tuple[Word, ...]) -> List[Any]:
        """Sends these commands at once. The answer has the reply to each; a reply that is an error is an exception."""
        return self.ask_packed(b"".join([packed(words, self.encode) for words in commands]), len(commands))

    def ask_packed(self, commands: bytes, count: int, expected: bytes = b"", behind: int = 0) -> List[Any]:
        """The same for so many commands that are packed already. Where all replies but the last `behind` are the
        expected ones, the answer has these last ones alone."""
        if not self.is_open:
            raise Unreachable("the connection was lost")
        if self._process != os.getpid():
            raise Unreachable("the connection belongs to the process that this one was forked from")
        try:
            self._connection._sock.sendall(commands)
            if expected and self._replies.are(expected):
                count = behind
            return [self._replies.read() for _ in range(count)]
        except self._lost as error:
            raise self._unreachable(error) from error
        except BaseException:  # else replies that nobody has read would answer later commands
            self.close()
            raise

    def _unreachable(self, why: object) -> Unreachable:
        self.close()
        return Unreachable(str(why))

    def close(self) -> None:
        """Ends the connection; each later call is `Unreachable`."""
        self.is_open = False
        self._connection.disconnect()


def run_token(line: Line, epoch: str) -> str:
    """What goes with each stamp, and is different wherever the server may have lost the event that it tells of: after
    another start, another primary, or where the watch has begun anew."""
    return hashlib.sha256(f"{line.run} {line.replication} {epoch}".encode()).hexdigest()[:40]


class Keys:
    """The keys of a watch on the server. The braces keep them together where a cluster holds them.

    >>> Keys(42).notes(0)
    'wullaphi:{42}:notes:0'
    """

    def __init__(self, watch: int) -> None:
        self._start = f"wullaphi:{{{watch}}}:"
        # The names of the processes by their numbers, and the epoch of the watch: a random word.
        self.names = self._start + "names"
        # Whether each process that has come has a condition, by its number, and the same epoch.
        self.conditions = self._start + "conditions"
        # What is known of the meeting of its processes, and each time that one went on without the others.
        self.meeting = self._start + "meeting"
        self.gave_up = self._start + "gaveup"

    def notes(self, process: int) -> str:
        """The stream of the notes of a process; the id of an entry is the number of the note and one more."""
        return f"{self._start}notes:{process}"

    def probe(self, process: int) -> str:
        """The probe of a process, as it was saved last."""
        return f"{self._start}probe:{process}"

    def untold(self, process: int) -> str:
        """The field of the conditions that says that a process may have done something that no note tells."""
        return f"untold:{process}"

    def owner(self, process: int) -> str:
        """Which station of a process is the newest."""
        return f"{self._start}owner:{process}"

    def saved(self, name: str) -> str:
        """What a collector of this name has saved."""
        return f"{self._start}saved:{name}"

    def standing(self, process: int) -> str:
        """That a process stands at its place in the meeting; it runs out."""
        return f"{self._start}standing:{process}"

    def waking(self, process: int) -> str:
        """What wakes a process that stands there."""
        return f"{self._start}waking:{process}"

    def beat(self, process: int) -> str:
        """A number that rises while a process lives."""
        return f"{self._start}beat:{process}"


def text(reply: Any) -> str:
    """A reply as text; an error is raised."""
    if isinstance(reply, Exception):
        raise reply
    return reply.decode("utf-8", "replace") if isinstance(reply, bytes) else str(reply)


def table(reply: Any) -> Dict[str, str]:
    """A reply that lists names and values in turn."""
    if isinstance(reply, Exception):
        raise reply
    if isinstance(reply, dict):
        return {text(name): text(value) for name, value in reply.items()}
    return {text(name): text(value) for name, value in zip(reply[::2], reply[1::2])}


def last_number(reply: Any) -> int:
    """How many notes a stream has been given, by what `XINFO STREAM` says; the stream may not be there yet."""
    if isinstance(reply, Exception):
        if "no such key" in str(reply):
            return 0
        raise reply
    return number_of(table(reply)["last-generated-id"])


def number_of(entry: Union[str, bytes]) -> int:
    """The number in the id of an entry."""
    return int((entry.decode() if isinstance(entry, bytes) else entry).partition("-")[0])


def names_of(names: Dict[str, str]) -> List[str]:
    """The names of the processes, in the order of their numbers; none where the server has none."""
    count = len(names) - (EPOCH in names)
    if count > MAX_PROCESSES:
        raise Spoilt(f"the server has {count} processes of the watch, and {MAX_PROCESSES} are the most")
    try:
        return [names[str(number)] for number in range(count)]
    except KeyError:
        raise Spoilt(f"the names of the processes are not numbered on the server: {names}") from None


def _told(about: str, name: str) -> str:
    """What the server tells under this name."""
    return about.partition(f"\r\n{name}:")[2].partition("\r\n")[0]
