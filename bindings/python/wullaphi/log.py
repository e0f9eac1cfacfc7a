"""Logs with vector clocks, by the names of hosts: as many hosts as you like, and no numbers.

A `HostLog` counts the events of its host and writes each as a line that `wcptrace --form lines` reads. What another
host is told goes with a header:

>>> import sys
>>> ada, ben = HostLog("ada", sys.stdout), HostLog("ben", sys.stdout)
>>> header = ada.send("asks ben")
{"host":"ada","clock":{"ada":1},"event":"asks ben"}
>>> ben.receive(header, "is asked")
{"host":"ben","clock":{"ben":1,"ada":1},"event":"is asked"}
True
"""

import functools
import hashlib
import hmac
import json
import logging
import os
import secrets
from typing import Any, Callable, Dict, Iterable, Optional, TextIO, Union

from ._forks import Locked
from ._refusals import Ahead, ClockEnd, NoStamp
from ._watch import listed

# What `wcptrace` reads: the greatest number of a clock, and the longest line.
MOST_EVENTS = 4_294_967_294
LONGEST = 65_536

# No hosts are taken into a clock that is longer: the rest of a line is for its text.
LONGEST_CLOCK = LONGEST // 2

Sink = Union[str, "os.PathLike[str]", TextIO, Callable[[str], Any]]


class HostLog(Locked):
    """The log of one host. It goes to `out`: a file by its name, a text stream such as `sys.stdout`, or a function
    that is called with each line, as `stream(client, key)` gives one for Redis.

    Several logs may share one file or stream: a line is written whole. Threads may share a log; a process that was
    forked makes one of its own, with another name. **A host that starts again needs a name of its own**, since its
    clock starts again too: a number of the run behind its name, or what `named_anew` gives for Redis.

    >>> lines = []
    >>> log = HostLog("worker1", lines.append)
    >>> log.event("starts")
    >>> log.clock
    {'worker1': 1}
    >>> lines
    ['{"host":"worker1","clock":{"worker1":1},"event":"starts"}']

    Where strangers may send messages, as over HTTP, the hosts are named in `hosts`, or share a `key`. Of the headers
    that come only the counts of these hosts are taken, with those of later runs such as "ada.2"; and a header that
    comes without the key is passed over. What is passed over is order that isn't known, which can only add moments to
    those that are found. Without either, a host that is new to a clock of 32,768 bytes is passed over.

    >>> ada, eve = (HostLog("ada", print, key="a secret"), HostLog("eve", print))
    >>> ada.receive(eve.send("forges a clock"))
    {"host":"eve","clock":{"eve":1},"event":"forges a clock"}
    False
    """

    def __init__(self, host: str, out: Sink, hosts: Optional[Iterable[str]] = None,
                 key: Optional[Union[str, bytes]] = None) -> None:
        super().__init__()
        self.name = host
        self._hosts = None if hosts is None else frozenset(listed(hosts, "the hosts")) | {host}
        self._key = key.encode() if isinstance(key, str) else key
        self._clock = {host: 0}
        self._start = f'{{"host":{_compact(host)},"clock":'
        self._write = _writer(out)

    @property
    def clock(self) -> Dict[str, int]:
        """How many events of each host this one knows of."""
        with self._lock:
            return dict(self._clock)

    def event(self, text: str) -> None:
        """Something happens on the host. A line of more than 65,536 bytes is refused by `ValueError`."""
        with self._lock:
            self._log(text, self._clock)

    def send(self, text: str) -> str:
        """The host sends a message. The answer goes with it: text that fits into a header, as of HTTP."""
        with self._lock:
            self._log(text, self._clock)
            told = _told(self._clock)
        return told if self._key is None else told + self._signed(told)

    def receive(self, header: str, text: str = "receives a message") -> bool:
        """The host receives a message that came with this header. Whether it did: else the header is passed over, since
        it comes without the key, or from none of the hosts.

        >>> HostLog("ada", print).receive("no clock")
        Traceback (most recent call last):
            ...
        wullaphi.NoStamp: The header holds no clock.
        """
        said = header[:header.rfind("}") + 1]
        if self._key is not None and not _is_same(header, said + self._signed(said)):
            return False
        came = _clock_of(said)
        with self._lock:
            told = self._taken(came)
            if came and not told:
                return False
            if told.get(self.name, 0) > self._clock[self.name]:
                raise Ahead(f"The clock knows of events that {self.name} has not made: is the name used twice?")
            names = {**self._clock, **told}
            self._log(text, {name: max(told.get(name, 0), self._clock.get(name, 0)) for name in names})
            return True

    def _signed(self, told: str) -> str:
        """What says that a clock comes with the key."""
        return hmac.new(self._key or b"", told.encode("utf-8", "surrogatepass"), hashlib.sha256).hexdigest()

    def _taken(self, told: Dict[str, int]) -> Dict[str, int]:
        """What is taken of a clock that came."""
        if self._hosts is not None:
            told = {name: count for name, count in told.items()
                    if name in self._hosts or name.rpartition(".")[0] in self._hosts}
        if told.keys() <= self._clock.keys():
            return told
        if len(_told({**self._clock, **told})) <= LONGEST_CLOCK:
            return told
        return {name: count for name, count in told.items() if name in self._clock}

    def stamp(self, to: str) -> str:
        """The same as `send`, with a text that names the receiver."""
        return self.send(f"sends to {to}")

    def handler(self, level: int = logging.NOTSET) -> logging.Handler:
        """A handler of `logging` that makes an event of each record.

        >>> import sys
        >>> logger = logging.getLogger("of ada")
        >>> logger.addHandler(HostLog("ada", sys.stdout).handler())
        >>> logger.warning("holds the lock")
        {"host":"ada","clock":{"ada":1},"event":"holds the lock"}
        """
        return _Handler(self, level)

    def _log(self, text: str, clock: Dict[str, int]) -> None:
        """Counts an event and writes its line. Where the line is refused nothing is counted; where the writing fails
        the event is counted, and its line may be missing, which makes no later line wrong."""
        with self._lock:
            if self._clock[self.name] == MOST_EVENTS:
                raise ClockEnd()
            counted = {**clock, self.name: self._clock[self.name] + 1}
            line = f'{self._start}{_told(counted)},"event":{_compact(text)}}}'
            if len(line) > LONGEST:
                raise ValueError("the line of the event would be longer than 65,536 bytes")
            self._clock = counted
            self._write(line)

    def __repr__(self) -> str:
        return f"HostLog({self.name!r}, clock={self.clock})"


class _Handler(logging.Handler):
    def __init__(self, log: HostLog, level: int) -> None:
        super().__init__(level)
        self._log = log

    def emit(self, record: logging.LogRecord) -> None:
        try:
            self._log.event(self.format(record))
        except Exception:  # pylint: disable=broad-exception-caught
            self.handleError(record)


def stream(client: Any, key: str) -> Callable[[str], Any]:
    """What writes lines to the stream of this key of a Redis server. `wcpcollect --logs KEY` reads them from there.

    `client` is a client of the package `redis`; each line is one `XADD`. Where the server can't be reached, its error
    goes to the caller of the log.

    >>> class Client:
    ...     def xadd(self, key, fields):
    ...         print(key, fields)
    >>> HostLog("ada", stream(Client(), "logs")).event("starts")
    logs {'line': '{"host":"ada","clock":{"ada":1},"event":"starts"}'}
    """
    return lambda line: client.xadd(key, {"line": line})


def named_anew(client: Any, key: str, host: str) -> str:
    """A name that no other run of the host has, whatever a server has lost: "ada." and twelve random digits. The hash
    `KEY:runs` on the server says of which host each name is.

    >>> class Client:
    ...     def hset(self, key, name, host):
    ...         print(key, name[:4], len(name), host)
    >>> named_anew(Client(), "logs", "ada") != named_anew(Client(), "logs", "ada")
    logs:runs ada. 16 ada
    logs:runs ada. 16 ada
    True
    """
    name = f"{host}.{secrets.token_hex(6)}"
    client.hset(f"{key}:runs", name, host)
    return name


def _writer(out: Sink) -> Callable[[str], Any]:
    if isinstance(out, (str, os.PathLike)):
        return _appending(out)
    if callable(out):
        return out
    text = out

    def write(line: str) -> None:
        text.write(line + "\n")
        text.flush()

    return write


def _appending(path: Union[str, "os.PathLike[str]"]) -> Callable[[str], Any]:
    """Writes each line by one call of the system, so that lines of others stay whole. Where the device takes a part of
    a line, the rest goes in front of the next one."""
    file = open(path, "ab", buffering=0)
    rest = b""

    def write(line: str) -> None:
        nonlocal rest
        data = rest + line.encode() + b"\n"
        while data:
            rest = data = data[file.write(data):]

    return write


_encode = json.JSONEncoder(separators=(",", ":")).encode


def _compact(value: object) -> str:
    """As JSON without spaces, and in ASCII; a lone half of a character, which is no text, becomes a question mark."""
    if isinstance(value, str) and not value.isascii():
        value = value.encode("utf-8", "replace").decode()
    return _encode(value)


@functools.lru_cache(10_000)
def _quoted(host: str) -> str:
    return _compact(host)


def _told(clock: Dict[str, int]) -> str:
    """A clock as JSON: its names come again and again."""
    return "{" + ",".join([f"{_quoted(host)}:{count}" for host, count in clock.items()]) + "}"


def _clock_of(header: str) -> Dict[str, int]:
    try:
        clock = json.loads(header)
    except (ValueError, RecursionError):
        clock = None
    if not isinstance(clock, dict) or not all(type(it) is int and 0 <= it <= MOST_EVENTS for it in clock.values()):
        raise NoStamp("The header holds no clock.")
    return clock


def _is_same(one: str, other: str) -> bool:
    """Whether two texts are the same, in a time that doesn't tell how far they are."""
    return hmac.compare_digest(*(it.encode("utf-8", "surrogatepass") for it in (one, other)))
