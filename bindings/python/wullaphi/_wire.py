"""The words and replies of a Redis server on the wire, as version 2 of its protocol has them.

The package `redis` connects, with all that belongs to it. What is sent over the connection is packed and read here,
which takes a third of its time.
"""

from typing import Any, Callable, List, Tuple, Type

LONGEST = 65_536

# Errors that tell of the server and not of a command: it isn't ready, or it follows another one.
OF_THE_SERVER = (b"LOADING", b"MASTERDOWN", b"READONLY", b"UNBLOCKED")


def packed(words: Tuple[Any, ...], encode: Callable[[Any], bytes]) -> bytes:
    """A command. `encode` is for words that are neither bytes nor text.

    >>> packed(("XINFO STREAM", b"key", 7), lambda word: b"%d" % word)
    b'*4\\r\\n$5\\r\\nXINFO\\r\\n$6\\r\\nSTREAM\\r\\n$3\\r\\nkey\\r\\n$1\\r\\n7\\r\\n'
    """
    if isinstance(words[0], str) and " " in words[0]:
        words = (*words[0].split(), *words[1:])
    parts = [b"*%d\r\n" % len(words)]
    for word in words:
        data = word if isinstance(word, bytes) else word.encode() if isinstance(word, str) else encode(word)
        parts += (b"$%d\r\n" % len(data), data, b"\r\n")
    return b"".join(parts)


class Replies:
    """Reads replies from a socket. A reply that is an error is an exception of the type `error`.

    >>> import socket
    >>> ours, server = socket.socketpair()
    >>> server.sendall(b"*3\\r\\n:7\\r\\n$-1\\r\\n$4\\r\\nit\\r\\n\\r\\n-ERR no\\r\\n")
    >>> replies = Replies(ours, ValueError)
    >>> replies.read(), replies.read()
    ([7, None, b'it\\r\\n'], ValueError('ERR no'))
    """

    def __init__(self, socket: Any, error: Type[Exception]) -> None:
        self._socket = socket
        self._error = error
        self._data = b""
        self._at = 0

    def read(self) -> Any:
        """The next reply. Where the connection ends, a `ConnectionError`."""
        line = self._line()
        kind, rest = line[:1], line[1:]
        if kind == b"+":
            return rest
        if kind == b":":
            return int(rest)
        if kind == b"$":
            return None if rest == b"-1" else self._bytes(int(rest))
        if kind == b"*":
            return None if rest == b"-1" else self._many(int(rest))
        if kind == b"-" and not rest.startswith(OF_THE_SERVER):
            return self._error(rest.decode("utf-8", "replace"))
        raise ConnectionError(f"the server says {line[:200]!r}")

    def are(self, expected: bytes) -> bool:
        """Whether the next replies are these bytes, and nothing else; they are read then, and else none is.

        >>> import socket
        >>> ours, server = socket.socketpair()
        >>> server.sendall(b":7\\r\\n+OK\\r\\n")
        >>> replies = Replies(ours, ValueError)
        >>> replies.are(b":7\\r\\n"), replies.are(b"+NO\\r\\n"), replies.read()
        (True, False, b'OK')
        """
        while not self._data.startswith(expected, self._at):
            if not expected.startswith(self._data[self._at:]):
                return False
            self._receive()
        self._at += len(expected)
        return True

    def _many(self, count: int) -> List[Any]:
        return [self.read() for _ in range(count)]

    def _line(self) -> bytes:
        while True:
            end = self._data.find(b"\r\n", self._at)
            if end >= 0:
                line = self._data[self._at:end]
                self._at = end + 2
                return line
            self._receive()

    def _bytes(self, size: int) -> bytes:
        while len(self._data) - self._at < size + 2:
            self._receive()
        start, self._at = self._at, self._at + size + 2
        return self._data[start:start + size]

    def _receive(self) -> None:
        data = self._socket.recv(LONGEST)
        if not data:
            raise ConnectionError("the server has ended the connection")
        self._data = self._data[self._at:] + data
        self._at = 0
