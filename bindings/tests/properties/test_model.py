"""The model of the server gives the replies of a real one."""

import pathlib
import re
import socket
import subprocess
import time
from typing import Any, Iterator, List, Tuple

import pytest
from .model_faults import commands_in
from hypothesis import given
from hypothesis import strategies as st
from .model_server import ModelServer

from wullaphi._steps import PUT
from wullaphi._streams import SAVE
from wullaphi._wire import packed

SECONDS = 60

Words = Tuple[bytes, ...]

keys = st.sampled_from([b"text", b"hash", b"list", b"stream", b"none"])
values = st.sampled_from([b"", b"0", b"7", b"-3", b"it", b"x\r\ny", b"01"])
fields = st.sampled_from([b"epoch", b"0", b"untold:0"])
ids = st.one_of(st.sampled_from([b"0-0", b"0", b"it"]), st.builds(b"%d-%d".__mod__, st.tuples(
    st.integers(0, 6), st.integers(0, 1))))
bounds = st.one_of(ids, st.sampled_from([b"-", b"+"]))


def words(*parts: Any) -> Any:
    """A command of these words; a part may be a strategy."""
    return st.tuples(*(st.just(it) if isinstance(it, bytes) else it for it in parts))


texts = st.one_of(
    words(b"GET", keys), words(b"SET", keys, values), words(b"SET", keys, b"", b"NX"), words(b"APPEND", keys, values),
    words(b"INCR", keys), words(b"MGET", keys, keys), words(b"EXISTS", keys, keys), words(b"DEL", keys, keys))
hashes = st.one_of(
    words(b"HGET", keys, fields), words(b"HMGET", keys, fields, fields), words(b"HGETALL", keys),
    words(b"HSET", keys, fields, values), words(b"HSET", keys, fields, values, fields), words(b"HDEL", keys, fields),
    words(b"HSETNX", keys, fields, values), words(b"HDEL", keys, fields, fields))
lists = st.one_of(words(b"RPUSH", keys, values, values), words(b"LRANGE", keys, values, values))
streams = st.one_of(
    words(b"XADD", keys, ids, b"note", values), words(b"XADD", b"stream", ids, b"note", values),
    words(b"XADD", b"stream", ids, b"note"), words(b"XLEN", keys), words(b"XDEL", b"stream", ids, ids),
    words(b"XTRIM", keys, b"MINID", ids), words(b"XINFO", b"STREAM", keys),
    words(b"XRANGE", keys, bounds, bounds, b"COUNT", b"1"), words(b"XRANGE", b"stream", bounds, bounds),
    words(b"XREVRANGE", keys, bounds, bounds, b"COUNT", b"1"),
    words(b"XREAD", b"COUNT", b"2", b"BLOCK", b"1", b"STREAMS", b"stream", keys, ids, ids),
    words(b"XREAD", b"STREAMS", b"stream", ids))
transactions = st.sampled_from([(b"MULTI",), (b"EXEC",), (b"DISCARD",), (b"UNWATCH",), (b"WATCH", b"text", b"hash"),
                                (b"WATCH", b"stream"), (b"FLUSHALL",), (b"NOSUCH", b"a", b"b"), (b"GET",)])
scripts = st.one_of(
    words(b"EVAL", PUT, b"3", keys, keys, keys, values, b"untold:0", ids, values),
    words(b"EVAL", PUT, b"3", b"stream", b"text", b"hash", values, b"untold:0", ids, values, ids, values),
    words(b"EVAL", SAVE.encode(), b"3", b"hash", b"none", b"stream", values, b"role:master", st.just(b""), b"state",
          b"2", b"one", b"two", ids),
    words(b"EVAL", b"return 1", b"0"))
some = st.one_of(texts, hashes, lists, streams, transactions, scripts)


class RealServer:
    """A redis-server over a socket in a folder."""

    def __init__(self, folder: pathlib.Path) -> None:
        self._path = str(folder / "it.sock")
        self.process = subprocess.Popen(
            ["redis-server", "--port", "0", "--unixsocket", self._path, "--save", "", "--dir", str(folder)],
            stdout=subprocess.DEVNULL)

    def connect(self) -> socket.socket:
        """A new connection, as soon as it takes one."""
        end = time.monotonic() + SECONDS
        while True:
            it = socket.socket(socket.AF_UNIX)
            it.settimeout(SECONDS)
            try:
                it.connect(self._path)
                return it
            except OSError:
                it.close()
                if time.monotonic() > end:
                    raise
                time.sleep(0.01)


@pytest.fixture(name="real", scope="module")
def real_server(tmp_path_factory: pytest.TempPathFactory) -> Iterator[RealServer]:
    server = RealServer(tmp_path_factory.mktemp("redis"))
    yield server
    server.process.kill()
    server.process.wait()


class Client:
    """Asks over a connection, and reads the replies byte for byte."""

    def __init__(self, connection: Any) -> None:
        self.connection = connection
        self._data = b""

    def ask(self, command: Words) -> bytes:
        """The reply to a command."""
        self.connection.sendall(packed(command, bytes))
        return comparable(self._reply())

    def _reply(self) -> bytes:
        line = self._taken(self._until(b"\r\n"))
        count = int(line[1:]) if line[:1] in b"$*" else -1
        if line[:1] == b"*":
            return line + b"".join(self._reply() for _ in range(count))
        return line if count < 0 else line + self._taken(count + 2)

    def _until(self, end: bytes) -> int:
        """How many bytes there are up to this end."""
        while end not in self._data:
            self._data += self.connection.recv(65_536)
        return self._data.index(end) + len(end)

    def _taken(self, count: int) -> bytes:
        while len(self._data) < count:
            self._data += self.connection.recv(65_536)
        taken, self._data = self._data[:count], self._data[count:]
        return taken


def comparable(reply: bytes) -> bytes:
    """Without the nodes of the server's own tree, and the line of a script."""
    reply = re.sub(rb"(radix-tree-\w+\r\n):\d+", rb"\1", reply)
    return re.sub(rb"on @user_script:.*\r\n", b"on @user_script:\r\n", reply)


@given(commands=st.lists(st.tuples(st.integers(0, 1), some), max_size=40))
def test_replies_are_those_of_a_real_server(real: RealServer, commands: List[Tuple[int, Words]]) -> None:
    model = ModelServer()
    ours = [Client(model.connect()) for _ in range(2)]
    theirs = [Client(real.connect()) for _ in range(2)]
    theirs[0].ask((b"FLUSHALL",))
    for at, (number, command) in enumerate(commands):
        wanted = theirs[number].ask(command)
        assert ours[number].ask(command) == wanted, f"command {at}: {command!r}"
    for client in theirs:
        client.connection.close()


@given(st.lists(some, min_size=1, max_size=3))
def test_what_is_sent_is_read(commands: List[Words]) -> None:
    sent = b"".join(packed(it, bytes) for it in commands)
    assert commands_in(sent) == ([packed_words(it) for it in commands], b"")


def packed_words(command: Words) -> Words:
    """The first word of a command is split at spaces, as `packed` does it."""
    return (*command[0].split(b" "), *command[1:])
