"""A model of a Redis server in memory. It speaks the protocol of Redis over sockets that are none, so that all of the
package runs above it. `faults` says what may go wrong at which command."""

import itertools
import weakref
from typing import Any, Callable, Dict, FrozenSet, List, NamedTuple, Optional, Set, Tuple

import redis  # type: ignore[import]
from .model_faults import Fault, ModelSocket
from .model_commands import COMMANDS, Command
from .model_scripts import run_script
from .model_values import OK, Data, NoArray, Refusal, Status, Value, encoded

_numbers = itertools.count()
_by_host: "weakref.WeakValueDictionary[str, ModelServer]" = weakref.WeakValueDictionary()


class Moment(NamedTuple):
    """The data behind a write, and what a test keeps beside them."""

    values: Dict[bytes, Value]
    beside: Any


class Session:
    """What the server knows of a connection."""

    def __init__(self) -> None:
        self.queue: Optional[List[Tuple[bytes, ...]]] = None
        self.is_spoilt = self.is_dirty = False
        self.watched: Set[bytes] = set()

    def end_transaction(self) -> None:
        """Neither commands nor watched keys are left."""
        self.queue, self.is_spoilt, self.is_dirty, self.watched = None, False, False, set()


class ModelServer:
    """A server. `beside` is what a test keeps beside the data: it is lost with them. `witness` is called with the keys
    that a write has changed, before anything of it can be lost."""

    def __init__(self, beside: Any = None) -> None:
        self.number = next(_numbers)
        self.url = f"redis://model-{self.number}"
        _by_host[f"model-{self.number}"] = self
        self.beside = beside
        self.witness: Callable[[FrozenSet[bytes]], None] = lambda _: None
        self.is_replica = self.is_full = False
        self.loading = 0
        self.fault: Optional[Fault] = None
        self._runs = 1
        self._histories = 1
        self._sockets: List[ModelSocket] = []
        self._sessions: "weakref.WeakSet[Session]" = weakref.WeakSet()
        self._touched: Set[bytes] = set()
        self.data = Data(self._touch)
        self.journal = [Moment({}, beside)]

    def connect(self) -> ModelSocket:
        """A new connection."""
        session = Session()
        self._sessions.add(session)
        self._sockets.append(ModelSocket(self, session))
        return self._sockets[-1]

    def next_fault(self) -> Optional[Fault]:
        """The fault that the next command meets."""
        if self.fault is None:
            return None
        if self.fault.at > 0:
            self.fault = self.fault._replace(at=self.fault.at - 1)
            return None
        fault, self.fault = self.fault, None
        return fault

    def _touch(self, key: bytes) -> None:
        self._touched.add(key)
        for session in self._sessions:
            session.is_dirty = session.is_dirty or key in session.watched

    def answer(self, session: Session, words: Tuple[bytes, ...]) -> bytes:
        """Does a command. The answer is the reply on the wire."""
        try:
            reply = self._answer(session, words[0].decode().upper(), words)
        except Refusal as refusal:
            reply = refusal
        self.keep()
        return encoded(reply)

    def keep(self) -> None:
        """What was written since is a write of its own."""
        if self._touched:
            touched, self._touched = frozenset(self._touched), set()
            self.witness(touched)
            self.journal.append(Moment(dict(self.data.values), self.beside))

    def _answer(self, session: Session, name: str, words: Tuple[bytes, ...]) -> Any:
        if self.loading > 0 and name != "INFO":
            self.loading -= 1
            session.is_spoilt = True
            raise Refusal("LOADING Redis is loading the dataset in memory")
        if name in ("MULTI", "EXEC", "DISCARD", "WATCH", "UNWATCH") and (
                session.queue is None or name != "UNWATCH"):
            return getattr(self, f"_{name.lower()}")(session, words)
        if session.queue is None:
            return self._do(name, words)
        try:
            self._test(name, words)
        except Refusal:
            session.is_spoilt = True
            raise
        session.queue.append(words)
        return Status(b"QUEUED")

    def _multi(self, session: Session, _: Tuple[bytes, ...]) -> Any:
        if session.queue is not None:
            raise Refusal("ERR MULTI calls can not be nested")
        session.queue = []
        return OK

    def _exec(self, session: Session, _: Tuple[bytes, ...]) -> Any:
        queue, is_spoilt, is_dirty = session.queue, session.is_spoilt, session.is_dirty
        if queue is None:
            raise Refusal("ERR EXEC without MULTI")
        session.end_transaction()
        if is_spoilt:
            raise Refusal("EXECABORT Transaction discarded because of previous errors.")
        if is_dirty:
            return NoArray
        return [self._tried(words) for words in queue]

    def _discard(self, session: Session, _: Tuple[bytes, ...]) -> Any:
        if session.queue is None:
            raise Refusal("ERR DISCARD without MULTI")
        session.end_transaction()
        return OK

    def _watch(self, session: Session, words: Tuple[bytes, ...]) -> Any:
        if session.queue is not None:
            raise Refusal("ERR WATCH inside MULTI is not allowed")
        session.watched.update(words[1:])
        return OK

    def _unwatch(self, session: Session, _: Tuple[bytes, ...]) -> Any:
        session.watched, session.is_dirty = set(), False
        return OK

    def _tried(self, words: Tuple[bytes, ...]) -> Any:
        try:
            return self._do(words[0].decode().upper(), words)
        except Refusal as refusal:
            return refusal

    def _test(self, name: str, words: Tuple[bytes, ...]) -> None:
        """Refuses a command that is refused before anything is done."""
        own = {"INFO": -1, "EVAL": -3, "CONFIG": -3, "UNWATCH": 1, "FLUSHALL": -1}
        known = COMMANDS.get(name) or (Command(own[name], name == "FLUSHALL", print) if name in own else None)
        if known is None:
            shown = "".join(f"'{it.decode()}' " for it in words[1:])
            raise Refusal(f"ERR unknown command '{words[0].decode()}', with args beginning with: {shown}")
        if len(words) != known.size if known.size > 0 else len(words) < -known.size:
            raise Refusal(f"ERR wrong number of arguments for '{name.lower()}' command")
        if known.writes and self.is_replica:
            raise Refusal("READONLY You can't write against a read only replica.")
        if known.writes and self.is_full and name not in ("DEL", "HDEL", "XDEL", "XTRIM", "FLUSHALL"):
            raise Refusal("OOM command not allowed when used memory > 'maxmemory'.")

    def _do(self, name: str, words: Tuple[bytes, ...]) -> Any:
        self._test(name, words)
        if name == "INFO":
            return self._info(words[1:])
        if name == "CONFIG":
            return [words[2], {b"appendonly": b"yes"}.get(words[2], b"no")]
        if name == "EVAL":
            count = int(words[2])
            return run_script(words[1], words[3:3 + count], words[3 + count:], self._command)
        if name == "UNWATCH":
            return OK
        if name == "FLUSHALL":
            self._replace({})
            return OK
        return COMMANDS[name].call(self.data, *words[1:])

    def _command(self, words: Tuple[bytes, ...]) -> Any:
        return self._do(words[0].decode().upper(), words)

    def _info(self, sections: Tuple[bytes, ...]) -> Any:
        run, history = (f"{self.number:020x}{number:020x}" for number in (self._runs, self._histories))
        told = {b"server": f"# Server\r\nredis_version:7.0.15\r\nrun_id:{run}\r\n",
                b"replication": f"# Replication\r\nrole:{'slave' if self.is_replica else 'master'}\r\n"
                                f"master_replid:{history}\r\n",
                b"memory": "# Memory\r\nmaxmemory_policy:noeviction\r\n"}
        return "".join(told[section] for section in sections).encode()

    def _replace(self, values: Dict[bytes, Value]) -> None:
        """These are the data from now on."""
        for key in {*self.data.values, *values}:
            self._touch(key)
        self.data.values = dict(values)

    def lose(self, count: int) -> None:
        """So many of the last writes are lost."""
        del self.journal[max(1, len(self.journal) - count):]
        self._replace(self.journal[-1].values)
        self.beside = self.journal[-1].beside
        self._touched = set()

    def restart(self, lost: int) -> None:
        """It is started anew, and has lost so many of its last writes."""
        for socket in self._sockets:
            socket.end()
        self._sockets = []
        self._runs += 1
        self.fail_back(lost)

    def fail_back(self, lost: int) -> None:
        """A replica took over, which lacked so many writes, and this server follows it and is the primary again."""
        self.lose(lost)
        self._histories += 1
        self.is_replica = False

    def run(self, *words: bytes) -> Any:
        """Does a command of somebody else's."""
        return self.answer(Session(), words)


def _connect(connection: Any) -> Any:
    server = _by_host.get(connection.host)
    return _connect_really(connection) if server is None else server.connect()


_connect_really = redis.connection.Connection._connect


def install() -> None:
    """From here on the package `redis` reaches models by their `url`, and other servers as before."""
    redis.connection.Connection._connect = _connect
