"""What may go wrong at a command, and the socket over which it shows."""

import enum
import socket
from typing import TYPE_CHECKING, Any, Deque, List, NamedTuple, Tuple, Union
from collections import deque

if TYPE_CHECKING:
    from .model_server import ModelServer, Session


class Kind(enum.Enum):
    """What goes wrong. In each of them commands of the same call come before and behind."""

    LOST_BEFORE = "the line is lost before the command arrives"
    LOST_BEHIND = "the line is lost behind the command, in the middle of its reply"
    DEAF = "all commands are done, and the line is lost in the middle of the reply"
    LATE = "the reply doesn't come in time; it comes later"
    STOPPED_SENDING = "the program is interrupted before it sends the command"
    STOPPED_READING = "the program is interrupted in the middle of the reply"
    RESTARTED_BEFORE = "the server starts anew before the command, and has lost its last writes"
    RESTARTED_BEHIND = "the same behind the command"
    FAILED_BACK = "another server's data replace the server's before the command, and it goes on as the primary"
    LOADING = "it is loading such data, and says so"
    FLUSHED = "all keys are deleted before the command"
    DELETED = "a key is deleted before the command"


class Fault(NamedTuple):
    """A fault at the command that comes behind `at` others."""

    kind: Kind
    at: int
    lost: int = 0
    key: bytes = b""


class ModelSocket:
    """The socket of a client of a model. Its replies lie in `_came`, with the errors that reading meets."""

    def __init__(self, server: "ModelServer", session: "Session") -> None:
        self._server = server
        self._session = session
        self._sent = b""
        self._came: Deque[Union[bytes, BaseException]] = deque()
        self._is_open, self._is_deaf = True, False

    def sendall(self, data: bytes) -> None:
        """Each command that arrives is done at once."""
        if not self._is_open:
            raise BrokenPipeError("the line is lost")
        self._sent += data
        commands, self._sent = commands_in(self._sent)
        for words in commands:
            if self._is_open:
                self._arrive(words)

    def _arrive(self, words: Tuple[bytes, ...]) -> None:
        fault = self._server.next_fault()
        if fault is None:
            self._give(self._server.answer(self._session, words))
        elif fault.kind in (Kind.RESTARTED_BEFORE, Kind.FAILED_BACK, Kind.LOADING, Kind.FLUSHED, Kind.DELETED):
            self._change_server(fault)
            if self._is_open:
                self._give(self._server.answer(self._session, words))
        elif fault.kind is Kind.LOST_BEFORE:
            self.end()
        elif fault.kind is Kind.STOPPED_SENDING:
            raise KeyboardInterrupt
        else:
            self._break_reply(fault, self._server.answer(self._session, words))

    def _change_server(self, fault: Fault) -> None:
        server = self._server
        if fault.kind is Kind.RESTARTED_BEFORE:
            server.restart(fault.lost)
        elif fault.kind is Kind.FLUSHED:
            server.run(b"FLUSHALL")
        elif fault.kind is Kind.DELETED:
            server.run(b"DEL", fault.key)
        else:
            server.fail_back(fault.lost)
            server.loading = 3 if fault.kind is Kind.LOADING else 0

    def _break_reply(self, fault: Fault, reply: bytes) -> None:
        half = len(reply) // 2
        self._give(reply[:half])
        if fault.kind is Kind.LOST_BEHIND:
            self.end()
        elif fault.kind is Kind.RESTARTED_BEHIND:
            self._server.restart(fault.lost)
        elif fault.kind is Kind.DEAF:
            self._is_deaf = True
        else:
            self._came.append(KeyboardInterrupt() if fault.kind is Kind.STOPPED_READING else socket.timeout("late"))
            self._give(reply[half:])

    def _give(self, reply: bytes) -> None:
        if not self._is_deaf and reply:
            self._came.append(reply)

    def recv(self, size: int) -> bytes:
        """The next bytes of the replies; none where the line has ended."""
        if not self._came:
            if self._is_open and not self._is_deaf:
                raise socket.timeout("no reply")
            return b""
        came = self._came.popleft()
        if isinstance(came, BaseException):
            raise came
        if len(came) > size:
            self._came.appendleft(came[size:])
        return came[:size]

    def end(self) -> None:
        """The line is lost. What came before can still be read."""
        self._is_open = False

    def close(self) -> None:
        """The client ends it."""
        self._is_open = False

    def shutdown(self, _: int) -> None:
        """Nothing comes any more."""
        self._came.clear()

    def settimeout(self, _: Any) -> None:
        """A model answers at once."""


def commands_in(data: bytes) -> Tuple[List[Tuple[bytes, ...]], bytes]:
    """The commands in what was sent, and the bytes behind them."""
    commands = []
    while data:
        count, at = _number(data, 0)
        words = []
        for _ in range(count):
            size, at = _number(data, at)
            words.append(data[at:at + size])
            at += size + 2
        commands.append(tuple(words))
        data = data[at:]
    return commands, data


def _number(data: bytes, at: int) -> Tuple[int, int]:
    """The number of a line such as $7, and where the next line begins."""
    end = data.index(b"\r\n", at)
    return int(data[at + 1:end]), end + 2
