"""A way to a server that can be cut, held up and turned to another server: an address that stays, whatever is behind
it."""

from __future__ import annotations

import contextlib
import socket
import threading
from typing import Iterator

# What takes longer to connect isn't there.
SECONDS = 5


class Proxy:
    """Each connection to `url` leads to the port that it was turned to last."""

    def __init__(self, port: int) -> None:
        self._target = port
        self._pairs: list[tuple[socket.socket, socket.socket]] = []
        self._lock = threading.Lock()
        self._is_free = threading.Event()
        self._is_free.set()
        self._listening = socket.create_server(("127.0.0.1", 0), backlog=100)
        self.url = f"redis://127.0.0.1:{self._listening.getsockname()[1]}"
        threading.Thread(target=self._accept, daemon=True).start()

    def _accept(self) -> None:
        while True:
            try:
                near, _ = self._listening.accept()
            except OSError:
                return
            try:
                far = socket.create_connection(("127.0.0.1", self._target), timeout=SECONDS)
            except OSError:
                near.close()
                continue
            far.settimeout(None)
            with self._lock:
                self._pairs.append((near, far))
            for source, sink in ((near, far), (far, near)):
                source.setsockopt(socket.IPPROTO_TCP, socket.TCP_NODELAY, 1)
                threading.Thread(target=self._carry, args=(source, sink), daemon=True).start()

    def _carry(self, source: socket.socket, sink: socket.socket) -> None:
        with contextlib.suppress(OSError):
            while data := source.recv(65536):
                self._is_free.wait()
                sink.sendall(data)
        end(source)
        end(sink)

    def turn(self, port: int) -> None:
        """Later connections lead to this port; those that there are stay."""
        self._target = port

    def cut(self) -> None:
        """Ends all connections."""
        with self._lock:
            pairs, self._pairs = self._pairs, []
        for pair in pairs:
            for connection in pair:
                end(connection)

    @contextlib.contextmanager
    def held_up(self) -> Iterator[None]:
        """Nothing goes through before the end of the block."""
        self._is_free.clear()
        try:
            yield
        finally:
            self._is_free.set()

    def __enter__(self) -> Proxy:
        return self

    def __exit__(self, *_: object) -> None:
        self._listening.close()
        self.cut()


def end(connection: socket.socket) -> None:
    """Ends a connection on both sides."""
    with contextlib.suppress(OSError):
        connection.shutdown(socket.SHUT_RDWR)
