"""Messages that go past the server, from the memory of one process to that of another on this machine."""

from __future__ import annotations

import collections
import contextlib
import json
import os
import pathlib
import random
import socket
import time
from typing import Dict, Tuple

Letter = Dict[str, str]


class Letters:
    """The letters to a worker, which wait a while in its memory, and its way to those of others."""

    def __init__(self, folder: pathlib.Path, worker: int) -> None:
        self._folder = folder
        self._waiting = collections.deque[Tuple[float, Letter]]()
        self._socket = socket.socket(socket.AF_UNIX, socket.SOCK_DGRAM)
        self._socket.setblocking(False)
        path = self._path(worker)
        with contextlib.suppress(FileNotFoundError):
            os.remove(path)
        self._socket.bind(path)

    def _path(self, worker: int) -> str:
        return str(self._folder / f"letters{worker}")

    def send(self, worker: int, letter: Letter) -> None:
        with contextlib.suppress(OSError):  # nobody is there
            self._socket.sendto(json.dumps(letter).encode(), self._path(worker))

    def next(self) -> Letter | None:
        """The first that has waited long enough; or None."""
        with contextlib.suppress(BlockingIOError):
            while True:
                letter = json.loads(self._socket.recv(4096))
                self._waiting.append((time.monotonic() + random.choice((0, 0.3, 3)), letter))
        if self._waiting and self._waiting[0][0] < time.monotonic():
            return self._waiting.popleft()[1]
        return None
