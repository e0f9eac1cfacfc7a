"""The signs of life of a process."""

import threading
from typing import Any, Optional

from ._line import Keys, package


class Beat:
    """Shows that the process is alive, by a number that rises, while no newer station of the process has come."""

    def __init__(self, client: Any, keys: Keys, process: int, seconds: float) -> None:
        self._client, self._seconds = client, seconds
        self._owner, self._key = keys.owner(process), keys.beat(process)
        self._token = b""
        self._has_ended = threading.Event()
        self._thread: Optional[threading.Thread] = None

    def begin(self, token: bytes) -> None:
        """Begins for the station with this token, unless it has begun; a process that was forked begins anew."""
        self._token = token
        if self._thread is None or self._has_ended.is_set() or not self._thread.is_alive():
            self._has_ended = threading.Event()
            self._thread = threading.Thread(target=self._run, args=(self._has_ended,), name="wullaphi beat",
                                            daemon=True)
            self._thread.start()

    def _run(self, has_ended: threading.Event) -> None:
        while not has_ended.is_set():
            try:
                if self._client.get(self._owner) in (None, self._token):
                    self._client.incr(self._key)
            except package().RedisError:
                pass  # the next one may come through
            has_ended.wait(self._seconds)

    def end(self) -> None:
        """Ends at its next turn."""
        if self._thread is not None and self._thread.is_alive():
            self._has_ended.set()
