"""Takes spans that exporters send: OTLP/JSON over HTTP."""

import contextlib
import hashlib
import io
import json
import signal
import threading
import time
from typing import Any, Callable, Iterator, Optional, Sequence, Set, Tuple

from ._trace_files import parsed, spans_of
from ._trace_http import Refusal, Server
from ._trace_json import Wrong
from ._trace_spans import Fault, Naming, Span, Spans


class Collecting:
    """Spans, as requests bring them."""

    def __init__(self, address: Tuple[str, int], naming: Naming, until_quiet: Optional[float], keep: Optional[str],
                 say: Callable[[str], None]) -> None:
        self._address, self._naming, self._quiet, self._say = address, naming, until_quiet, say
        self._keep_path = keep
        self._kept: Optional[io.FileIO] = None
        self._spans = Spans()
        self._bodies: Set[bytes] = set()
        self._lock = threading.Lock()
        self._is_over = threading.Event()
        self._last: Optional[float] = None
        self._answering = 0
        self.requests = self.faulty = 0

    def run(self) -> Spans:
        """Takes requests until the end that was asked for, and gives their spans."""
        with contextlib.ExitStack() as stack:
            if self._keep_path is not None:
                self._kept = stack.enter_context(open(self._keep_path, "ab", buffering=0))
            server = stack.enter_context(self._server())
            for number in signal.SIGINT, signal.SIGTERM:
                before = signal.signal(number, lambda *_: self._is_over.set())
                stack.callback(signal.signal, number, before)
            self._serve(server)
        return self._spans

    def _serve(self, server: Server) -> None:
        """Serves until the end, and then until who was told that its spans are taken has the answer."""
        threading.Thread(target=server.serve_forever, kwargs={"poll_interval": 0.05}, daemon=True).start()
        self._say(f"listens at {server.url}")
        while not self._is_over.wait(0.05) and not self._is_quiet():
            pass
        server.shutdown()
        with self._lock:
            self._is_over.set()
        until = time.monotonic() + 1
        while self._answering and time.monotonic() < until:
            time.sleep(0.01)
        self._say(f"{self.requests} requests, {self.faulty} of them faulty")

    def _server(self) -> Server:
        try:
            return Server(self._address, self)
        except OSError as error:
            raise Fault(f"can't listen at {self._address[0]}:{self._address[1]}: {error.strerror}") from None

    def _is_quiet(self) -> bool:
        with self._lock:
            return (self._quiet is not None and self._last is not None and not self._answering
                    and time.monotonic() - self._last >= self._quiet)

    @contextlib.contextmanager
    def answering(self) -> Iterator[None]:
        """While a request is read and answered."""
        with self._lock:
            self._answering += 1
        try:
            yield
        finally:
            with self._lock:
                self._answering -= 1
                self._last = time.monotonic()

    def refuse(self) -> None:
        """Counts a request that isn't taken."""
        with self._lock:
            self.requests += 1
            self.faulty += 1

    def take(self, body: bytes) -> None:
        """Takes a request whole, or refuses it whole. One that comes again, as its answer was lost, is taken once."""
        mark = hashlib.sha256(body).digest()
        try:
            document = parsed(body)
            batch = list(spans_of(document, "otlp", self._naming))
        except json.JSONDecodeError as error:
            raise Refusal(400, f"no JSON at line {error.lineno} column {error.colno}: {error.msg}") from None
        except Wrong as wrong:
            raise Refusal(400, str(wrong)) from None
        except (UnicodeDecodeError, RecursionError):
            raise Refusal(400, "no UTF-8, or nested too deep") from None
        with self._lock:
            if self._is_over.is_set():
                raise Refusal(503, "the collection is over")
            if mark not in self._bodies:
                self._add(batch, document)
                self._bodies.add(mark)
            self.requests += 1

    def _add(self, batch: Sequence[Span], document: Any) -> None:
        """Takes all spans of a request, once they are kept."""
        try:
            self._spans.check(batch)
        except Wrong as wrong:
            raise Refusal(400, str(wrong)) from None
        if self._kept is not None:
            self._keep(self._kept, json.dumps(document, separators=(",", ":")).encode() + b"\n")
        for span in batch:
            self._spans.add(span)

    def _keep(self, file: io.FileIO, line: bytes) -> None:
        """Appends a line. Where the disk takes a part of it, that is taken back."""
        before = file.seek(0, io.SEEK_END)
        try:
            while line:
                line = line[file.write(line):]
        except OSError as error:
            file.truncate(before)
            raise Refusal(503, f"{self._keep_path}: {error.strerror}") from None
