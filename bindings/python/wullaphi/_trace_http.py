"""The server to which exporters send OTLP/JSON."""

import gzip
import http.server
import io
import socket
import socketserver
import zlib
from typing import Any, ContextManager, List, Protocol, Tuple

PATH = "/v1/traces"
MOST = 64 * 1024 * 1024
SAY_JSON = ("protobuf isn't read: set OTEL_EXPORTER_OTLP_PROTOCOL=http/json, or `encoding: json` of a collector's "
            "exporter otlphttp")


class Refusal(Exception):
    """A request isn't taken."""

    def __init__(self, status: int, why: str) -> None:
        super().__init__(why)
        self.status = status


class Taker(Protocol):
    """What takes the requests."""

    def answering(self) -> ContextManager[None]:
        """While a request is read and answered."""

    def take(self, body: bytes) -> None:
        """Takes the body of a request, or raises a refusal."""

    def refuse(self) -> None:
        """Counts a request that isn't taken."""


class Handler(http.server.BaseHTTPRequestHandler):
    """One connection."""

    protocol_version = "HTTP/1.1"
    timeout = 60
    server: "Server"

    def do_POST(self) -> None:
        """A request with spans. Its answer is 200 only once they are taken."""
        with self.server.taker.answering():
            try:
                if self.path.partition("?")[0] != PATH:
                    raise Refusal(404, f"spans are taken at {PATH}")
                self.server.taker.take(self._body())
                self._answer(200, "application/json", "{}")
            except Refusal as refusal:
                self.server.taker.refuse()
                self.close_connection = True
                self._answer(refusal.status, "text/plain; charset=utf-8", f"{refusal}\n")

    def _answer(self, status: int, kind: str, text: str) -> None:
        body = text.encode("utf-8", "replace")
        self.send_response(status)
        self.send_header("Content-Type", kind)
        self.send_header("Content-Length", str(len(body)))
        if self.close_connection:
            self.send_header("Connection", "close")
        self.end_headers()
        self.wfile.write(body)

    def _body(self) -> bytes:
        """The JSON of the request."""
        kind = self.headers.get_content_type()
        if kind != "application/json":
            raise Refusal(415, SAY_JSON if "protobuf" in kind else f"{kind} isn't read, but application/json")
        encoding = self.headers.get("Content-Encoding", "identity").strip().lower()
        if encoding not in ("identity", "gzip"):
            raise Refusal(415, f"Content-Encoding {encoding} isn't read, but gzip")
        is_chunked = self.headers.get("Transfer-Encoding", "").strip().lower() == "chunked"
        sent = self._chunks() if is_chunked else self._whole(self.headers.get("Content-Length", ""))
        return sent if encoding == "identity" else _unzipped(sent)

    def _whole(self, length: str) -> bytes:
        if not length.isascii() or not length.isdigit():
            raise Refusal(411, "the request has no Content-Length")
        if len(length) > 9 or int(length) > MOST:
            raise Refusal(413, f"the request has more than {MOST:,} bytes")
        return self._read(int(length))

    def _chunks(self) -> bytes:
        """A body in chunks, each behind its size in hexadecimal digits; one of size 0 ends it, and lines behind it."""
        chunks: List[bytes] = []
        while True:
            try:
                size = int(self.rfile.readline(100).partition(b";")[0], 16)
            except ValueError:
                raise Refusal(400, "a chunk has no size") from None
            if not size:
                break
            if size < 0 or size + sum(map(len, chunks)) > MOST:
                raise Refusal(413, f"the request has more than {MOST:,} bytes")
            chunks.append(self._read(size))
            self.rfile.readline(3)
        while self.rfile.readline(1000).strip():
            pass
        return b"".join(chunks)

    def _read(self, size: int) -> bytes:
        found = self.rfile.read(size)
        if len(found) < size:
            raise Refusal(400, "the request ends too early")
        return found

    def log_message(self, *_: Any) -> None:
        """Nothing is said of a request."""


def _unzipped(sent: bytes) -> bytes:
    try:
        with gzip.GzipFile(fileobj=io.BytesIO(sent)) as file:
            body = file.read(MOST + 1)
    except (OSError, EOFError, zlib.error):
        raise Refusal(400, "the request isn't gzip, or ends too early") from None
    if len(body) > MOST:
        raise Refusal(413, f"the request has more than {MOST:,} bytes")
    return body


class Server(socketserver.ThreadingTCPServer):
    """The server: a thread for each connection."""

    allow_reuse_address = True
    daemon_threads = True
    request_queue_size = 128

    def __init__(self, address: Tuple[str, int], taker: Taker) -> None:
        self.address_family = socket.AF_INET6 if ":" in address[0] else socket.AF_INET
        self.taker = taker
        super().__init__(address, Handler)

    @property
    def url(self) -> str:
        """Where spans are taken."""
        host, port = self.socket.getsockname()[:2]
        return f"http://[{host}]:{port}{PATH}" if ":" in host else f"http://{host}:{port}{PATH}"

    def handle_error(self, request: Any, client_address: Any) -> None:
        """A client that went away is no fault of the others."""
