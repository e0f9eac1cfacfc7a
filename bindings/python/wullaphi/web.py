"""Stamps in the headers of HTTP, and in metadata such as that of gRPC.

What stamps is a `Station`, a `Resuming` one, or a `HostLog`. A service wraps its WSGI application, and a client opens
its requests with an opener, or a connection of `http.client`:

    application = Stamped(application, station)

    opener = urllib.request.build_opener(StampHandler(station, {"127.0.0.1:8001": "store"}))
    opener.open("http://127.0.0.1:8001/items")  # stamped for the process "store"

A request carries who sent it, so that the response can be stamped for this process. Requests of others, without a
stamp, pass as they are.

A service goes on without its watch: where the server of the watch is away, messages go without stamps, and a `Station`
is resumed as `Resuming` says. Give a `Resuming` to all that stamps, and observe by it too.
"""

import urllib.request
from typing import Any, Callable, Iterable, List, Mapping, MutableMapping, Optional, Protocol, Sequence, Tuple, Union

from ._refusals import Closed, Refused
from .log import HostLog
from .resuming import Resuming
from .station import Station

STAMP = "Wullaphi-Stamp"
SENDER = "Wullaphi-From"

# A name that is longer is nobody's.
LONGEST_NAME = 256

Headers = Mapping[str, str]


class Stamps(Protocol):
    """What stamps the messages of a process: a `Station`, a `Resuming` or a `HostLog`."""

    @property
    def name(self) -> Union[str, int]:
        """The name of the process."""

    def stamp(self, to: str) -> Optional[str]:
        """The process sends a message: this goes with it. None: it goes without."""

    def receive(self, header: str) -> Optional[bool]:
        """The process receives the message that came with this. False: the header is passed over."""


def headers_for(process: Stamps, to: str) -> MutableMapping[str, str]:
    """The headers of a message to this process.

    >>> from wullaphi.log import HostLog
    >>> headers_for(HostLog("api", [].append), "store")
    {'Wullaphi-Stamp': '{"api":1}', 'Wullaphi-From': 'api'}
    """
    stamp = process.stamp(to)
    return {} if stamp is None else {STAMP: stamp, SENDER: str(process.name)}


def receive_from(process: Stamps, headers: Headers) -> Optional[str]:
    """The process receives a message with these headers. Who sent it, where it is stamped.

    >>> from wullaphi.log import HostLog
    >>> api, store = HostLog("api", [].append), HostLog("store", [].append)
    >>> receive_from(store, headers_for(api, "store"))
    'api'
    >>> receive_from(store, {}) is None
    True
    """
    stamp = headers.get(STAMP)
    if stamp is None:
        return None
    return None if process.receive(stamp) is False else headers.get(SENDER)


def metadata_for(process: Stamps, to: str) -> List[Tuple[str, str]]:
    """The same as metadata, in which names have small letters, as gRPC wants them.

    >>> from wullaphi.log import HostLog
    >>> metadata_for(HostLog("api", [].append), "store")
    [('wullaphi-stamp', '{"api":1}'), ('wullaphi-from', 'api')]
    """
    return [(name.lower(), value) for name, value in headers_for(process, to).items()]


def receive_metadata(process: Stamps, metadata: Iterable[Tuple[str, str]]) -> Optional[str]:
    """The process receives a message with this metadata. Who sent it, where it is stamped.

    >>> from wullaphi.log import HostLog
    >>> api, store = HostLog("api", [].append), HostLog("store", [].append)
    >>> receive_metadata(store, metadata_for(api, "store"))
    'api'
    """
    told = dict(metadata)
    return receive_from(process, {name: told[name.lower()] for name in (STAMP, SENDER) if name.lower() in told})


class Stamped:
    """A WSGI application that takes the stamps of requests, and stamps its responses.

    The response is stamped when its headers are given; what the process does after that isn't known to the client. A
    request whose stamp is refused gets the status 400, and the application doesn't see it. Once the process is closed,
    all passes without stamps; so it does while the server of the watch is away, or the line of a log can't be written.
    With `needs_watch` a stamped request then gets the status 503.

    >>> from wullaphi.log import HostLog
    >>> api, store = HostLog("api", [].append), HostLog("store", [].append)
    >>> def application(environ, start_response):
    ...     start_response("200 OK", [])
    ...     return [b"items"]
    >>> environ = {"HTTP_WULLAPHI_STAMP": api.stamp("store"), "HTTP_WULLAPHI_FROM": "api"}
    >>> Stamped(application, store)(environ, print)
    200 OK [('Wullaphi-Stamp', '{"store":2,"api":1}'), ('Wullaphi-From', 'store')]
    [b'items']
    """

    def __init__(self, application: Callable[..., Iterable[bytes]], process: Stamps, needs_watch: bool = False) -> None:
        self._application = application
        self._process = _going_on(process)
        self._needs_watch = needs_watch

    def __call__(self, environ: Mapping[str, Any], start_response: Callable[..., Any]) -> Iterable[bytes]:
        told = {name: environ["HTTP_" + name.upper().replace("-", "_")] for name in (STAMP, SENDER)
                if "HTTP_" + name.upper().replace("-", "_") in environ}
        is_taken: Optional[bool] = None
        try:
            is_taken = self._process.receive(told[STAMP]) if STAMP in told else None
            is_away = isinstance(self._process, Resuming) and is_taken is False
        except Closed:
            is_taken, is_away = False, False
        except Refused as refusal:
            return _refuse(start_response, "400 Bad Request", f"The stamp is refused: {refusal}")
        except Exception:  # pylint: disable=broad-exception-caught
            if not isinstance(self._process, HostLog):
                raise
            is_away = True  # the clock of the log has the event, and its line is missing
        if is_away and self._needs_watch:
            return _refuse(start_response, "503 Service Unavailable", "The server of the watch is away.")

        sender = told.get(SENDER) if STAMP in told and is_taken is not False else None

        def start(status: str, headers: Sequence[Tuple[str, str]], *more: Any) -> Any:
            return start_response(status, [*headers, *self._answered(sender)], *more)

        return self._application(environ, start)

    def _answered(self, sender: Optional[str]) -> Iterable[Tuple[str, str]]:
        """The headers of a response to this process; none where it can't be stamped, as for a name that nobody has."""
        if sender is None or len(sender) > LONGEST_NAME:
            return ()
        try:
            return headers_for(self._process, sender).items()
        except Refused:
            return ()
        except Exception:  # pylint: disable=broad-exception-caught
            if not isinstance(self._process, HostLog):
                raise
            return ()


def _going_on(process: Stamps) -> Stamps:
    """The process, which goes on where the server of its watch is away."""
    if not isinstance(process, Station):
        return process
    return process.resuming if isinstance(process.resuming, Resuming) else Resuming(process)


def _refuse(start_response: Callable[..., Any], status: str, why: str) -> Iterable[bytes]:
    body = f"{why}\n".encode()
    headers = [("Content-Type", "text/plain; charset=utf-8"), ("Content-Length", str(len(body)))]
    start_response(status, headers)
    return [body]


class StampHandler(urllib.request.BaseHandler):
    """A handler of `urllib.request.build_opener` that stamps requests, and takes the stamps of responses.

    `processes` has for each host and port, as they stand in an address, the process that answers there. Requests to
    others pass as they are.

    >>> from wullaphi.log import HostLog
    >>> handler = StampHandler(HostLog("api", [].append), {"127.0.0.1:8001": "store"})
    >>> request = urllib.request.Request("http://127.0.0.1:8001/items")
    >>> handler.http_request(request).header_items()
    [('Wullaphi-stamp', '{"api":1}'), ('Wullaphi-from', 'api')]
    """

    def __init__(self, process: Stamps, processes: Mapping[str, str]) -> None:
        self._process = _going_on(process)
        self._processes = processes

    def http_request(self, request: urllib.request.Request) -> urllib.request.Request:
        """Stamps a request."""
        to = self._processes.get(request.host)
        if to is not None:
            for name, value in headers_for(self._process, to).items():
                request.add_unredirected_header(name, value)
        return request

    def http_response(self, request: urllib.request.Request, response: Any) -> Any:
        """Takes the stamp of a response."""
        if request.host in self._processes:
            receive_from(self._process, response.headers)
        return response

    https_request = http_request
    https_response = http_response


class StampedConnection:
    """A connection of `http.client` to the process `to`: its requests are stamped, and the stamps of the responses are
    taken. All else is the connection's own.

    >>> import http.client
    >>> from wullaphi.log import HostLog
    >>> connection = StampedConnection(http.client.HTTPConnection("127.0.0.1", 8001), HostLog("api", print), "store")
    >>> connection.port
    8001
    """

    def __init__(self, connection: Any, process: Stamps, to: str) -> None:
        self._connection = connection
        self._process = _going_on(process)
        self._to = to

    def request(self, method: str, url: str, body: Any = None, headers: Headers = {}, **words: Any) -> None:
        """Sends a request."""
        self._connection.request(method, url, body, {**headers, **headers_for(self._process, self._to)}, **words)

    def getresponse(self) -> Any:
        """The response."""
        response = self._connection.getresponse()
        receive_from(self._process, response.headers)
        return response

    def __getattr__(self, name: str) -> Any:
        return getattr(self._connection, name)
