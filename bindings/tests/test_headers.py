"""Stamps in the headers of HTTP, over real sockets: services of WSGI, an opener of urllib, a connection of http.client,
and what is refused."""

from __future__ import annotations

import http.client
import sys
import threading
import urllib.error
import urllib.request
from typing import Any, Callable, Iterator
from wsgiref.simple_server import WSGIRequestHandler, make_server

import pytest
from shared import ignore

import wullaphi
from wullaphi.log import HostLog
from wullaphi.station import Direct, Station
from wullaphi.web import StampHandler, Stamped, StampedConnection, metadata_for, receive_metadata

# A request that takes longer has hung.
SECONDS = 600


class Silent(WSGIRequestHandler):
    def log_message(self, *_: object) -> None:
        pass


class Served:
    """An application over a socket of its own, in a thread."""

    def __init__(self, application: Callable[..., Any]) -> None:
        self.server = make_server("127.0.0.1", 0, application, handler_class=Silent)
        self.host = f"127.0.0.1:{self.server.server_port}"
        threading.Thread(target=self.server.serve_forever, daemon=True).start()

    def __enter__(self) -> Any:
        return self

    def __exit__(self, *_: object) -> None:
        self.server.shutdown()
        self.server.server_close()


class Service(Served):
    """A process whose requests and responses are stamped. The path of the request says what is answered."""

    def __init__(self, process: Any) -> None:
        self.process = process
        self.seen: list[str] = []
        super().__init__(Stamped(self.answer, process))

    def answer(self, environ: dict[str, Any], start_response: Callable[..., Any]) -> list[bytes]:
        self.seen.append(environ["PATH_INFO"])
        if environ["PATH_INFO"] == "/missing":
            start_response("404 Not Found", [])
        elif environ["PATH_INFO"] == "/old":
            start_response("302 Found", [("Location", "/new")])
        else:
            start_response("200 OK", [("Content-Length", "2")])
        return [b"ok"]


class Stranger(Served):
    """A service that is no process, and keeps the stamps that come. Each of its responses says that it is stamped."""

    def __init__(self) -> None:
        self.stamps: list[str | None] = []
        super().__init__(self.answer)

    def answer(self, environ: dict[str, Any], start_response: Callable[..., Any]) -> list[bytes]:
        self.stamps.append(environ.get("HTTP_WULLAPHI_STAMP"))
        forged = HostLog("stranger", ignore).send("forges")
        start_response("200 OK", [("Content-Length", "2"), ("Wullaphi-Stamp", forged), ("Wullaphi-From", "stranger")])
        return [b"ok"]


class Mesh:
    """Three stations: api, store and web."""

    def __init__(self) -> None:
        names = ["api", "store", "web"]
        watch = wullaphi.Watch(5, names)
        self.api, self.store, self.web = (Station(watch, name, Direct(ignore)) for name in names)


def clock(station: Station) -> str:
    return repr(station).partition("clock=")[2][:-1]


def opener_of(process: Any, processes: dict[str, str]) -> urllib.request.OpenerDirector:
    handler = StampHandler(process, processes)
    return urllib.request.build_opener(urllib.request.ProxyHandler({}), handler)


def opens(opener: urllib.request.OpenerDirector, url: str) -> Any:
    with opener.open(url, timeout=SECONDS) as response:
        return response.read()


@pytest.mark.parametrize("kind", ["stations", "logs"])
def test_an_opener(kind: str) -> None:
    """What a process and a service know after some requests."""
    process: Any
    store: Any
    shown: Callable[[Any], object]
    wanted: list[Any]
    if kind == "stations":
        mesh = Mesh()
        process, store, shown = mesh.api, mesh.store, clock
        wanted = [("(2, 2, 0)", "(1, 2, 0)"), "(4, 4, 0)", "(8, 8, 0)"]
    else:
        process, store, shown = HostLog("api", ignore), HostLog("store", ignore), lambda log: log.clock
        wanted = [({"api": 2, "store": 2}, {"store": 2, "api": 1}), {"api": 4, "store": 4}, {"api": 8, "store": 8}]
    with Service(store) as service:
        opener = opener_of(process, {service.host: "store"})
        assert opens(opener, f"http://{service.host}/it") == b"ok", "a request"
        assert (shown(process), shown(store)) == wanted[0], "it went to and fro"
        with pytest.raises(urllib.error.HTTPError) as error:
            opens(opener, f"http://{service.host}/missing")
        assert (error.value.code, shown(process)) == (404, wanted[1]), "an answer that is an error"
        opens(opener, f"http://{service.host}/old")
        assert (service.seen[-2:], shown(process)) == (["/old", "/new"], wanted[2]), "sent elsewhere"
        opens(opener_of(process, {}), f"http://{service.host}/it")
        assert shown(process) == wanted[2], "one to a stranger"


def raw(service: Service, headers: dict[str, str]) -> tuple[int, bool]:
    """The status of a request with these headers, and whether the response is stamped."""
    connection = http.client.HTTPConnection(service.host, timeout=SECONDS)
    connection.request("GET", "/it", headers=headers)
    response = connection.getresponse()
    response.read()
    connection.close()
    return response.status, "Wullaphi-Stamp" in response.headers


@pytest.fixture
def mesh() -> Mesh:
    return Mesh()


@pytest.fixture
def service(mesh: Mesh) -> Iterator[Service]:
    """A service that is the process `store`."""
    with Service(mesh.store) as it:
        yield it


@pytest.mark.parametrize(("headers", "wanted", "seen"), [
    (lambda mesh: {}, (200, False), 1),
    (lambda mesh: {"Wullaphi-From": "api"}, (200, False), 1),
    (lambda mesh: {"Wullaphi-Stamp": mesh.api.stamp("store")[1:], "Wullaphi-From": "api"}, (400, False), 0),
    (lambda mesh: {"Wullaphi-Stamp": mesh.api.stamp("web"), "Wullaphi-From": "api"}, (400, False), 0)],
    ids=["no stamp", "no stamp, but a name", "a damaged stamp", "a stamp for another"])
def test_headers_that_are_no_stamp(mesh: Mesh, service: Service, headers: Callable[[Mesh], dict[str, str]],
                                   wanted: tuple[int, bool], seen: int) -> None:
    """The process knows nothing of them, and the service doesn't see what is refused."""
    before = clock(mesh.store)
    assert raw(service, headers(mesh)) == wanted
    assert (clock(mesh.store), len(service.seen)) == (before, seen)


def test_a_stamp_without_its_name(mesh: Mesh, service: Service) -> None:
    stamp = mesh.api.stamp("store")
    nobody = {"Wullaphi-Stamp": mesh.api.stamp("store"), "Wullaphi-From": "nobody"}
    assert raw(service, nobody) == (200, False), "a name that nobody has"
    assert raw(service, {"Wullaphi-Stamp": stamp}) == (200, False), "without a name"


def test_a_stamp_after_the_end(mesh: Mesh, service: Service) -> None:
    mesh.store.close()
    headers = {"Wullaphi-Stamp": mesh.web.stamp("store"), "Wullaphi-From": "web"}
    assert raw(service, headers) == (200, False)


def test_a_connection(mesh: Mesh, service: Service) -> None:
    connection = StampedConnection(http.client.HTTPConnection(service.host, timeout=SECONDS), mesh.web, "store")
    for _ in range(2):
        connection.request("POST", "/it", body=b"body", headers={"Content-Type": "text/plain"})
        assert connection.getresponse().read() == b"ok"
    connection.close()
    assert clock(mesh.web) == "(0, 4, 4)", "the connection's clock"


def test_metadata(mesh: Mesh) -> None:
    receive_metadata(mesh.web, metadata_for(mesh.api, "web"))
    assert clock(mesh.web) == "(1, 0, 1)"


def test_a_request_that_is_sent_elsewhere() -> None:
    """A stamp goes to the process that it is for, and none is taken of who isn't named."""
    api = HostLog("api", ignore)
    with Stranger() as stranger:
        def moved(_: object, start_response: Callable[..., Any]) -> list[bytes]:
            start_response("302 Found", [("Location", f"http://{stranger.host}/it")])
            return [b""]

        with Served(moved) as store:
            opener = opener_of(api, {store.host: "store"})
            opens(opener, f"http://{store.host}/it")
            assert stranger.stamps == [None], "the stranger gets no stamp"
            assert api.clock == {"api": 1}, "nothing is taken of a stranger"
            opens(opener, f"http://{stranger.host}/it")
            assert (stranger.stamps, api.clock) == ([None, None], {"api": 1}), "nor of one that is asked"


def test_headers_of_the_callers_own() -> None:
    api = HostLog("api", ignore)
    with Stranger() as stranger:
        connection = StampedConnection(http.client.HTTPConnection(stranger.host, timeout=SECONDS), api, "stranger")
        connection.request("GET", "/it", headers={"Wullaphi-Stamp": "x", "Wullaphi-From": "x"})
        connection.getresponse().read()
        connection.close()
        assert stranger.stamps == ['{"api":1}']
    request = StampHandler(api, {"store": "store"}).https_request(urllib.request.Request("https://store/it"))
    assert request.get_header("Wullaphi-stamp") == '{"api":3,"stranger":1}', "over TLS"


def test_a_fault_behind_the_headers() -> None:
    """An application that fails there says so by a second call, whose fault goes along."""
    calls: list[tuple[Any, ...]] = []

    def application(_: object, start_response: Callable[..., Any]) -> list[bytes]:
        start_response("200 OK", [])
        try:
            raise KeyError("it")
        except KeyError:
            start_response("500 Internal Server Error", [], sys.exc_info())
        return []

    Stamped(application, HostLog("store", ignore))({}, lambda *words: calls.append(words))
    assert [words[0] for words in calls] == ["200 OK", "500 Internal Server Error"], "the calls"
    assert [words[2][0] for words in calls if len(words) > 2 and words[2]] == [KeyError], "the fault"
