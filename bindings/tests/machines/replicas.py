"""Two servers, of which one follows the other, behind an address that leads to the one that is used: failovers, and
failbacks, after which a server has lost what it acknowledged, though it never ended."""

from __future__ import annotations

import time
from typing import Any

import redis  # type: ignore[import]
from proxy import Proxy
from server import SECONDS, Server


def client_of(server: Server) -> redis.Redis:
    return redis.Redis(port=server.port, socket_timeout=SECONDS)


def follow(replica: Server, primary: Server) -> None:
    """Makes one server a replica of another, and waits until it has what that has. What it had itself is lost."""
    client = client_of(replica)
    client_of(primary).config_set("repl-diskless-sync-delay", 0)
    client.replicaof("127.0.0.1", primary.port)
    end = time.monotonic() + SECONDS
    while not is_synced(client.info("replication")):
        if time.monotonic() > end:
            raise RuntimeError(f"no replica: {replica.said()}")
        time.sleep(0.01)


def is_synced(told: dict[str, Any]) -> bool:
    """Whether a replica has been given all, as it tells of itself."""
    return bool(told["role"] == "slave" and told["master_link_status"] == "up" and not told["master_sync_in_progress"])


def lead(server: Server) -> None:
    """Makes a replica a primary. It lacks what its primary is given from here on."""
    client_of(server).replicaof("NO", "ONE")


class Replicated:
    """A server that is used, behind `proxy`, and its replica."""

    def __init__(self, proxy: Proxy, used: Server, other: Server) -> None:
        self.proxy, self.used, self.other = proxy, used, other
        follow(other, used)

    def fail_over(self, seconds: float = 0.0, kills: bool = False) -> None:
        """The replica is promoted, and so many seconds later the address leads to it. The old primary follows it, so
        what was written in between is lost."""
        old, new = self.used, self.other
        lead(new)
        time.sleep(seconds)
        if kills:
            old.kill()
        self.used, self.other = new, old
        self.proxy.turn(new.port)
        self.proxy.cut()
        if kills:
            old.start()
        follow(old, new)

    def fail_back(self, seconds: float = 0.0, cuts: bool = False) -> None:
        """The replica is promoted, and so many seconds later the old primary follows it, and then is primary again, at
        the same address: over connections that live on, unless it `cuts` them."""
        lead(self.other)
        time.sleep(seconds)
        follow(self.used, self.other)
        lead(self.used)
        if cuts:
            self.proxy.cut()
        follow(self.other, self.used)
