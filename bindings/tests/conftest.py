"""What the tests of the packages share: where the package is, and a Redis server for each test that asks for one."""

from __future__ import annotations

import os
import pathlib
import sys
from typing import TYPE_CHECKING, Callable, Iterator

import pytest

HERE = pathlib.Path(__file__).resolve().parent
sys.path[:0] = [str(HERE.parent / "python"), *(str(HERE / folder) for folder in ("", "machines", "orders"))]
# It would hide an output that is never flushed.
os.environ.pop("PYTHONUNBUFFERED", None)

if TYPE_CHECKING:
    from server import Server


def pytest_configure(config: pytest.Config) -> None:
    """With `--unproved` logs are read by the `wcptrace` that is built without proof."""
    if not config.getoption("proved"):
        out = HERE.parents[1] / "crates" / "wcptrace" / "out"
        os.environ.setdefault("WCPTRACE", str(out / "wcptrace.unproved"))


@pytest.fixture
def server() -> Iterator[Server]:
    """A Redis server that loses nothing where it is killed."""
    from server import Server  # the other tests need no Redis
    with Server() as it:
        yield it


@pytest.fixture
def forgetful_server() -> Iterator[Server]:
    """A Redis server that writes nothing to the disk."""
    from server import Server
    with Server(keeps=False) as it:
        yield it


@pytest.fixture
def switch_every() -> Iterator[Callable[[float], None]]:
    """Sets the seconds after which another thread has its turn, for the time of a test."""
    before = sys.getswitchinterval()
    yield sys.setswitchinterval
    sys.setswitchinterval(before)
