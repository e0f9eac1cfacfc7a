"""What `wcpcollect` says where its server goes away in the middle."""

from __future__ import annotations

from typing import Any

import pytest

from wullaphi._line import Unreachable
from wullaphi.collect import Anew
from wullaphi.wcpcollect import HALVES, Command, words


class Streams:
    """A server that may do half of a step. It is away when it is asked for the first time."""

    def __init__(self) -> None:
        self.asked = 0

    def evicting(self) -> str:
        return ""

    def may_halve_steps(self) -> bool:
        self.asked += 1
        if self.asked == 1:
            raise Unreachable("the connection was lost")
        return True


class AnewOnce:
    """A collector that begins anew with its first poll, and is done with its third."""

    def __init__(self) -> None:
        self.streams = Streams()
        self.taken: dict[str, int] = {}
        self.polls = 0

    @property
    def is_done(self) -> bool:
        return self.polls > 2

    def poll(self, _: float) -> list[Anew]:
        self.polls += 1
        return [Anew("the server was started anew")] if self.polls == 1 else []


def test_that_what_may_be_halved_is_told_once(capsys: pytest.CaptureFixture[str]) -> None:
    """Also where the server was away as it was asked for that, right behind the `anew`."""
    here: Any = AnewOnce()
    assert Command(words().parse_args(["--watch", "1", "--follow"]))._collect(here) is None
    output, errors = capsys.readouterr()
    assert output == "anew\n"
    assert errors.count(HALVES) == 1
