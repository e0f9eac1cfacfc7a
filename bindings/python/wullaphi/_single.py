"""The report of a text."""

import ctypes
from typing import NamedTuple

from ._library import NO_ROOM, answer, unlocked


class Single(NamedTuple):
    """The status of `wcpwatch single` (0 found, 1 not found, 2 a fault), and what it prints.

    >>> single(b"").status
    2
    """

    status: int
    text: bytes


def single(text: bytes) -> Single:
    r"""What `wcpwatch single` answers to this text; for a fault, the line that it writes to standard error.

    A text of more than 2,097,152 bytes has the fault `toolarge`.

    >>> print(single(b"wcp 1\nprocs 1\np 0 true\n").text.decode(), end="")
    found 0
    process 0 emitted 1 taken 1
    total emitted 1 taken 1
    """
    room = 4096
    while True:
        out = ctypes.create_string_buffer(room)
        length = ctypes.c_uint64()
        status = unlocked.wcp_single(text, len(text), out, room, ctypes.byref(length))
        if status != NO_ROOM:
            return Single(answer(status), out.raw[:length.value])
        room = length.value
