"""The library and its calls, as the header declares them."""

import ctypes
import operator
import os
from typing import Any, Type

from ._refusals import BY_NUMBER, OutOfRange

MAX_PROCESSES = 16

SNAPSHOT = 1
DONE_WITH_NOTE = 1
FOUND = 2
NOTHING = 3
NO_PROBE = 16
NO_STAMP = 17
NO_NOTE = 18
NOT_IN_CUT = 23
NO_ROOM = 24

MOST_OF_A_WORD = 0xFFFF_FFFF
MOST = 0xFFFF_FFFF_FFFF_FFFF

Clock = ctypes.c_uint32 * MAX_PROCESSES


class RawProbe(ctypes.Structure):
    _fields_ = [(name, ctypes.c_uint32) for name in (
        "magic", "processes", "process", "watched", "flag", "flag_up", "closed", "pending", "emitted", "reserved",
    )] + [("watch", ctypes.c_uint64), ("clock", Clock)]


class RawStamp(ctypes.Structure):
    _fields_ = [(name, ctypes.c_uint32) for name in ("magic", "processes", "sender", "to")] + [
        ("watch", ctypes.c_uint64), ("clock", Clock)]


class RawNote(ctypes.Structure):
    _fields_ = [(name, ctypes.c_uint32) for name in (
        "magic", "processes", "process", "kind", "number", "watched",
    )] + [("watch", ctypes.c_uint64), ("tag", ctypes.c_uint64), ("clock", Clock)]


class RawChecker(ctypes.Structure):
    _fields_ = [("held_word", ctypes.c_uint32), ("reserved", ctypes.c_uint32), ("held", ctypes.c_void_p)]


PROBE_SIZE = ctypes.sizeof(RawProbe)
STAMP_SIZE = ctypes.sizeof(RawStamp)
NOTE_SIZE = ctypes.sizeof(RawNote)


def path() -> str:
    """Where the library is: in a wheel it lies in the folder of the package, in a clone in `bindings/out`."""
    here = os.path.dirname(os.path.abspath(__file__))
    installed = os.path.join(here, "libwullaphi.so")
    built = os.path.join(here, "..", "..", "out", "libwullaphi.so")
    return os.environ.get("WULLAPHI_LIBRARY", installed if os.path.exists(installed) else built)


def load(kind: Type[ctypes.CDLL]) -> ctypes.CDLL:
    """The library, with the types of its calls."""
    loaded = kind(path())
    word, many = ctypes.c_uint32, ctypes.c_uint64
    probe, stamp, note = (ctypes.POINTER(kind) for kind in (RawProbe, RawStamp, RawNote))
    checker = ctypes.POINTER(RawChecker)
    calls = {
        "wcp_version": [],
        "wcp_probe_init_with": [probe, many, word, word, word, word],
        "wcp_probe_observe": [probe, word],
        "wcp_probe_stamp": [probe, word, stamp],
        "wcp_probe_stamp_open": [probe, stamp],
        "wcp_probe_receive": [probe, stamp],
        "wcp_probe_next": [probe, many, note],
        "wcp_probe_close": [probe],
        "wcp_checker_new": [checker, many, word],
        "wcp_checker_new_with": [checker, many, word, ctypes.POINTER(word), ctypes.c_size_t],
        "wcp_checker_new_sets": [checker, many, word, ctypes.POINTER(word), ctypes.c_size_t],
        "wcp_checker_new_pairs": [checker, many, word],
        "wcp_checker_questions": [checker, ctypes.POINTER(many)],
        "wcp_checker_take": [checker, note],
        "wcp_checker_lose": [checker, word],
        "wcp_checker_report_of": [checker, word],
        "wcp_checker_cut_of": [checker, word, word, ctypes.POINTER(word)],
        "wcp_checker_tag_of": [checker, word, word, ctypes.POINTER(many)],
        "wcp_checker_is_starved": [checker, word, ctypes.POINTER(word)],
        "wcp_checker_taken": [checker, word, ctypes.POINTER(many)],
        "wcp_checker_save": [checker, ctypes.c_char_p, ctypes.c_size_t, ctypes.POINTER(many)],
        "wcp_checker_load": [checker, ctypes.c_char_p, ctypes.c_size_t],
        "wcp_checker_end": [checker],
        "wcp_single": [ctypes.c_char_p, ctypes.c_size_t, ctypes.c_char_p, ctypes.c_size_t, ctypes.POINTER(many)],
    }
    for name, arguments in calls.items():
        call = getattr(loaded, name)
        call.argtypes = arguments
        call.restype = word
    return loaded


class Missing:
    """What stands for the library where it isn't there. Logs and traces make no calls; one that is made says why."""

    def __init__(self, why: OSError) -> None:
        self._why = str(why)

    def __getattr__(self, name: str) -> Any:
        if name.startswith("wcp_"):
            raise OSError(self._why)
        raise AttributeError(name)


def loaded_or_missing(kind: Type[ctypes.CDLL]) -> Any:
    """The library, or what stands for it."""
    try:
        return load(kind)
    except OSError as error:
        return Missing(error)


# A call keeps the interpreter's lock, so that no other thread uses the same memory meanwhile; except for `wcp_single`,
# which may take long and shares nothing.
library = loaded_or_missing(ctypes.PyDLL)
unlocked = loaded_or_missing(ctypes.CDLL)


def answer(number: int) -> int:
    """What a call answered, unless it was refused."""
    if number in BY_NUMBER:
        raise BY_NUMBER[number]()
    return number


def within(value: int, most: int) -> int:
    """A whole number that C can be told: ctypes would cut it silently."""
    if not 0 <= operator.index(value) <= most:
        raise OutOfRange()
    return value


def word(value: int) -> int:
    """A number of 32 bits."""
    return within(value, MOST_OF_A_WORD)


def many(value: int) -> int:
    """A number of 64 bits."""
    return within(value, MOST)
