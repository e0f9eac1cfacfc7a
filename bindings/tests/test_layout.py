"""The structs of the library, which stand four times: in its source, in the header, in the Python package and in the
Rust crate. Each has the same fields of the same types in the same order, so they lie in memory alike."""

import ctypes
import pathlib
import re

import pytest
from wullaphi import _library

TOP = pathlib.Path(__file__).resolve().parents[2]
HEADER = (TOP / "bindings" / "wullaphi.h").read_text()
CRATE = (TOP / "bindings" / "rust" / "src" / "ffi.rs").read_text()
# The struct in the header, its file in the library's source, its names there and in the crate, and that of Python.
STRUCTS = [
    ("wcp_probe", "probe.rt", "WcpProbe", "Probe", _library.RawProbe),
    ("wcp_stamp", "stamp.rt", "WcpStamp", "Stamp", _library.RawStamp),
    ("wcp_note", "note.rt", "WcpNote", "Note", _library.RawNote),
    ("wcp_checker", "handle.rt", "WcpChecker", "Checker", _library.RawChecker),
]
# What a field holds, in the words of each language. A `Held` is a pointer, and an allocator that takes no room.
KINDS = {"uint32_t": "u32", "uint64_t": "u64", "void *": "pointer", "*mut c_void": "pointer", "Held": "pointer"}
PROCESSES = 16

Fields = list[tuple[str, str]]


def plain(kind: str) -> str:
    return KINDS.get(kind.strip(), kind.strip())


def in_c(name: str) -> Fields:
    body = re.search(rf"typedef struct {name} {{(.*?)}} {name};", HEADER, re.S)
    assert body
    fields = re.findall(r"^ *(\w+ \*?) *(\w+)(\[WCP_MAX_PROCESSES\])?;", body[1], re.M)
    return [(field, f"[{plain(kind)}]" if is_list else plain(kind)) for kind, field, is_list in fields]


def in_rust(text: str, name: str) -> Fields:
    body = re.search(rf"#\[repr\(C\)\]\n(?:#\[.*\]\n)*pub struct {name} {{(.*?)^}}", text, re.M | re.S)
    assert body
    fields = re.findall(r"^    (?:pub )?(\w+): (.*),$", body[1], re.M)
    return [(field, re.sub(r"\[(\w+); \w+\]", r"[\1]", plain(kind))) for field, kind in fields]


def in_python(struct: type[ctypes.Structure]) -> Fields:
    kinds = {ctypes.c_uint32: "u32", ctypes.c_uint64: "u64", ctypes.c_void_p: "pointer", _library.Clock: "[u32]"}
    # The word `from` is no name in Python.
    return [("from" if field[0] == "sender" else field[0], kinds[field[1]]) for field in struct._fields_]


@pytest.mark.parametrize("name, file, source, crate, struct", STRUCTS, ids=[it[0] for it in STRUCTS])
def test_each_field_stands_where_it_does(
    name: str, file: str, source: str, crate: str, struct: type[ctypes.Structure]
) -> None:
    fields = in_rust((TOP / "crates" / "wcp_c" / "src" / file).read_text(), source)
    assert len(fields) > 2 and ("" not in dict(fields))
    assert in_c(name) == fields
    assert in_rust(CRATE, crate) == fields
    assert in_python(struct) == fields


def test_a_clock_has_room_for_each_process() -> None:
    assert re.search(rf"^#define WCP_MAX_PROCESSES {PROCESSES}\b", HEADER, re.M)
    assert re.search(rf"MAX_PROCESSES: usize = {PROCESSES};", CRATE)
    assert ctypes.sizeof(_library.Clock) == 4 * PROCESSES
