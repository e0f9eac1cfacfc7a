"""Whether each must-fail edit can be applied, and whether the gate's are few enough.

An edit is a file with a line `file: PATH` and pairs of lines `old: TEXT` and `new: TEXT`; each old text stands exactly
once in the file, as the pairs before it left it."""
import collections
import pathlib

import pytest
from programs import TOP

# What the gate has time for.
MOST_OF_A_CRATE, MOST, MOST_CRATES = 10, 110, 25


def fault(edit: pathlib.Path, crate: str) -> str | None:
    """Why the edit can't be applied, or nothing."""
    text = old = None
    for line in edit.read_text().splitlines():
        word, _, rest = line.partition(": ")
        if word == "file":
            file = TOP / "crates" / crate / rest
            if not file.exists():
                return f"there is no {file.relative_to(TOP)}"
            text = file.read_text()
        elif word == "old":
            old = rest
        elif word in ("new", "new:") and text is not None and old is not None:
            if text.count(old) != 1:
                return f"the old text stands {text.count(old)} times: {old}"
            text = text.replace(old, rest)
    return None if old else "there is no old text"


IN_GATE = [(it, it.parts[-3]) for it in sorted(TOP.glob("crates/*/must-fail/*.edit"))]
BESIDE = [(it, it.parts[-2]) for it in sorted(TOP.glob("edits/*/*.edit"))]
CRATES = collections.Counter(crate for _, crate in IN_GATE)


@pytest.mark.parametrize("edit, crate", IN_GATE + BESIDE,
                         ids=[str(edit.relative_to(TOP)) for edit, _ in IN_GATE + BESIDE])
def test_can_be_applied(edit: pathlib.Path, crate: str) -> None:
    assert fault(edit, crate) is None


def test_the_gate_has_few_of_a_crate() -> None:
    assert IN_GATE and [crate for crate, count in CRATES.items() if count > MOST_OF_A_CRATE] == []


def test_the_gate_has_few() -> None:
    assert len(IN_GATE) <= MOST and len(CRATES) <= MOST_CRATES
