#!/usr/bin/env python3
"""Counts the lines of each crate of the product as they stand: code, contracts and definitions, proofs, must-fail
edits.

A contract is a clause in the code, from its word to the brace that closes it; definitions are the files of specs/.
"""
import pathlib
import re
from collections.abc import Iterable

crates = pathlib.Path(__file__).resolve().parent.parent / "crates"
clause = re.compile(r"\s*(ghost|requires|ensures)\b")


def lines_of(folder: pathlib.Path, pattern: str) -> list[str]:
    return [line for path in sorted(folder.rglob(pattern)) for line in path.read_text().splitlines()]


def split(lines: Iterable[str]) -> tuple[int, int]:
    """How many of these lines of code are code, and how many are clauses."""
    code = clauses = depth = 0
    for line in lines:
        if depth or clause.match(line):
            clauses += 1
            depth += line.count("{") - line.count("}")
        else:
            code += 1
    return code, clauses


total = [0] * 4
for crate in sorted(crate for name in ("wcp*", "trace_*", "draw_*", "wullaphi") for crate in crates.glob(name)):
    code, clauses = split(lines_of(crate / "src", "*.rt"))
    row = [
        code,
        clauses + len(lines_of(crate / "specs", "*.antt")),
        len(lines_of(crate / "proofs", "*.antt")),
        len(list((crate / "must-fail").glob("*.edit"))),
    ]
    total = [one + other for one, other in zip(total, row)]
    print(f"| `{crate.name}` | {' | '.join(map(str, row))} |")
print(f"| all | {' | '.join(map(str, total))} |")
