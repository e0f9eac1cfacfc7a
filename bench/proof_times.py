#!/usr/bin/env python3
"""What the proof of a crate took, by function: `proof_times.py CRATE [COUNT]` after `rt check --jobs 1` or
`rt check --test --jobs 1` in a checkout where the crate was not checked before.

A check writes a file for each part of each function as it goes. So the time between two files is what the later one
took, with all else that the machine did meanwhile. Prints the seconds in all, those of each stage, and the functions
that took most. `Lts` is the step from a function's code to its transitions, `Proof` its proof, `Tie` what joins the
two."""
import collections
import os
import re
import sys

STAGES = ("Lts", "Proof", "Tie", "Answers", "Statement", "Met", "Code", "Goals", "Given", "Reads", "Invariants")
ENDINGS = re.compile(r"\.(?:decls|oantt|Mir|Kinds\S*|TheImpl|%s)$" % "|".join(STAGES))


def files(folder: str) -> list[tuple[float, str]]:
    """The files of a check, with the times at which they were written, in order."""
    found: list[tuple[float, str]] = []
    for top, _, names in os.walk(folder):
        found += [(os.stat(os.path.join(top, name)).st_mtime, name) for name in names if name.endswith(".oantt")]
    return sorted(found)


def function_of(name: str) -> str:
    """The function that a file belongs to, or the file's name."""
    name = re.sub(r"^Rattle-\w+-(?:proofs|specs)\.(?:contracts\.)?", "", name)
    while ENDINGS.search(name):
        name = ENDINGS.sub("", name)
    return name


def longest(times: dict[str, float]) -> list[tuple[str, float]]:
    return sorted(times.items(), key=lambda it: it[1], reverse=True)


def main() -> None:
    crate = sys.argv[1]
    count = int(sys.argv[2]) if len(sys.argv) > 2 else 20
    top = os.path.dirname(os.path.dirname(os.path.abspath(__file__)))
    written = files(os.path.join(top, "crates", crate, "out", "incremental"))
    stages: dict[str, float] = collections.defaultdict(float)
    functions: dict[str, float] = collections.defaultdict(float)
    for (before, _), (time, name) in zip(written, written[1:]):
        stage = next((it for it in STAGES if f".{it}." in name), "other")
        stages[stage] += time - before
        functions[function_of(name)] += time - before
    print(f"{sum(stages.values()):.0f} s:", ", ".join(f"{it} {took:.0f}" for it, took in longest(stages)))
    for name, took in longest(functions)[:count]:
        print(f"{took:7.1f} {name}")


if __name__ == "__main__":
    main()
