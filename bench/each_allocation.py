#!/usr/bin/env python3
"""Refuses each allocation of a built program in turn, and then each of its threads: each_allocation.py PROGRAM
[WORD..], or each_allocation.py WCPWATCH [WORD TEXT..]

`wcpwatch` takes a word and a file, which it reads, and the next word and file; with none it goes through worked cases
of every word. Another program runs with these words. Each answer must be that of an undisturbed run, or a fault line
that says memory, or spawn for a thread that couldn't be made: of `wcpwatch` with status 2 and no output, of another
program with a status that is no answer's and at most the beginning of its output. A run that doesn't end within a
minute is another answer. It goes on until none is left to refuse, and then the answer must be the undisturbed one. A
case passes where each answer is such a one, and one at least says memory. The last line is the count of cases."""
import os
import pathlib
import re
import subprocess
import sys

from refusing import Answer, answer, answers

TRUE_AGAIN_AFTER_SEND = b"wcp 1\nprocs 2\np 0 true\np 0 send 1\np 0 true\np 1 recv 0\np 1 true\n"
NEWEST_FIRST_HOLD_LOSES_CUT = b"""wcp 1
procs 2
observe 0 true\nput 0\nobserve 1 true\nput 1\nsend 1 0\nrecv 0 0\nobserve 0 true\nput 0
admit 0 0\nadmit 0 1\nadmit 0 0\npass 0\npass 0\npass 0\ncheck\ncheck\ncheck
"""
# Process 0 has more snapshots than the checker has room for before process 1 has one.
CHECKER_GROWS = b"wcp 1\nprocs 2\ncap 64\n" + b"p 0 true\np 0 send 1\n" * 40 + b"p 1 recv 0\n" * 40 + b"p 1 true\n"
GROWS = b"observe 0 true\nput 0\nsend 0 1\nadmit 0 0\npass 0\ncheck\n"
CHECKER_GROWS_STEP_BY_STEP = b"wcp 1\nprocs 2\ncap 64\n" + GROWS * 40

program = sys.argv[1]
name = os.path.basename(program)


def ring(*words: str) -> list[str]:
    return ["ring", *words]


def printed(words: list[str]) -> bytes:
    return subprocess.run([program, *words], capture_output=True, check=True).stdout


def cases() -> list[tuple[str, list[str], bytes]]:
    """Each case: its name, the words, and the text that it reads."""
    if name != "wcpwatch":
        return [(" ".join(sys.argv[2:]) or "without a word", sys.argv[2:], b"")]
    if sys.argv[2:]:
        return [(f"{word} {os.path.basename(file)}", [word], pathlib.Path(file).read_bytes())
                for word, file in zip(sys.argv[2::2], sys.argv[3::2], strict=True)]
    rings = [("ring_text", ring("--procs", "2", "--rounds", "1")),
             ("ring_text_with_fault", ring("--procs", "2", "--rounds", "1", "--fault")),
             ("ring_three_by_two", ring("--procs", "3", "--rounds", "2"))]
    workloads = [("true_again_after_send", TRUE_AGAIN_AFTER_SEND), ("checker_grows", CHECKER_GROWS),
                 *((case, printed(words)) for case, words in rings)]
    schedules = [("newest_first_hold_loses_cut", NEWEST_FIRST_HOLD_LOSES_CUT),
                 ("checker_grows_step_by_step", CHECKER_GROWS_STEP_BY_STEP)]
    return [*((f"{word} {case}", [word], text) for word in ("single", "run") for case, text in workloads),
            *((f"replay {case}", ["replay"], text) for case, text in schedules),
            *((case, words, b"") for case, words in rings)]


def told(it: Answer) -> str | None:
    """`memory` or `spawn`, where its fault line says so."""
    if it is None:
        return None
    line = re.fullmatch(rb"\w+: (?:run )?(memory|spawn|out of memory|memory allocation failed)\n", it[1])
    if line is None:
        return None
    return "spawn" if line[1] == b"spawn" else "memory"


def fault(it: Answer, row: Answer) -> str | None:
    """The same, where there is no other answer beside it."""
    if it is None:
        return None
    output, _, status = it
    if name == "wcpwatch":
        is_well = (output, status) == (b"", 2)
    else:
        is_well = row is not None and row[0].startswith(output) and status not in (0, row[2])
    return told(it) if is_well else None


def tried(case: str, words: list[str], text: bytes) -> bool:
    """Whether the case passes. Prints what was refused."""
    row, _ = answer(program, words, text, "allocation", 0)
    wrong = refused = 0
    for kind in ("allocation", "thread"):
        given = answers(program, words, text, kind)
        last = given.pop()
        others = [(number, it) for number, it in enumerate(given, 1) if it != row and not fault(it, row)]
        if last != row or told(row):
            others.append((len(given) + 1, last))
        wrong += len(others)
        memory, spawn = (sum(fault(it, row) == of for it in given) for of in ("memory", "spawn"))
        print(f"{name} {case}, {kind}: {len(given)} refused, {memory} answers of memory, {spawn} of spawn,"
              f" {given.count(row)} undisturbed, {len(others)} others", flush=True)
        refused += memory
        for number, it in others[:5]:
            print(f"  {kind} {number}: {it or 'no end'}")
    return refused > 0 and wrong == 0


passed = [tried(*case) for case in cases()]
print(f"{passed.count(True)} passed, {passed.count(False)} failed")
sys.exit(0 if passed and all(passed) else 1)
