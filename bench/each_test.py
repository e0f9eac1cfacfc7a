#!/usr/bin/env python3
"""Refuses each allocation of some tests in turn, and then each thread: each_test.py TESTS PART.., of the program
out/NAME_tests that `rt test` builds the tests with a PART in their name. Each asks again where it is refused, and so
must pass whichever allocation or thread is refused. The last line is the count of tests; where nothing was refused at
all, none has passed."""
import subprocess
import sys

from refusing import Answer, answers

program, parts = sys.argv[1], sys.argv[2:]


def tests() -> list[str]:
    listed = subprocess.run([program, "--list"], capture_output=True, text=True, check=True)
    said = (listed.stdout + listed.stderr).splitlines()
    names = [line.removesuffix(": test") for line in said if line.endswith(": test")]
    return [name for name in names if any(part in name for part in parts)]


def has_passed(it: Answer) -> bool:
    return it is not None and it[2] == 0


def tried(test: str) -> tuple[int, int]:
    """How many refusals the test missed, and of how many. Prints them."""
    wrong = refused = 0
    for kind in ["allocation", "thread"]:
        given = answers(program, [test], b"", kind)
        missed = [(number, it) for number, it in enumerate(given, 1) if not has_passed(it)]
        wrong += len(missed)
        refused += len(given) - 1
        print(f"{test}: {len(given) - 1} {kind}s refused, {len(missed)} missed", flush=True)
        for number, it in missed[:3]:
            print(f"  {kind} {number}: {it or 'no end'}")
    return wrong, refused


found = [tried(test) for test in tests()]
failed = sum(wrong > 0 for wrong, _ in found) if any(refused for _, refused in found) else max(len(found), 1)
print(f"{len(found) - failed if found else 0} passed, {failed} failed")
sys.exit(1 if failed else 0)
