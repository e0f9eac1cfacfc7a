"""The scripts that run all tests, `.ci/run` and `bindings/test.sh`, on a small repository of stand-ins: what they
count, and that they fail wherever a part of them does."""
import json
import os
import pathlib
import shutil
import subprocess
from typing import NamedTuple

import pytest
from programs import SECONDS, TOP, label

PASSES = "#!/bin/sh\necho '2 passed, 0 failed'\n"
PASSES_IN_PYTHON = "print('2 passed, 0 failed')\n"
# A test that runs beside others, and one that measures.
TESTS = "import pytest\ndef test_it(): pass\n@pytest.mark.measures\ndef test_alone(): pass\n"
MARKERS = "[pytest]\nmarkers = measures\n"

# What stands for the parts of the gate, and for what they call.
GATE = {
    **dict.fromkeys([".ci/crates", ".ci/style", ".ci/page", ".ci/stored_runs", ".ci/example_pages", "bin/rt",
                     "bindings/test.sh"], PASSES),
    **dict.fromkeys(["bench/each_allocation.py", "bench/each_test.py"], PASSES_IN_PYTHON),
    ".ci/install": "#!/bin/sh\n",
    "bin/nproc": "#!/bin/sh\necho 1\n",
    "tests/test_it.py": TESTS,
    "pytest.ini": MARKERS,
}
PACKAGES = {
    "bindings/build.sh": "#!/bin/sh\n",
    "bin/nproc": "#!/bin/sh\necho 1\n",
    "bindings/tests/test_it.py": TESTS,
    "pytest.ini": MARKERS,
}


class Ran(NamedTuple):
    """The status of a script, the lines that it printed, and what it said."""

    status: int
    lines: list[str]
    errors: str


def run(top: pathlib.Path, script: str, files: dict[str, str], **variables: str) -> Ran:
    """Runs a script of this repository in a small one that has these files."""
    for name, text in files.items():
        (top / name).parent.mkdir(parents=True, exist_ok=True)
        (top / name).write_text(text, encoding="utf-8")
        (top / name).chmod(0o755)
    shutil.copy(TOP / script, top / script)
    environment = {name: it for name, it in os.environ.items() if not name.startswith(("PYTEST", "CI"))}
    environment["PATH"] = f"{top / 'bin'}:{environment['PATH']}"
    ran = subprocess.run([top / script], env={**environment, **variables}, capture_output=True, text=True,
                         timeout=SECONDS, check=False)
    return Ran(ran.returncode, ran.stdout.splitlines(), ran.stderr)


def counts(top: pathlib.Path) -> dict[str, tuple[int, int]]:
    """How many passed and failed of each part, as the gate has written it; parts of the same words count together."""
    found: dict[str, tuple[int, int]] = {}
    for it in json.loads((top / "out" / "gate.json").read_text(encoding="utf-8"))["parts"]:
        found[it["part"]] = it["passed"], it["failed"]
    return found


def test_the_gate_counts_each_part(tmp_path: pathlib.Path) -> None:
    """And no part writes unbuffered, which would hide an output that is never flushed."""
    buffers = "#!/bin/sh\necho \"2 passed, ${PYTHONUNBUFFERED-0} failed\"\n"
    ran = run(tmp_path, ".ci/run", {**GATE, ".ci/crates": buffers}, PYTHONUNBUFFERED="1")
    assert (ran.status, ran.lines[-1]) == (0, "26 passed, 0 failed"), ran
    parts = counts(tmp_path)
    assert (len(parts), sum(passed for passed, _ in parts.values())) == (14, 26)
    head = "minutes     passed  failed  part"
    table = ran.lines[[line.strip() for line in ran.lines].index(head) + 1:-1]
    assert [line.split(maxsplit=3)[3] for line in table] == list(parts), "a row for each part"


# The file of each part that isn't well, what stands there, and the part.
WRONG = [
    ("bin/rt", "echo 'one.edit: BAD EDIT: no such name'; echo '2 passed, 0 failed (a remark)'", "rt ci"),
    (".ci/crates", "echo '2 passed, 0 failed'; exit 1", ".ci/crates"),
    (".ci/style", "echo 'a tool is missing'", ".ci/style"),
    (".ci/page", "kill -9 $$", ".ci/page"),
    (".ci/stored_runs", "echo '2 passed, 1 failed'", ".ci/stored_runs"),
    ("bindings/test.sh", "echo '2 passed, 0 failed'; kill -9 $$", "bindings/test.sh --over-proved"),
]


def test_the_gate_fails_where_a_part_does(tmp_path: pathlib.Path) -> None:
    ran = run(tmp_path, ".ci/run", {**GATE, **{file: f"#!/bin/sh\n{does}\n" for file, does, _ in WRONG}})
    assert (ran.status, ran.lines[-1].partition(" passed, ")[2]) == (1, f"{len(WRONG)} failed"), ran
    assert {name: failed for name, (_, failed) in counts(tmp_path).items() if failed} == {it[2]: 1 for it in WRONG}
    assert {f"{part} ends with:" for _, _, part in WRONG} <= set(ran.lines)


def test_the_gate_fails_where_a_test_does(tmp_path: pathlib.Path) -> None:
    ran = run(tmp_path, ".ci/run", {**GATE, "tests/test_it.py": TESTS + "def test_that(): assert False\n"})
    assert (ran.status, ran.lines[-1]) == (1, "26 passed, 1 failed"), ran
    assert counts(tmp_path)["side_by_side tests"] == (1, 1)


def test_the_gate_wants_each_package(tmp_path: pathlib.Path) -> None:
    """Where one is missing nothing is tried."""
    ran = run(tmp_path, ".ci/run", {**GATE, ".ci/install": "#!/bin/sh\necho mypy\n"})
    said = "the tests need Debian's packages: mypy (.ci/install installs them, as root)\n"
    assert ran == Ran(1, [], said)


def test_the_packages_are_counted(tmp_path: pathlib.Path) -> None:
    ran = run(tmp_path, "bindings/test.sh", PACKAGES)
    assert (ran.status, ran.lines[-1]) == (0, "2 passed, 0 failed"), ran


# What stands in one more file of tests, and the last line then. One that can't be read fails in both calls of pytest.
BROKEN = [
    ("def test_that(): assert False\n", "2 passed, 1 failed"),
    ("import os\ndef test_that(): os._exit(0)\n", "2 passed, 1 failed"),
    ("import no_such_module\n", "1 passed, 2 failed"),
]


@pytest.mark.parametrize("text, last", BROKEN, ids=[label(text) for text, _ in BROKEN])
def test_the_packages_fail_where_a_test_does(tmp_path: pathlib.Path, text: str, last: str) -> None:
    ran = run(tmp_path, "bindings/test.sh", {**PACKAGES, "bindings/tests/test_that.py": text})
    assert (ran.status, ran.lines[-1]) == (1, last), ran


def test_no_tests_of_packages_are_a_failure(tmp_path: pathlib.Path) -> None:
    ran = run(tmp_path, "bindings/test.sh", {**PACKAGES, "bindings/tests/test_it.py": ""})
    assert (ran.status, ran.lines[-1]) == (1, "0 passed, 1 failed"), ran
