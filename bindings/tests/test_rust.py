"""The crate in Rust: its tests, and what its examples print."""

from __future__ import annotations

import os
import pathlib
import re
import subprocess

import pytest

BINDINGS = pathlib.Path(__file__).resolve().parent.parent
# A call that takes longer has hung.
SECONDS = 1700
MET = """\
found: ada at transfer (meeting.rs:12), ben at audit (meeting.rs:17)
met: ada at transfer (meeting.rs:12), ben at audit (meeting.rs:17)
"""


@pytest.fixture(scope="module")
def target(tmp_path_factory: pytest.TempPathFactory) -> pathlib.Path:
    """Where cargo builds: CARGO_TARGET_DIR, or a folder that is new."""
    given = os.environ.get("CARGO_TARGET_DIR")
    return pathlib.Path(given) if given else tmp_path_factory.mktemp("cargo")


def cargo(target: pathlib.Path, *words: str) -> subprocess.CompletedProcess[str]:
    return subprocess.run(
        ["cargo", *words, "--offline", "--release", "--manifest-path", str(BINDINGS / "rust" / "Cargo.toml")],
        env={**os.environ, "CARGO_TARGET_DIR": str(target), "WULLAPHI_LIB": str(BINDINGS / "out")},
        stdout=subprocess.PIPE, stderr=subprocess.STDOUT, text=True, timeout=SECONDS, check=False)


def test_the_tests_of_the_crate(target: pathlib.Path) -> None:
    ran = cargo(target, "test", "--no-fail-fast")
    assert ran.returncode == 0, ran.stdout
    counts = re.findall(r"^test result: ok\. (\d+) passed; 0 failed", ran.stdout, re.M)
    assert len(counts) == len(re.findall(r"^ +(?:Running|Doc-tests) ", ran.stdout, re.M)), ran.stdout
    assert sum(map(int, counts)) > 0, ran.stdout


@pytest.fixture(scope="module")
def examples(target: pathlib.Path) -> pathlib.Path:
    """The folder of the examples, which are built."""
    ran = cargo(target, "build", "--examples")
    assert ran.returncode == 0, ran.stdout
    return target / "release" / "examples"


@pytest.mark.parametrize(("name", "words", "wanted"), [
    ("token", [], "the two threads never had the token at once\n"),
    ("token", ["keep"], "both threads had the token, thread 0 after 1 of its messages, thread 1 after 1\n"),
    ("bank", [], "none\n"),
    ("bank", ["hasty"], "found: ada at transfer (bank.rs:22), ben at audit (bank.rs:29)\n"),
    ("meeting", [], MET)], ids=["token", "token, kept", "bank", "bank, hasty", "meeting"])
def test_an_example(examples: pathlib.Path, name: str, words: list[str], wanted: str) -> None:
    ran = subprocess.run([examples / name, *words], capture_output=True, text=True, timeout=SECONDS, check=False)
    assert (ran.returncode, ran.stdout, ran.stderr) == (0, wanted, "")
