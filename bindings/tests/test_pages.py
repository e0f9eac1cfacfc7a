"""The Python that README.md and the pages of docs/ show, where it shows what it prints: the comment behind a line. And
the examples that they call, which print the block of `text` behind the call."""

from __future__ import annotations

import contextlib
import io
import pathlib
import re
import subprocess
import sys

import pytest

import wullaphi

TOP = pathlib.Path(__file__).resolve().parents[2]
PAGES = [TOP / "README.md", *sorted((TOP / "docs").glob("*.md"))]

BLOCK = re.compile(r"^```python\n(.*?)^```\n", re.M | re.S)
PRINTED = re.compile(r"^print\(.*\)\s+# (.*)$", re.M)
CALLED = re.compile(r"^```sh\npython3 (bindings/examples/[^\n:]*)\n```\n\n```text\n(.*?)^```\n", re.M | re.S)
# An example that takes longer has hung.
SECONDS = 600

BLOCKS = [pytest.param(page, block, id=f"{page.relative_to(TOP)}-{number}") for page in PAGES
          for number, block in enumerate(BLOCK.findall(page.read_text())) if PRINTED.search(block)]
CALLS = [pytest.param(words, printed, id=f"{page.relative_to(TOP)}-{words}") for page in PAGES
         for words, printed in CALLED.findall(page.read_text())]


@pytest.mark.parametrize(("page", "block"), BLOCKS)
def test_what_a_block_prints(page: pathlib.Path, block: str) -> None:
    # A newcomer copies what README shows, so that has all that it needs.
    names: dict[str, object] = {} if page.name == "README.md" else {"wullaphi": wullaphi}
    written = io.StringIO()
    with contextlib.redirect_stdout(written):
        exec(block, names)  # pylint: disable=exec-used
    assert written.getvalue().splitlines() == PRINTED.findall(block)


@pytest.mark.parametrize(("words", "printed"), CALLS)
def test_what_an_example_prints(words: str, printed: str) -> None:
    ran = subprocess.run([sys.executable, *words.split()], cwd=TOP, capture_output=True, text=True, timeout=SECONDS,
                         check=False)
    assert ran.stdout + ran.stderr == printed


def test_that_blocks_are_found() -> None:
    assert BLOCKS and CALLS
