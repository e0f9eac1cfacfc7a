"""Runs the commands that the pages show, and compares what they print with what the pages say; and looks for the code
that they show.

A command is a line of a block of `sh`, which may go on behind a backslash, or an indented line behind `$`, that begins
with a program of this repository. What it prints, and then says on standard error, is the block of `text` right behind
it, or the indented lines below it; what it writes to a file is that of the same name in docs/pictures/ or docs/pages/.
The programs must have been built, as the gate does. Code is a block of `rust`, `c` or `antt`, or one of `python`
that doesn't show what it prints: it stands line by line in a file that the gate builds or runs, in `crates/`,
`bindings/rust` or `bindings/examples`; a line of dots, or a comment that begins with dots, stands for any lines."""
import pathlib
import re
import subprocess
from typing import Iterator

import pytest
from install_helper import NAMES
from programs import SECONDS, TOP

PAGES = [TOP / "README.md", TOP / "CONTRIBUTING.md", TOP / "examples" / "README.md",
         *sorted((TOP / "docs").glob("*.md"))]
FENCED = re.compile(r"^```sh\n(.*?)^```\n(?:\n```text\n(.*?)^```\n)?", re.M | re.S)
INDENTED = re.compile(r"^    \$ (.*)\n((?:    (?!\$ ).*\n)*)", re.M)
CODE = re.compile(r"^```(?:rust|c|antt|python)\n(.*?)^```\n", re.M | re.S)
# `bindings/tests/pages.py` runs a block that shows what it prints.
SHOWN = re.compile(r"^print\(.*\)\s+# ", re.M)
DOTS = re.compile(r"(?://|--|#)?\s*\.\..*")
WRITTEN = re.compile(r" > (\S+)$")


def is_ours(line: str) -> bool:
    """Whether each command of the line is a program of this repository, which reads no input of the terminal."""
    line = re.sub("'[^']*'", "''", line)
    return all(part.strip().startswith(tuple(f"./{name} " for name in NAMES)) for part in line.split("|")) \
        and ("<" in line or " examples/" in line or line.startswith("./wcpwatch ring ")) and "--prove" not in line


def commands(page: str) -> Iterator[tuple[str, str | None]]:
    """Each command of a page, with what it prints where the page says so."""
    for block, printed in FENCED.findall(page):
        lines = [re.sub(r"\s+#.*", "", line) for line in block.replace("\\\n", "").splitlines()]
        for line in lines:
            if is_ours(line):
                yield line, printed if printed and len(lines) == 1 else None
    for line, printed in INDENTED.findall(page):
        if is_ours(line):
            yield line, re.sub(r"^    ", "", printed, flags=re.M) or None


def answer(line: str, room: pathlib.Path) -> tuple[int, str, str]:
    """The status and the output of a command, in a folder of its own with the programs and the examples. What it writes
    to a file is output too, but that the files in docs/ were written in the folder of the examples."""
    for name in (*NAMES, "examples"):
        (room / name).symlink_to(TOP / name)
    ran = subprocess.run(["bash", "-c", line], cwd=room, stdin=subprocess.DEVNULL, capture_output=True, text=True,
                         timeout=SECONDS, check=False)
    written = "".join((room / name).read_text() for name in WRITTEN.findall(line))
    return ran.returncode, ran.stdout + written.replace("examples/", ""), ran.stderr


def stored(line: str) -> str | None:
    """What a command writes to a file, as docs/ has it; nothing where it writes none, or docs/ doesn't have it."""
    kept = [path.read_text() for name in WRITTEN.findall(line) for path in TOP.glob(f"docs/p*/{name}")]
    return kept[0] if len(kept) == 1 else None


COMMANDS = [(page, line, printed) for page in PAGES for line, printed in commands(page.read_text())]
CODES = [(page, code) for page in PAGES for code in CODE.findall(page.read_text()) if not SHOWN.search(code)]


@pytest.mark.parametrize("line, printed", [it[1:] for it in COMMANDS],
                         ids=[f"{page.name}: {line}" for page, line, _ in COMMANDS])
def test_prints_what_the_page_says(proved_programs: None, tmp_path: pathlib.Path, line: str,
                                   printed: str | None) -> None:
    status, output, errors = answer(line, tmp_path)
    wanted = printed or stored(line)
    assert wanted is not None, "the page doesn't say what it prints"
    assert output + errors == wanted
    assert status in (0, 1)


def stripped(text: str) -> list[str]:
    return [line.strip() for line in text.splitlines() if line.strip()]


def pieces(block: str) -> list[list[str]]:
    """The runs of lines of a block between its dots. A comment of its own at the head names a file, and is none of
    it."""
    found: list[list[str]] = [[]]
    for line in stripped(block):
        if DOTS.fullmatch(line):
            found.append([])
        elif not line.startswith("-- proofs/"):
            found[-1].append(line)
    return [piece for piece in found if piece]


def stands_in(wanted: list[list[str]], lines: list[str]) -> bool:
    """Whether the pieces stand in these lines, one behind another."""
    at = 0
    for piece in wanted:
        ends = [i + len(piece) for i in range(at, len(lines) - len(piece) + 1) if lines[i:i + len(piece)] == piece]
        if not ends:
            return False
        at = ends[0]
    return True


@pytest.fixture(scope="module")
def built_code() -> list[list[str]]:
    """The lines of each file that the gate builds or runs."""
    files = [it for it in TOP.glob("crates/*/*/**/*") if it.suffix in (".rt", ".antt")]
    files += [it for of in ("rust/*/*.rs", "examples/*.c", "examples/*.py")
              for it in TOP.glob(f"bindings/{of}")]
    return [stripped(it.read_text()) for it in files]


@pytest.mark.parametrize("code", [code for _, code in CODES],
                         ids=[f"{page.name}: {code.strip().splitlines()[0]}" for page, code in CODES])
def test_code_stands_in_a_file(built_code: list[list[str]], code: str) -> None:
    assert any(stands_in(pieces(code), file) for file in built_code)
