"""The programs that the tests call, and what a call of them answers."""
import json
import os
import pathlib
import subprocess
from typing import Any, NamedTuple, Sequence

TOP = pathlib.Path(__file__).resolve().parent.parent
PROGRAMS = ("wcpwatch", "wcptrace", "wcpdraw", "bench_calls")

# A call that takes longer has hung.
SECONDS = 600

Word = str | os.PathLike[str]


class Answer(NamedTuple):
    """The status of a call, what it wrote, and what it said."""

    status: int
    output: str = ""
    errors: str = ""


def builds(program: str, proved: bool) -> list[pathlib.Path]:
    """The files of a program: as the gate built it, by one compiler and by a second where that could build it; or as it
    is built without proof."""
    out = TOP / "crates" / program / "out"
    if not proved:
        return [out / f"{program}.unproved"]
    second = out / f"{program}.by-rattle"
    return [out / program] + ([second] if second.exists() else [])


def ask(file: Word, words: Sequence[Word], given: str | bytes = b"", cwd: Word | None = None) -> Answer:
    """What a program answers to these words and this input."""
    ran = subprocess.run([file, *words], input=as_bytes(given), capture_output=True, cwd=cwd, timeout=SECONDS,
                         check=False)
    return Answer(ran.returncode, as_text(ran.stdout), as_text(ran.stderr))


def as_bytes(text: str | bytes) -> bytes:
    return text.encode() if isinstance(text, str) else text


def as_text(output: bytes) -> str:
    """What a program wrote. A byte that is no UTF-8 becomes a character that no text has."""
    return output.decode(errors="surrogateescape")


def data_of(page: str) -> Any:
    """The data of a page. No `<` stands in it."""
    front, mark, rest = page.partition('<script type="application/json" id="data">')
    text, _, _ = rest.partition("</script>")
    assert front.startswith("<!DOCTYPE html>") and mark and page.endswith("</html>\n") and "<" not in text, page[:200]
    return json.loads(text)


def label(*parts: object) -> str:
    """The name of a case, which a reader can choose by `-k`: its words and texts in a line."""
    words = (" ".join(map(str, part)) if isinstance(part, (list, tuple)) else str(part) for part in parts)
    line = " ".join(word.strip() for word in words if word).replace("\n", " / ")
    return line if len(line) <= 100 else line[:97] + "..."
