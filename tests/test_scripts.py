"""The scripts `wcpwatch`, `wcptrace` and `wcpdraw`, and `.ci/edits`, as `.ci/script_test` tries them, and whether the
scripts know each word of their programs."""
import pathlib
import re
import subprocess

from programs import SECONDS, TOP, ask


def listed(script: str, name: str) -> list[str]:
    """The words that a script lists under a name, which it may set in several lines."""
    text = (TOP / script).read_text(encoding="utf-8")
    return sorted(re.findall(r"--[a-z-]+", " ".join(re.findall(rf"^{name}=(.*)$", text, re.M))))


def options(program: pathlib.Path) -> tuple[list[str], list[str]]:
    """The options of a program that take a value, and those that don't, as its help lists them."""
    lines = re.findall(r"^ {6}(--[a-z-]+)( <.*?>)? ", ask(program, ["--help"]).output, re.M)
    return sorted(word for word, value in lines if value), sorted(word for word, value in lines if not value)


def test_wcptrace_knows_its_words(wcptrace: pathlib.Path) -> None:
    assert (listed("wcptrace", "valued"), listed("wcptrace", "flags")) == options(wcptrace)


def test_wcpdraw_knows_its_words(wcpdraw: pathlib.Path) -> None:
    assert (listed("wcpdraw", "valued"), listed("wcpdraw", "flags")) == options(wcpdraw)


def test_the_scripts() -> None:
    """Each check is a line, and one that fails says WRONG."""
    ran = subprocess.run([TOP / ".ci" / "script_test"], capture_output=True, text=True, timeout=2 * SECONDS,
                         check=False)
    assert (ran.returncode, [line for line in ran.stdout.splitlines() if "WRONG" in line]) == (0, []), ran.stdout
