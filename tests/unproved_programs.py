"""Programs that stand on crates of this repository, each in a repository of its own."""
import pathlib
import shutil
import subprocess
import tempfile
from dataclasses import dataclass

from programs import TOP


@dataclass(frozen=True)
class Programs:
    """Programs that differ in one line: one that is honest, and forgers."""

    text: str
    below: tuple[str, ...]
    honest: str
    forgers: dict[str, str]
    refusal: str = "error[private-"
    kit: tuple[str, ...] = ()


def with_those_below(name: str) -> tuple[str, ...]:
    """This crate of the repository and all that it stands on, each behind what it stands on itself."""
    lines = (TOP / "crates.txt").read_text().splitlines()
    needs = {line.partition(" ")[0].rstrip(":"): line.partition(":")[2].split() for line in lines if ":" in line}
    found: dict[str, None] = {}
    for crate in needs[name]:
        if crate in needs:
            found.update(dict.fromkeys(with_those_below(crate)))
    return (*found, name)


def answer(programs: Programs, line: str) -> str:
    """What `rt try` says of the program with this line."""
    with tempfile.TemporaryDirectory() as folder:
        top = pathlib.Path(folder)
        for crate in programs.below:
            shutil.copytree(TOP / "crates" / crate, top / "crates" / crate, ignore=shutil.ignore_patterns("out"))
        lines = (TOP / "crates.txt").read_text().splitlines()
        needs = [line for line in lines if line.partition(" ")[0].rstrip(":") in programs.below]
        forger = f"forger: {' '.join(programs.below + programs.kit)}"
        (top / "crates.txt").write_text("\n".join([*needs, forger]) + "\n")
        source = top / "crates" / "forger" / "src" / "main.rt"
        source.parent.mkdir(parents=True)
        source.write_text(programs.text.replace("LINE", line))
        subprocess.run(["git", "init", "-q"], cwd=top, check=True)
        ran = subprocess.run(["rt", "try"], cwd=source.parent.parent, capture_output=True, text=True, check=False)
        return ran.stdout + ran.stderr
