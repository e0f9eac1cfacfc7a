"""Runs of a program of which one allocation or one thread is refused, each in turn."""
import os
import pathlib
import subprocess
import tempfile
from collections.abc import Sequence

# What is printed, what is said on standard error, and the exit status; None of a run that doesn't end.
Answer = tuple[bytes, bytes, int] | None

here = pathlib.Path(__file__).resolve().parent
room = tempfile.mkdtemp()
library = f"{room}/refuse.so"
subprocess.run(["cc", "-shared", "-fPIC", "-O1", "-o", library, f"{here}/refuse.c", "-ldl"], check=True)

# A run that takes longer counts as one that doesn't end.
SECONDS = 60


def answer(program: str, words: Sequence[str], text: bytes, kind: str, number: int) -> tuple[Answer, int]:
    """What the program answers where this one of the kind is refused, and how many there were."""
    script = 'exec env LD_PRELOAD="$0" REFUSE="$1" "${@:3}" 3>"$2"'
    command = ["bash", "-c", script, library, f"{kind} {number}", f"{room}/made", os.path.abspath(program), *words]
    try:
        done = subprocess.run(command, input=text, capture_output=True, timeout=SECONDS)
    except subprocess.TimeoutExpired:
        return None, number
    told = pathlib.Path(f"{room}/made").read_text().split()
    return (done.stdout, done.stderr, done.returncode), int(told[-1]) if told else number


def answers(program: str, words: Sequence[str], text: bytes, kind: str) -> list[Answer]:
    """The answers with the first of the kind refused, the second and so on, until none is left to refuse."""
    given: list[Answer] = []
    while True:
        it, made = answer(program, words, text, kind, len(given) + 1)
        given.append(it)
        if made < len(given):
            return given
