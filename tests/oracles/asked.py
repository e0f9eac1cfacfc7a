"""What `wcptrace` answers to a log, but for what it says beside of the log."""
import random
import re
from collections.abc import Sequence

from programs import Answer, Word, ask

FORMS = ("lines", "shiviz", "shiviz-reversed")
# The names of the exit statuses of an answer.
STATUSES = ("found", "none", "no host")


def is_note(line: str) -> bool:
    """Whether a line of standard error says something of the log that is no fault."""
    begins = line.startswith(("wcptrace: the log has ", "wcptrace: events that know another, "))
    return begins or re.search(r" matches (no event|none of the first \d+ events)\n$", line) is not None


def faults_in(errors: str) -> str:
    """The lines of standard error, but for the notes on the log."""
    return "".join(line for line in errors.splitlines(keepends=True) if not is_note(line))


def answer_to(program: Word, words: Sequence[Word], log: str) -> Answer:
    """The answer of a program to a log, without the notes."""
    answer = ask(program, words, log)
    return answer._replace(errors=faults_in(answer.errors))


def line_of(form: str, at: int) -> int:
    """The line of the text of the event at this place of a log."""
    return at + 1 if form == "lines" else 2 * at + (2 if form == "shiviz" else 1)


def form(rng: random.Random) -> str:
    return rng.choice(FORMS)


def difference(words: Sequence[str], log: str, got: object, wanted: object) -> str:
    """How two answers differ, as a test shows it."""
    return f"{list(words)}:\n{log}answered {got}\nwanted {wanted}"
