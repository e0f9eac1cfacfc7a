"""Files of questions, about named hosts, definitely or not, and any two, with each choice of events tried.

The logs have one to six hosts. What each question is answered to, behind which event, and in which order, is found by
trying each prefix of the log."""
import json
import random
import tempfile
from collections.abc import Callable
from functools import partial

from programs import Answer, Word
from trace_logs import Event, text_of

from . import any_two as two
from . import asked, definitely
from .hosts import conditions, expected, first_known, small

# After how many events of a log the answer of a question is known, and what it is in one of the forms.
Known = Callable[[list[Event]], int | None]
Answers = Callable[[str, list[Event]], Answer]
# The name of a question, its words, and these.
Question = tuple[str, list[str], Known, Answers]

KINDS = frozenset(["status 0", "status 1", "status 2"])
DEFINITELY = "--definitely"
# Expressions of hosts, and the names that they match.
HOSTS = {"^[abc]$": "abc", ".": "abcdef", "^[^a]": "bcdef", "^z": ""}


def keys_of(rng: random.Random, words: list[str]) -> dict[str, str | list[str] | bool]:
    """The keys of a question by the words of the command line. One text of hosts may stand alone or in an array."""
    texts: dict[str, list[str]] = {}
    is_definite = words[0] == DEFINITELY
    for option, word in zip(words[is_definite::2], words[is_definite + 1::2]):
        texts.setdefault(option[2:], []).append(word)
    alone = {key for key, said in texts.items()
             if len(said) == 1 and (key.startswith("any-two") or rng.random() < 0.5)}
    keys: dict[str, str | list[str] | bool] = {key: said[0] if key in alone else said for key, said in texts.items()}
    if is_definite or rng.random() < 0.1:
        keys["definitely"] = is_definite
    return keys


def document(rng: random.Random, questions: list[Question]) -> str:
    lines = []
    for name, words, _, _ in questions:
        entries = [("name", name), *keys_of(rng, words).items()]
        rng.shuffle(entries)
        lines += ["[[question]]"] + ["%s = %s" % (key, json.dumps(value)) for key, value in entries]
    return "\n".join(lines) + "\n"


def about_hosts(rng: random.Random, names: list[str]) -> tuple[list[str], Known, Answers]:
    """The words of a question about hosts, after how many events of a log its answer is known, and what is answered."""
    words, watched = conditions(rng, names)
    return words, partial(first_known, watched=watched), partial(expected, words=words, watched=watched)


def about_states(rng: random.Random, names: list[str]) -> tuple[list[str], Known, Answers]:
    """The same of a question whether the conditions of hosts must have held at once."""
    words, watched = definitely.conditions(rng, names)
    known = partial(definitely.first_certain, watched=watched)
    return [DEFINITELY, *words], known, partial(definitely.decided, words=words, watched=watched)


def about_two(rng: random.Random) -> tuple[list[str], Known, Answers]:
    """The same of a question about any two hosts."""
    hosts = rng.choice(list(HOSTS))
    words, holds, lasts = two.condition(rng, hosts)

    def known(log: list[Event]) -> int | None:
        return two.first_two_known(log, two.in_order(log, HOSTS[hosts]), holds, lasts)[0]

    def answer(form: str, log: list[Event]) -> Answer:
        return two.expected(form, log, hosts, HOSTS[hosts], holds, lasts)

    return words, known, answer


def answers(form: str, log: list[Event], questions: list[Question]) -> Answer:
    """What is printed, what is said on standard error, and the status."""
    printed, said, statuses = [], [], []
    known = [known(log) for _, _, known, _ in questions]
    early = sorted((count, place) for place, count in enumerate(known) if count is not None)
    late = [place for place, count in enumerate(known) if count is None]
    for place in [place for _, place in early] + late:
        name, _, _, answer = questions[place]
        status, output, errors = answer(form, log)
        statuses.append(status)
        if output:
            printed.append("%s: %s" % (name, output))
        if errors:
            said.append(errors.replace("wcptrace: ", "wcptrace: %s: " % name))
    return Answer(2 if 2 in statuses else min(statuses), "".join(printed), "".join(said))


def some_questions(rng: random.Random, names: list[str]) -> list[Question]:
    """One to six questions about these hosts, or about any two."""
    questions = []
    for place in range(rng.randint(1, 6)):
        watched = rng.sample(names, rng.randint(1, min(4, len(names))))
        kind = rng.choices(["hosts", "two", "definitely"], [6, 3, 1])[0]
        about = about_two(rng) if kind == "two" else about_hosts(rng, watched)
        if kind == "definitely":
            about = about_states(rng, watched[:3])
        questions.append(("question %d" % place, *about))
    return questions


def compare(program: Word, rng: random.Random) -> str:
    log, _ = small(rng)
    names = ["a", "b", "c", "d", "e", "f"]
    if log and rng.random() < 0.8:
        names = sorted({event[0] for event in log})
    questions = some_questions(rng, names)
    form, text = asked.form(rng), document(rng, questions)
    # One of them may be asked alone.
    asked_for = questions if rng.random() < 0.8 else [rng.choice(questions)]
    words = ["--question", asked_for[0][0]] if asked_for is not questions else []
    wanted = answers(form, log, asked_for)
    with tempfile.NamedTemporaryFile("w", suffix=".toml") as file:
        file.write(text)
        file.flush()
        got = asked.answer_to(program, ["--form", form, "--questions", file.name, *words], text_of(form, log))
    assert got == wanted, asked.difference([form, text, *words], text_of(form, log), got, wanted)
    return "status %d" % wanted.status
