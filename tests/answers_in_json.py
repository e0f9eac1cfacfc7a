"""What `wcptrace --json` writes, from the answer in lines."""
import json
import pathlib
import re
from typing import Any

from programs import Answer, ask

Json = dict[str, Any]


def members(lines: list[str]) -> list[Json]:
    """The members of a moment, of their lines."""
    cut = [line.split(" ", 3) for line in lines]
    return [{"host": host, "line": int(number), "event": text} for host, _, number, text in cut]


def runs(lines: list[str]) -> list[Json]:
    """The runs of hosts, of their lines."""
    told = []
    for line in lines:
        cut = re.fullmatch(r"(\S+) lines? (\d+) (?:on|to (\d+)) (.*)", line)
        assert cut, line
        host, begin, over, text = cut.groups()
        told.append({"host": host, "line": int(begin), **({"over": int(over)} if over else {}), "event": text})
    return told


def counts(lines: list[str]) -> list[Json]:
    """The counts of hosts, of their lines."""
    cut = [line.split(" ") for line in lines]
    return [{"host": host, "events": int(events), "matched": int(matched)} for host, _, events, _, matched in cut]


def waits(lines: list[str]) -> Json:
    """The line that waits, the id for which it waits, and how many lines wait, of the lines of an answer."""
    _, number, _, _, name = lines[0].split(" ", 4)
    return {"line": int(number), "id": name, "waiting": int(lines[1].removeprefix("lines that wait: "))}


def apart(lines: list[str]) -> tuple[list[str], list[str]]:
    """The lines of an answer, and the sentences that say why it stands."""
    for place, line in enumerate(lines):
        if line.startswith("why:"):
            first = line.removeprefix("why:").removeprefix(" ")
            return lines[:place], [*([first] if first else []), *lines[place + 1:]]
    return lines, []


def objects(output: str) -> list[Json]:
    """What the JSON of this answer is, line by line: an answer begins with its word, behind a name or not."""
    answers: list[tuple[Json, list[str]]] = []
    for line in output.splitlines():
        name, mark, word = line.rpartition(": ")
        if line.startswith("moments "):
            answers.append(({"moments": int(line.split(" ")[1])}, []))
        elif word in ("found", "none", "unknown", "definitely", "possibly"):
            answers.append(({**({"question": name} if mark else {}), "answer": word}, []))
        else:
            answers[-1][1].append(line)
    for answer, text in answers:
        lines, why = apart(text)
        if answer.get("answer") in ("found", "possibly"):
            answer["moment"] = members(lines)
        elif answer.get("answer") == "definitely":
            answer["runs"] = runs(lines)
        elif answer.get("answer") == "unknown":
            answer.update(waits(lines))
        elif "answer" in answer:
            answer["hosts"] = counts(lines)
        if why:
            answer["why"] = "".join(f"{sentence}\n" for sentence in why)
    return [answer for answer, _ in answers]


def open_ends(errors: str) -> dict[str, list[str]]:
    """The member with the ends of states of which standard error says that no event matches, or has so far."""
    found = {
        "unmatched": re.findall(r"^wcptrace: (.*) matches no event$", errors, re.M),
        "unmatched_so_far": re.findall(r"^wcptrace: (.*) matches none of the first \d+ events$", errors, re.M),
    }
    return {name: ends for name, ends in found.items() if ends}


def says(file: pathlib.Path, words: list[str], log: str, answer: Answer) -> None:
    """Sees that `--json` says this answer: the same status and errors, and a line for each part of it."""
    status, output, errors = ask(file, ["--json", *words], log)
    wanted = objects(answer.output)
    if ends := open_ends(answer.errors):
        if "--questions" in words:
            wanted.append(ends)
        else:
            wanted[-1].update(ends)
    said = status, [json.loads(line) for line in output.splitlines()], errors
    assert said == (answer.status, wanted, answer.errors), f"{said} and not {wanted}"
