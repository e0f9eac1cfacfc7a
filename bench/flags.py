#!/usr/bin/env python3
"""Compares the answers of a built `wcpwatch` under both flags: flags.py PROGRAM [FOLDER] [TEXTS]

Each workload that stands in FOLDER, under any name, rings of a few sizes and so many random texts (1,000 where it isn't
said) are asked with and without the head line `flag send`. The first line of the report must be the same; the line
printed last counts the texts and the snapshots of both.
"""
import os
import random
import subprocess
import sys
from collections.abc import Iterator

HEAD = ("wcp ", "procs ", "cap ", "hold ", "relay ", "attach ", "watch ", "flag ")


def report(program: str, text: str) -> tuple[int, list[str]]:
    answer = subprocess.run([program, "single"], input=text.encode("latin-1"), capture_output=True)
    return answer.returncode, answer.stdout.decode().splitlines()


def under(flag: str, text: str) -> str:
    """The text with this flag in its head, where it has a head."""
    lines = [line for line in text.splitlines(keepends=True) if not line.startswith("flag ")]
    head = next((at for at, line in enumerate(lines) if not line.startswith(HEAD)), len(lines))
    return "".join(lines[:head] + ["flag send\n"] * (flag == "send") + lines[head:])


def stored(folder: str) -> Iterator[str]:
    for place, _, names in os.walk(folder):
        for name in sorted(names):
            with open(os.path.join(place, name), encoding="latin-1") as file:
                text = file.read()
            if text.startswith("wcp 1\n"):
                yield text


def ring(procs: int, rounds: int) -> str:
    folder = os.path.dirname(os.path.abspath(__file__))
    words = [sys.executable, os.path.join(folder, "ring.py"), str(procs), str(rounds)]
    return subprocess.run(words, capture_output=True, text=True, check=True).stdout


def any_workload(rng: random.Random) -> str:
    """A workload that can be read: each receive comes after its send."""
    procs = rng.randint(1, 5)
    lines = ["wcp 1", "procs %d" % procs]
    sent: list[tuple[int, int]] = []
    if rng.random() < 0.3:
        watched = sorted(rng.sample(range(procs), rng.randint(1, procs)))
        lines.append("watch " + " ".join(map(str, watched)))
    sends = rng.choice([0.1, 0.2, 0.4])
    for _ in range(rng.randint(0, 40)):
        p, kind = rng.randrange(procs), rng.random()
        waiting = [at for at, (_, to) in enumerate(sent) if to == p]
        if kind < sends and procs > 1:
            to = rng.choice([q for q in range(procs) if q != p])
            sent.append((p, to))
            lines.append("p %d send %d" % (p, to))
        elif kind < 0.5 and waiting:
            lines.append("p %d recv %d" % (p, sent.pop(rng.choice(waiting))[0]))
        else:
            lines.append("p %d %s" % (p, rng.choice(["true", "false"])))
    return "\n".join(lines) + "\n"


def main() -> None:
    program = os.path.abspath(sys.argv[1])
    folder = sys.argv[2] if len(sys.argv) > 2 else None
    texts = int(sys.argv[3]) if len(sys.argv) > 3 else 1000
    rng = random.Random(1994)
    workloads = list(stored(folder)) if folder else []
    workloads += [ring(procs, rounds) for procs, rounds in [(2, 1), (3, 2), (4, 100), (8, 300), (16, 1000)]]
    workloads += [any_workload(rng) for _ in range(texts)]
    asked, differ, emitted = 0, 0, [0, 0]
    answers: dict[str, int] = {}
    for text in workloads:
        status, each = report(program, under("event", text))
        if status == 2:
            continue
        also, sends = report(program, under("send", text))
        asked += 1
        answers[each[0].split()[0]] = answers.get(each[0].split()[0], 0) + 1
        if (status, each[0]) != (also, sends[0]):
            differ += 1
            print("differ: %s and %s, of\n%s" % (each[0], sends[0], text))
        for at, lines in enumerate([each, sends]):
            emitted[at] += int(lines[-1].split()[2])
    kinds = ", ".join("%s %d" % kind for kind in sorted(answers.items()))
    print(f"{asked} texts ({kinds}), {differ} differ; {emitted[0]} snapshots and {emitted[1]}")
    sys.exit(1 if differ else 0)


main()
