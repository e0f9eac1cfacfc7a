#!/usr/bin/env python3
"""How much slower threads get that are watched, by each program of `bench_calls watch`, as a table.

bench/watch.py [--cores N] [--busy] [--messages N] [--runs N] [--program NAME].. BENCH_CALLS

BENCH_CALLS is the built program, such as crates/bench_calls/out/bench_calls. It runs on the first N cores (all, where
it isn't said), by `taskset`; with --busy each of them has a busy program of its own beside it. A program sends about so
many messages (10,000), and runs so many times each way (11), in turn. A row is a program with so much work at each
message; the columns are the time of a message unwatched, and then the ratios of the watched program to the other: of
wall time and of processor time, where the condition holds at each message, at one of ten, and never."""
import argparse
import contextlib
import os
import re
import subprocess
import sys
from collections.abc import Iterable, Iterator

PROGRAMS = ["ping-pong", "pipeline", "ring", "pool"]
MICROSECONDS = [0, 1, 10, 100]
EVERY = {1: "each", 10: "one of ten", 0: "none"}
# A run that takes longer has hung.
SECONDS = 600
BUSY = [sys.executable, "-c", "while True: pass"]


@contextlib.contextmanager
def busy(cores: Iterable[int]) -> Iterator[None]:
    """A busy program on each of these cores, for as long as this is open."""
    running = [subprocess.Popen(["taskset", "-c", str(core), *BUSY]) for core in cores]
    try:
        yield
    finally:
        for program in running:
            program.kill()
            program.wait()


def rows_of(text: str) -> dict[str, list[float]]:
    """The rows of the table that a run printed, by their names, as numbers."""
    rows = {}
    for line in text.splitlines():
        cells = [cell.strip() for cell in line.strip("|").split("|")]
        if cells[0] in ("plain", "watched", "ratio"):
            rows[cells[0]] = [float(cell.removesuffix(" ms")) for cell in cells[1:]]
    return rows


def measured(asked: argparse.Namespace, cores: list[int], program: str, microseconds: int,
             every: int) -> tuple[float, list[float]]:
    """The time of a message unwatched in microseconds, and the ratios of wall time and of processor time."""
    words = [program, asked.messages, microseconds, every, asked.runs]
    call = ["taskset", "-c", ",".join(map(str, cores)), asked.file, "watch", *map(str, words)]
    ran = subprocess.run(call, capture_output=True, text=True, timeout=SECONDS, check=True)
    if not re.match(rf"{asked.runs} of {asked.runs} runs agree", ran.stdout):
        sys.exit(f"{' '.join(call)}: {ran.stdout}")
    rows = rows_of(ran.stderr)
    return 1000 * rows["plain"][0] / asked.messages, rows["ratio"]


def row(asked: argparse.Namespace, cores: list[int], program: str, microseconds: int) -> str:
    each = [measured(asked, cores, program, microseconds, every) for every in EVERY]
    plain = min(time for time, _ in each)
    ratios = " | ".join(f"{ratio:.2f}" for _, pair in each for ratio in pair)
    return f"| {program} | {microseconds} µs | {plain:.1f} µs | {ratios} |"


def main() -> None:
    parser = argparse.ArgumentParser()
    parser.add_argument("--cores", type=int)
    parser.add_argument("--busy", action="store_true")
    parser.add_argument("--messages", type=int, default=10_000)
    parser.add_argument("--runs", type=int, default=11)
    parser.add_argument("--program", action="append", choices=PROGRAMS)
    parser.add_argument("file", metavar="BENCH_CALLS", type=lambda file: os.path.abspath(file))
    asked = parser.parse_args()
    cores = sorted(os.sched_getaffinity(0))[: asked.cores]
    heads = [f"{name}: {time}" for name in EVERY.values() for time in ("wall", "processor")]
    print(f"| Program | work | plain, a message | {' | '.join(heads)} |")
    print("|" + "---|" * (3 + len(heads)))
    with busy(cores) if asked.busy else contextlib.nullcontext():
        for program in asked.program or PROGRAMS:
            for microseconds in MICROSECONDS:
                print(row(asked, cores, program, microseconds), flush=True)


if __name__ == "__main__":
    main()
