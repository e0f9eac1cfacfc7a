"""A mesh of workers in a storm: workers, collector and server are killed, stopped and cut off; the server loses what it
acknowledged, fails over to a replica and back, is flushed, or has other data behind its address; keys are evicted. The
report is what brute force says of the steps that are durably done, or there is a refusal, by a name that what was done
allows: never a wrong answer.

`storm.py [--seed SEED] [--runs RUNS] [--disturbances COUNT] [--kinds KIND,KIND..]`. The kinds are lost, failover,
failback, flush, swap and evict; `none` has only what comes in each run. The long form, about half an hour:
`storm.py --seed 1 --runs 30 --disturbances 40`. It prints a line a run, and at the end the count.
"""

from __future__ import annotations

import argparse
import collections
import random
import signal
import sys
import tempfile
import time
import traceback
from dataclasses import dataclass
from typing import Counter

from disturbances import COMMON, OF_WORKERS, REFUSALS, REPLACING, Disturbance, evict
from mesh_run import Run
from oracle import History, Impossible

# The first ones are those of a short form.
KINDS = ["failback", "flush", "evict", "lost", "failover", "swap", "none"]
# So much is done between two disturbances, unless it takes too long.
STEPS, STEPS_SECONDS = 20, 2
# A collector that isn't stopped has seen within so long that the data were replaced.
LATE_SECONDS = 10
# Nobody comes any further once nothing was done for so long; after an eviction that may be.
HUNG_SECONDS, SILENT_SECONDS = 200, 8
# A run has hung, wherever that is, after so long and so much more for each disturbance.
RUN_SECONDS, DISTURBANCE_SECONDS = 600, 15


class Hung(Exception):
    """A run takes too long."""


@dataclass
class Setting:
    """What a run is like."""

    number: int
    seed: int
    kinds: list[str]
    workers: int
    mistaken: set[int]
    lasts: bool
    saves: bool

    @property
    def is_replicated(self) -> bool:
        return bool({"failover", "failback"} & set(self.kinds))

    @property
    def is_replacing(self) -> bool:
        return bool(set(REPLACING) & set(self.kinds))

    @property
    def refusals(self) -> set[str]:
        """The names of the refusals that it may end with."""
        return {name for kind in self.kinds for name in REFUSALS.get(kind, ())}

    def __str__(self) -> str:
        words = ["lasting"] * self.lasts + ["saved"] * self.saves
        return f"run {self.number}, seed {self.seed}, {' '.join([*self.kinds, *words])}, {self.workers} workers"


def setting_of(seed: int, number: int, kinds: list[str]) -> Setting:
    """The setting of a run. In so many runs as there are kinds, each has its turn, and half of the time another comes
    along."""
    lot = random.Random(f"{seed} {number}")
    workers, kind = lot.randrange(3, 6), kinds[number % len(kinds)]
    others = [it for it in kinds if it in REPLACING and it != kind]
    more = [lot.choice(others)] if others and kind != "none" and lot.random() < 0.5 else []
    mistaken = set(lot.sample(range(workers - 1), lot.choice((1, 1, 2))))
    return Setting(number, seed + number, [kind, *more], workers, mistaken, number % 2 == 0, number % 4 >= 2)


def replace(run: Run) -> None:
    """Replaces the data, in one of the ways of the run, once what the collector has said is right."""
    look(run)
    kind = run.random.choice([kind for kind in run.setting.kinds if kind in REPLACING])
    run.done[kind] += 1
    REPLACING[kind](run)
    run.look_after(after_loss=True)
    time.sleep(0.3)
    look(run)


def disturb(run: Run, kinds: dict[Disturbance, int]) -> None:
    """One disturbance of these kinds, which `kinds` says how often to take; a third of them replace the data, where the
    run has such."""
    if run.setting.is_replacing and run.random.random() < 0.33:
        replace(run)
    else:
        kind = run.random.choice([kind for kind, share in kinds.items() for _ in range(share)])
        run.done[kind.__name__.replace("_", " ")] += 1
        kind(run)
    run.go_some_way(STEPS, STEPS_SECONDS)


def look(run: Run) -> None:
    """What the collector has found is right, at the latest when it has seen what was done."""
    end = time.monotonic() + LATE_SECONDS
    while wrong := run.wrongly_found():
        if time.monotonic() > end:
            run.faults.append(f"said too early: {wrong}")
            return
        run.look_after()
        time.sleep(0.2)


def weather(run: Run, count: int) -> None:
    """So many disturbances. Before the last quarter the workers are told to come to an end, and all but one may. In
    half of the runs nothing happens to the collector from then on, so that it tells what it has come to."""
    while not all(run.lengths()[:-1]):
        run.look_after()
        time.sleep(0.05)
    for _ in range(count * 3 // 4):
        disturb(run, COMMON)
    (run.folder / "calm").touch()
    if run.setting.is_replacing:
        replace(run)
    kinds = COMMON if run.random.random() < 0.5 else {kind: COMMON[kind] for kind in OF_WORKERS}
    for _ in range(count - count * 3 // 4):
        disturb(run, kinds)
    if "evict" in run.setting.kinds:
        look(run)
        run.done["evict"] += 1
        evict(run)
    run.go_on(at_once=True)
    (run.folder / "over").touch()


def wait_for_end(run: Run) -> None:
    """Waits until all have closed and the collector has ended; or there is a refusal that may be, or it hangs: nothing
    more was done, or said, for long."""
    is_evicted = "evict" in run.setting.kinds
    latest, since = None, time.monotonic()
    while not (run.is_finished() and run.collector.process.poll() is not None):
        if run.faults or run.refusals:
            return
        state = run.lengths(), run.collector.lines()
        latest, since = state, (since if state == latest else time.monotonic())
        if time.monotonic() - since > (SILENT_SECONDS if is_evicted else HUNG_SECONDS):
            if is_evicted:
                run.refusals.add("silent")
            else:
                run.faults.append(f"hung: {run.ends()}")
        time.sleep(0.1)


def verdict_on(run: Run) -> str:
    """`equal`, the names of refusals, or what is wrong."""
    if run.faults:
        return run.faults[0]
    try:
        wanted = History(run.logs(), run.setting.lasts).report(run.names)
    except Impossible as error:
        return f"impossible: {error}"
    run.done["found"] += sum(line.startswith("found") for line in wanted)
    run.done["none"] += sum(line.startswith("none") for line in wanted)
    told, again = run.report(), run.read_again()
    if told == again == wanted and run.have_closed():
        return "equal"
    # Beside a refusal what was found is right, and `none` is said only where all have closed.
    right = wanted if run.have_closed() else [line for line in wanted if line.startswith("found")]
    wrong = [line for line in [*told, *again] if line.startswith(("found", "none")) and line not in right]
    if wrong or not run.refusals:
        return f"{told} and again {again}, not {wanted}"
    return "refused: " + ", ".join(sorted(run.refusals))


def stop(*_: object) -> None:
    raise Hung()


def where(error: Exception) -> str:
    """The calls in which a run has hung."""
    return " > ".join(f"{it.name}:{it.lineno}" for it in traceback.extract_tb(error.__traceback__)[-6:])


def verdict_of(run: Run, count: int) -> str:
    """The verdict on a run with so many disturbances, within its time."""
    try:
        signal.alarm(RUN_SECONDS + DISTURBANCE_SECONDS * count)
        weather(run, count)
        wait_for_end(run)
        return verdict_on(run)
    except Hung as error:
        return f"hung in {where(error)}: {run.ends()}"
    finally:
        signal.alarm(HUNG_SECONDS)  # what is left to do is to end it


def is_right(setting: Setting, count: int, sums: Counter[str]) -> bool:
    """Whether a run with so many disturbances ends as it may."""
    start = time.monotonic()
    try:
        with tempfile.TemporaryDirectory(prefix="wullaphi-storm-") as folder, Run(setting, folder) as run:
            verdict = verdict_of(run, count)
            said = run.said()
    except Hung as error:
        verdict, said = f"hung as it ended, in {where(error)}", collections.Counter[str]()
    finally:
        signal.alarm(0)
    may_be = verdict == "equal" or (verdict.startswith("refused: ") and run.refusals <= setting.refusals)
    done = ", ".join(f"{kind} {times}" for kind, times in sorted(run.done.items()))
    print(f"{setting}: {verdict[:200]} ({done}; {time.monotonic() - start:.0f} s)", flush=True)
    print(f"    said: {dict(said)}", file=sys.stderr, flush=True)
    sums.update(run.done)
    sums[verdict if may_be else "wrong"] += 1
    return may_be


def main() -> int:
    words = argparse.ArgumentParser(description="A mesh of workers in a storm.")
    words.add_argument("--seed", type=int, default=1)
    words.add_argument("--runs", type=int, default=3)
    words.add_argument("--disturbances", type=int, default=3)
    words.add_argument("--kinds", type=lambda it: it.split(","), default=KINDS)
    asked = words.parse_args()
    signal.signal(signal.SIGTERM, lambda *_: sys.exit(1))  # so that what was started is ended
    signal.signal(signal.SIGALRM, stop)
    sums: Counter[str] = collections.Counter()
    passed = 0
    print(f"seed {asked.seed}, {asked.runs} runs, {asked.disturbances} disturbances each", flush=True)
    for number in range(asked.runs):
        passed += is_right(setting_of(asked.seed, number, asked.kinds), asked.disturbances, sums)
    print("in all: " + ", ".join(f"{what} {times}" for what, times in sorted(sums.items())), flush=True)
    print(f"{passed} passed, {asked.runs - passed} failed", flush=True)
    return 0 if passed == asked.runs > 0 else 1


if __name__ == "__main__":
    sys.exit(main())
