"""What `wcpwatch` answers to texts that have no fault, by the rules of docs/text-format.md."""
import pathlib
from dataclasses import dataclass

import pytest
from programs import Answer, ask
from test_text_faults import MOST_STEPS, ONE_PROCESS, RELAYS, SCHEDULE, TWO_PROCESSES, WORKLOAD, chain

# Of each process, how many snapshots were emitted and taken.
Tallies = list[tuple[int, int]]

# The steps of a schedule, each with its reply.
Steps = list[tuple[str, str]]


@dataclass(frozen=True)
class Outcome:
    """What was found, and how many snapshots of each process were emitted and taken."""

    report: str
    tallies: Tallies

    def answer(self, replies: str = "") -> Answer:
        """The answer of the program, with these replies to the steps of a schedule."""
        lines = [f"process {p} emitted {emitted} taken {taken}" for p, (emitted, taken) in enumerate(self.tallies)]
        emitted, taken = (sum(counts) for counts in zip(*self.tallies))
        text = "\n".join([self.report, *lines, f"total emitted {emitted} taken {taken}", ""])
        return Answer(0 if self.report.startswith("found") else 1, replies + text)


# Process 1 receives before its first step is told of process 0, and is never true.
EACH_TASK = TWO_PROCESSES + b"p 1 recv 0\np 0 true\np 0 send 1\np 1 false\n"

# A leaf for each of three processes, of which two are watched, and a relay above the leaves.
TREE = b"""wcp 1
procs 3
cap 1024
hold 1
relay 0 root
relay 1 0
relay 2 0
relay 3 0
attach 0 1
attach 1 2
attach 2 3
watch 0 2
flag send
p 0 true
p 0 send 2
p 2 recv 0
p 1 false
"""

# A head that says all that a head can say: process 1 alone is watched, and its sends alone reset its flag.
WHOLE = TWO_PROCESSES + b"""cap 1024
hold 64
relay 0 root
relay 1 0
relay 2 0
attach 0 2
attach 1 1
watch 1
flag send
"""

# Both processes are true; process 1 receives, is true again, sends, and is true again.
TRUE_AGAIN = b"p 0 true\np 0 send 1\np 1 true\np 1 recv 0\np 1 true\np 1 send 0\np 1 true\n"

SIXTEEN = b"wcp 1\nprocs 16\n"
ATTACHED = b"".join(b"attach %d %d\n" % (p, min(p, 14)) for p in range(16))

# Workloads without a fault. A process has an interval more with each send and receive.
WORKLOADS = {
    "each task": (EACH_TASK, Outcome("none", [(1, 1), (0, 0)])),
    "a tree": (TREE, Outcome("none", [(1, 1), (0, 0), (0, 0)])),
    "a whole head": (WHOLE + TRUE_AGAIN, Outcome("found - 0", [(0, 0), (2, 2)])),
    "no whole head": (TWO_PROCESSES + TRUE_AGAIN, Outcome("found 0 0", [(1, 1), (3, 3)])),
    "nothing of relays": (TWO_PROCESSES + b"hold 1\np 0 true\n", Outcome("none", [(1, 1), (0, 0)])),
    "most steps": (ONE_PROCESS + b"p 0 true\n" * MOST_STEPS, Outcome("found 0", [(1, 1)])),
    "most processes": (SIXTEEN, Outcome("none", [(0, 0)] * 16)),
    "most relays": (SIXTEEN + RELAYS + ATTACHED, Outcome("none", [(0, 0)] * 16)),
    "the longest chain": (TWO_PROCESSES + chain(8), Outcome("none", [(0, 0)] * 2)),
}


@pytest.mark.parametrize("text, outcome", WORKLOADS.values(), ids=WORKLOADS)
def test_workload(wcpwatch: pathlib.Path, text: bytes, outcome: Outcome) -> None:
    assert ask(wcpwatch, [WORKLOAD], text) == outcome.answer()


# The steps of a schedule of one process, with numbers that no plan has.
EACH_STEP = [
    ("observe 0 true", "done"),
    ("observe 7 false", "refused nosuch"),
    ("send 0 0", "refused nosuch"),
    ("recv 4294967295 4294967295", "refused nosuch"),
    ("close 4294967295", "refused nosuch"),
    ("drop 0", "done"),
    ("put 1", "refused nosuch"),
    ("admit 15 16", "refused nosuch"),
    ("pull 15", "refused nosuch"),
    ("pass 0", "refused empty"),
    ("check", "refused empty"),
]

# Under a whole head: what serves whom, and the way of the one snapshot that is emitted.
BY_TWO_LEAVES = [
    ("admit 0 0", "refused nosuch"),
    ("admit 0 1", "refused nosuch"),
    ("admit 1 0", "refused nosuch"),
    ("admit 2 0", "refused empty"),
    ("admit 2 1", "refused nosuch"),
    ("pull 0", "refused empty"),
    ("pull 1", "refused nosuch"),
    ("pull 2", "refused nosuch"),
    ("pass 2", "refused empty"),
    ("pass 3", "refused nosuch"),
    ("observe 0 true", "done"),
    ("put 0", "refused empty"),
    ("observe 1 true", "done"),
    ("put 1", "done"),
    ("send 0 1", "done"),
    ("recv 1 0", "done"),
    ("observe 1 true", "done"),
    ("put 1", "refused empty"),
    ("admit 1 1", "done"),
    ("pass 1", "done"),
    ("check", "refused empty"),
    ("pull 0", "done"),
    ("pass 0", "done"),
    ("check", "took 1 snap 0 0 0"),
]

# Where a head says nothing of relays, relay 0 serves both processes.
BY_ONE_RELAY = [
    ("admit 0 0", "refused empty"),
    ("admit 0 1", "refused empty"),
    ("admit 0 2", "refused nosuch"),
    ("admit 1 0", "refused nosuch"),
    ("pull 0", "refused nosuch"),
    ("pass 0", "refused empty"),
    ("pass 1", "refused nosuch"),
]


def filled(cap: int, hold: int) -> Steps:
    """Steps that fill the link of process 0, the hold of relay 0 and the root inbox until there is no room.

    A link and the inbox have room for `cap` items, which are no fewer than the `hold` that the relay has room for."""
    full = "refused full"
    steps = [("observe 0 true", "done"), ("put 0", "done"), ("send 0 1", "done")] * cap
    steps += [("observe 0 true", "done"), ("put 0", full), ("admit 0 0", "done"), ("put 0", "done")]
    steps += [("admit 0 0", "done")] * (hold - 1) + [("admit 0 0", full)]
    steps += [("pass 0", "done"), ("admit 0 0", "done")] * (cap + 1 - hold)
    steps += [("pass 0", "done")] * (hold - 1) + [("pass 0", full)]
    return steps + [("check", "took 0 snap 0 0 0"), ("pass 0", "done"), ("admit 0 0", "refused empty")]


SCHEDULES = {
    "each step": (ONE_PROCESS, EACH_STEP, Outcome("undecided", [(1, 0)])),
    "by two leaves": (WHOLE, BY_TWO_LEAVES, Outcome("found - 0", [(0, 0), (1, 1)])),
    "by one relay": (TWO_PROCESSES, BY_ONE_RELAY, Outcome("undecided", [(0, 0)] * 2)),
    "most steps": (ONE_PROCESS, [("check", "refused empty")] * MOST_STEPS, Outcome("undecided", [(0, 0)])),
}


def replays(file: pathlib.Path, head: bytes, steps: Steps, outcome: Outcome) -> None:
    """Sees that behind this head each of these steps has the reply beside it, and that then there is this outcome."""
    text = head + "".join(step + "\n" for step, _ in steps).encode()
    assert ask(file, [SCHEDULE], text) == outcome.answer("".join(reply + "\n" for _, reply in steps))


@pytest.mark.parametrize("head, steps, outcome", SCHEDULES.values(), ids=SCHEDULES)
def test_schedule(wcpwatch: pathlib.Path, head: bytes, steps: Steps, outcome: Outcome) -> None:
    replays(wcpwatch, head, steps, outcome)


@pytest.mark.parametrize("lines, cap, hold", [
    (b"", 8, 4),
    (b"hold 1\n", 8, 1),
    (b"cap 16\n", 16, 4),
    (b"cap 1\nhold 1\n", 1, 1),
    (b"cap 1024\nhold 64\n", 1024, 64),
])
def test_is_filled(wcpwatch: pathlib.Path, lines: bytes, cap: int, hold: int) -> None:
    """A head with these lines gives a link and an inbox this room, and a hold this one."""
    replays(wcpwatch, TWO_PROCESSES + lines, filled(cap, hold), Outcome("undecided", [(cap + 1, 1), (0, 0)]))


def ring(procs: int, rounds: int, fault: bool) -> str:
    """The text of a ring: each process receives from the one before it, is true, is false, and sends to the next.

    With a fault each process but the first is true and false before."""
    lines = ["wcp 1", f"procs {procs}"]
    for p in range(1, procs) if fault else []:
        lines += [f"p {p} true", f"p {p} false"]
    turns = procs * rounds
    for turn in range(turns):
        p = turn % procs
        lines += [f"p {p} recv {(p - 1) % procs}"] if turn > 0 else []
        lines += [f"p {p} true", f"p {p} false"]
        lines += [f"p {p} send {(p + 1) % procs}"] if turn + 1 < turns else []
    return "\n".join([*lines, ""])


SIZES = pytest.mark.parametrize("procs, rounds", [(2, 1), (3, 2), (16, 1000)])


@SIZES
@pytest.mark.parametrize("fault", [False, True], ids=["", "with a fault"])
def test_prints_the_ring(wcpwatch: pathlib.Path, procs: int, rounds: int, fault: bool) -> None:
    words = ["ring", "--procs", str(procs), "--rounds", str(rounds)] + (["--fault"] if fault else [])
    assert ask(wcpwatch, words) == Answer(0, ring(procs, rounds, fault))


@SIZES
def test_ring_has_no_moment(wcpwatch: pathlib.Path, procs: int, rounds: int) -> None:
    answer = Outcome("none", [(rounds, rounds)] * procs).answer()
    assert ask(wcpwatch, [WORKLOAD], ring(procs, rounds, False)) == answer


@SIZES
def test_ring_with_a_fault_has_one(wcpwatch: pathlib.Path, procs: int, rounds: int) -> None:
    tallies = [(rounds, rounds)] + [(rounds + 1, rounds + 1)] * (procs - 1)
    answer = Outcome("found" + " 0" * procs, tallies).answer()
    assert ask(wcpwatch, [WORKLOAD], ring(procs, rounds, True)) == answer
