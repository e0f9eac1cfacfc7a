"""What `wcpwatch` says of texts that have a fault: the first one of each, by the rules of docs/text-format.md."""
import pathlib
from dataclasses import dataclass

import pytest
from programs import Answer, ask


@dataclass(frozen=True)
class Fault:
    """Lines behind a head, with the line of the first fault of the whole text, and its kind."""

    lines: bytes
    line: int
    kind: str


# The words that read a text as a workload and as a schedule.
WORKLOAD = "single"
SCHEDULE = "replay"

ONE_PROCESS = b"wcp 1\nprocs 1\n"
TWO_PROCESSES = b"wcp 1\nprocs 2\n"

# The most steps that a text may have.
MOST_STEPS = 65_536

# Texts whose first two lines have a fault.
OPENINGS = [
    Fault(b"", 1, "header"),
    Fault(b"\n", 1, "header"),
    Fault(b"wcp 1", 1, "header"),
    Fault(b"wcp 2\nprocs 2\n", 1, "header"),
    Fault(b"wcp 1\r\nprocs 2\n", 1, "header"),
    Fault(b"wcp\t1\nprocs 2\n", 1, "header"),
    Fault(b"wcp  1\nprocs 2\n", 1, "header"),
    Fault(b" wcp 1\nprocs 2\n", 1, "header"),
    Fault(b"wcp 1 \nprocs 2\n", 1, "header"),
    Fault(b"\nwcp 1\nprocs 2\n", 1, "header"),
    Fault(b"wcp 1\n", 2, "header"),
    Fault(b"wcp 1\n\nprocs 2\n", 2, "header"),
    Fault(b"wcp 1\nprocs 2", 2, "header"),
    Fault(b"wcp 1\nprocs\n", 2, "header"),
    Fault(b"wcp 1\nprocs 2 \n", 2, "header"),
    Fault(b"wcp 1\nproc 2\n", 2, "header"),
    Fault(b"wcp 1\nprocs 2\x003\nprocs 2\n", 2, "number"),
    Fault(b"wcp 1\nprocs \n", 2, "number"),
    Fault(b"wcp 1\nprocs 2\r\n", 2, "number"),
    Fault(b"wcp 1\nprocs 02\n", 2, "number"),
    Fault(b"wcp 1\nprocs +1\n", 2, "number"),
    Fault(b"wcp 1\nprocs \xb2\n", 2, "number"),
    Fault(b"wcp 1\nprocs 4294967296\n", 2, "number"),
    Fault(b"wcp 1\nprocs 100000000000000000000000000002\n", 2, "number"),
    Fault(b"wcp 1\nprocs 4294967295\n", 2, "plan"),
    Fault(b"wcp 1\nprocs 17\n", 2, "plan"),
    Fault(b"wcp 1\nprocs 0\n", 2, "plan"),
]

# Fifteen relays under the root.
RELAYS = b"".join(b"relay %d root\n" % relay for relay in range(15))


def chain(relays: int) -> bytes:
    """So many relays in a chain, the last of which serves both processes."""
    inner = b"".join(b"relay %d %d\n" % (relay, relay - 1) for relay in range(1, relays))
    return b"relay 0 root\n" + inner + b"attach 0 %d\nattach 1 %d\n" % (relays - 1, relays - 1)


# Lines behind the first two of a text of two processes.
HEADS = [
    # the capacities
    Fault(b"cap 8", 3, "line"),
    Fault(b"cap\n", 3, "line"),
    Fault(b"cap 8 \n", 3, "line"),
    Fault(b"cap  8\n", 3, "line"),
    Fault(b"Cap 8\n", 3, "line"),
    Fault(b"cap \n", 3, "number"),
    Fault(b"cap 08\n", 3, "number"),
    Fault(b"cap 4294967296\n", 3, "number"),
    Fault(b"cap 4294967295\n", 3, "plan"),
    Fault(b"cap 1025\n", 3, "plan"),
    Fault(b"cap 0\n", 3, "plan"),
    Fault(b"hold x\n", 3, "number"),
    Fault(b"hold 65\n", 3, "plan"),
    Fault(b"hold 0\n", 3, "plan"),
    # their order, which is judged before their numbers
    Fault(b"hold 4\ncap 8\n", 4, "line"),
    Fault(b"cap 8\ncap x\n", 4, "line"),
    Fault(b"hold 4\nhold 65\n", 4, "line"),
    Fault(b"relay 0 root\ncap 8\n", 4, "line"),
    Fault(b"relay 0 root\nhold 4\n", 4, "line"),
    Fault(b"relay 0 root\nattach 0 0\nhold 4\n", 5, "line"),
    # relays
    Fault(b"relay 0\n", 3, "line"),
    Fault(b"relay 0 root 0\n", 3, "line"),
    Fault(b"relay 0 root", 3, "line"),
    Fault(b"relay 0 \n", 3, "number"),
    Fault(b"relay 0 Root\n", 3, "number"),
    Fault(b"relay 00 root\n", 3, "number"),
    Fault(b"relay x root\n", 3, "number"),
    Fault(b"relay 1 root\n", 3, "line"),
    Fault(b"relay 1 x\n", 3, "number"),
    Fault(b"relay 15 root\n", 3, "line"),
    Fault(b"relay 0 root\nrelay 0 root\n", 4, "line"),
    Fault(b"relay 0 root\nrelay 2 5\n", 4, "line"),
    Fault(b"relay 0 0\n", 3, "plan"),
    Fault(b"relay 0 root\nrelay 1 1\n", 4, "plan"),
    Fault(b"relay 0 root\nrelay 1 4294967295\n", 4, "plan"),
    Fault(b"relay 0 root\nattach 0 0\nrelay 1 root\n", 5, "line"),
    # attachments
    Fault(b"attach 0 0\n", 3, "line"),
    Fault(b"cap 8\nattach x 0\n", 4, "line"),
    Fault(b"relay 0 root\nattach 0\n", 4, "line"),
    Fault(b"relay 0 root\nattach 0 0 0\n", 4, "line"),
    Fault(b"relay 0 root\nattach x 0\n", 4, "number"),
    Fault(b"relay 0 root\nattach 0 root\n", 4, "number"),
    Fault(b"relay 0 root\nattach 2 0\n", 4, "process"),
    Fault(b"relay 0 root\nattach 2 x\n", 4, "number"),
    Fault(b"relay 0 root\nattach 0 0\nattach 0 0\n", 5, "line"),
    Fault(b"relay 0 root\nattach 1 0\nattach 0 0\n", 5, "line"),
    Fault(b"relay 0 root\nattach 1 0\nattach 2 0\n", 5, "process"),
    # whom is watched
    Fault(b"watch\n", 3, "line"),
    Fault(b"watch 0", 3, "line"),
    Fault(b"Watch 0\n", 3, "line"),
    Fault(b"watch \n", 3, "number"),
    Fault(b"watch x\n", 3, "number"),
    Fault(b"watch 0 \n", 3, "number"),
    Fault(b"watch 1 0 x\n", 3, "number"),
    Fault(b"watch 0 0\n", 3, "line"),
    Fault(b"watch 2 1\n", 3, "line"),
    Fault(b"watch 2\n", 3, "process"),
    Fault(b"watch 0 1 2 3 4 5 6 7 8 9 10 11 12 13 14 15 16\n", 3, "process"),
    Fault(b"watch 0\nwatch x\n", 4, "line"),
    Fault(b"watch 0\ncap x\n", 4, "line"),
    Fault(b"watch 0\nrelay 0 root\n", 4, "line"),
    Fault(b"relay 0 root\nwatch 0\nattach 0 0\n", 5, "line"),
    # what resets the flag
    Fault(b"flag\n", 3, "line"),
    Fault(b"flag send", 3, "line"),
    Fault(b"flag event\n", 3, "line"),
    Fault(b"flag sends\n", 3, "line"),
    Fault(b"flag send \n", 3, "line"),
    Fault(b"flag send send\n", 3, "line"),
    Fault(b"flag send\nflag send\n", 4, "line"),
    Fault(b"flag send\nwatch 0\n", 4, "line"),
    Fault(b"flag send\ncap x\n", 4, "line"),
    Fault(b"watch 0\nflag send\nwatch 1\n", 5, "line"),
    # the plan as a whole, at the end of the text
    Fault(b"relay 0 root\n", 3, "plan"),
    Fault(b"relay 0 root\nattach 0 0\n", 4, "plan"),
    Fault(b"relay 0 root\nattach 0 0\nattach 1 1\n", 5, "plan"),
    Fault(b"relay 0 root\nrelay 1 root\nattach 0 0\nattach 1 0\n", 6, "plan"),
    Fault(b"relay 0 root\nrelay 1 0\nattach 0 0\nattach 1 1\n", 6, "plan"),
    Fault(chain(9), 13, "plan"),
    Fault(RELAYS, 17, "plan"),
    # a line that no head and no step has
    Fault(b"\n", 3, "line"),
    Fault(b"procs 2\n", 3, "line"),
    Fault(b"cap 8\n\n", 4, "line"),
    Fault(b"relay 0 root\nattach 0 0\nmaybe\n", 5, "line"),
]

# Lines behind fifteen relays.
SIXTEENTH_RELAY = [
    Fault(b"relay 15 root\n", 18, "plan"),
    Fault(b"relay 15 x\n", 18, "number"),
    Fault(b"relay 16 root\n", 18, "line"),
]

# Lines of which one begins with a step word of a workload.
BEFORE_TASKS = [
    Fault(b"relay 0 root\nattach 0 0\np 0 true\n", 4, "plan"),
    Fault(b"relay 0 root\nattach 0 0\np x maybe\n", 4, "plan"),
    Fault(b"relay 0 root\nattach 0 0\np", 4, "plan"),
    Fault(b"relay 0 root\nattach 0 0\np 1 2 3 4 5\n", 4, "plan"),
    Fault(b"relay 0 root\nattach 0 0\ncheck\n", 5, "line"),
    Fault(b"relay 0 root\nattach 0 0\npp 0 true\n", 5, "line"),
    Fault(b"relay 0 root\nattach 0 0\nattach 1 0\np x true\n", 6, "number"),
    Fault(b"p 0 true\nhold 4\n", 4, "line"),
    Fault(b"cap 8\np 0 true\nhold 65\n", 5, "line"),
]

# Lines of which one begins with a step word of a schedule.
BEFORE_STEPS = [
    Fault(b"relay 0 root\nattach 0 0\ncheck\n", 4, "plan"),
    Fault(b"relay 0 root\nattach 0 0\nobserve x maybe\n", 4, "plan"),
    Fault(b"relay 0 root\nattach 0 0\npull", 4, "plan"),
    Fault(b"relay 0 root\nattach 0 0\nput 1 2 3 4 5\n", 4, "plan"),
    Fault(b"relay 0 root\nattach 0 0\np 0 true\n", 5, "line"),
    Fault(b"check\nhold 4\n", 4, "line"),
    Fault(b"cap 8\ncheck\nrelay 0 root\n", 5, "line"),
]

# Lines of workloads of two processes.
TASKS = [
    # the form of a step line
    Fault(b"p 0 true", 3, "line"),
    Fault(b"\n", 3, "line"),
    Fault(b"p 0 true\n\n", 4, "line"),
    Fault(b"p 0 true\r\n", 3, "line"),
    Fault(b"p\t0 true\n", 3, "line"),
    Fault(b"p  0 true\n", 3, "line"),
    Fault(b" p 0 true\n", 3, "line"),
    Fault(b"p 0 true \n", 3, "line"),
    Fault(b"\x00\n", 3, "line"),
    Fault(b"p\xff 0 true\n", 3, "line"),
    Fault(b"P 0 true\n", 3, "line"),
    Fault(b"observe 0 true\n", 3, "line"),
    Fault(b"p\n", 3, "line"),
    Fault(b"p 0\n", 3, "line"),
    Fault(b"p 0 send\n", 3, "line"),
    Fault(b"p 0 maybe\n", 3, "line"),
    Fault(b"p 0 true 1\n", 3, "line"),
    Fault(b"p 0 true 1 1 1\n", 3, "line"),
    Fault(b"p 0 send 1 1\n", 3, "line"),
    # its form before its numbers, these before its processes, and the first line first
    Fault(b"p x maybe\n", 3, "line"),
    Fault(b"p x true", 3, "line"),
    Fault(b"p x true\n", 3, "number"),
    Fault(b"p  true\n", 3, "number"),
    Fault(b"p 00 true\n", 3, "number"),
    Fault(b"p 4294967296 true\n", 3, "number"),
    Fault(b"p 0 send \n", 3, "number"),
    Fault(b"p 0 send 01\n", 3, "number"),
    Fault(b"p 0 recv -1\n", 3, "number"),
    Fault(b"p 2 recv x\n", 3, "number"),
    Fault(b"p 2 true\n", 3, "process"),
    Fault(b"p 4294967295 true\n", 3, "process"),
    Fault(b"p 0 send 0\n", 3, "process"),
    Fault(b"p 0 send 2\n", 3, "process"),
    Fault(b"p 1 recv 1\n", 3, "process"),
    Fault(b"p 1 recv 2\n", 3, "process"),
    Fault(b"p 2 true\nmaybe\n", 3, "process"),
    # receives that wait for a send that never comes, and one for which there is no room
    Fault(b"p 0 recv 1\np 1 recv 0\n", 3, "stuck"),
    Fault(b"p 1 send 0\np 0 recv 1\np 0 recv 1\n", 5, "stuck"),
    Fault(b"cap 1\nhold 1\np 0 true\np 0 recv 1\n", 6, "stuck"),
]

# A line of a head after a step of one process.
HEAD_AFTER_TASK = [
    Fault(b"p 0 true\ncap 8\n", 4, "line"),
]

# Lines of schedules of two processes.
STEPS = [
    Fault(b"check", 3, "line"),
    Fault(b"check \n", 3, "line"),
    Fault(b" check\n", 3, "line"),
    Fault(b"check 0\n", 3, "line"),
    Fault(b"CHECK\n", 3, "line"),
    Fault(b"p 0 true\n", 3, "line"),
    Fault(b"observe 0 maybe\n", 3, "line"),
    Fault(b"observe x maybe\n", 3, "line"),
    Fault(b"observe 0 true 1\n", 3, "line"),
    Fault(b"observe 0\n", 3, "line"),
    Fault(b"observe x true\n", 3, "number"),
    Fault(b"observe  false\n", 3, "number"),
    Fault(b"send 0\n", 3, "line"),
    Fault(b"send 0 1 1\n", 3, "line"),
    Fault(b"send 0 \n", 3, "number"),
    Fault(b"send x 1\n", 3, "number"),
    Fault(b"recv 0\n", 3, "line"),
    Fault(b"recv 0 00\n", 3, "number"),
    Fault(b"recv 0 4294967296\n", 3, "number"),
    Fault(b"close\n", 3, "line"),
    Fault(b"close 0 0\n", 3, "line"),
    Fault(b"close x\n", 3, "number"),
    Fault(b"drop 0 0\n", 3, "line"),
    Fault(b"drop x\n", 3, "number"),
    Fault(b"put \n", 3, "number"),
    Fault(b"put  0\n", 3, "line"),
    Fault(b"admit 0\n", 3, "line"),
    Fault(b"admit 0 x\n", 3, "number"),
    Fault(b"pull -1\n", 3, "number"),
    Fault(b"pass 01\n", 3, "number"),
    Fault(b"pass\n", 3, "line"),
    Fault(b"check\n\n", 4, "line"),
    Fault(b"check\ncap 8\n", 4, "line"),
    Fault(b"put 9\nput x\n", 4, "number"),
]

# Lines after as many steps of a workload as a text may have.
TASKS_BEYOND = [
    Fault(b"p 0 true\n", 65_539, "toolong"),
    Fault(b"p 0 true", 65_539, "line"),
    Fault(b"cap 8\n", 65_539, "line"),
    Fault(b"p x true\n", 65_539, "number"),
    Fault(b"p 1 true\n", 65_539, "process"),
]

# Lines after as many steps of a schedule.
STEPS_BEYOND = [
    Fault(b"check\n", 65_539, "toolong"),
    Fault(b"pull x\n", 65_539, "number"),
]

# The word that reads a text, the head before each line, and the lines.
TABLES = {
    "openings": ([WORKLOAD, SCHEDULE], b"", OPENINGS),
    "heads": ([WORKLOAD, SCHEDULE], TWO_PROCESSES, HEADS),
    "a sixteenth relay": ([WORKLOAD, SCHEDULE], TWO_PROCESSES + RELAYS, SIXTEENTH_RELAY),
    "before tasks": ([WORKLOAD], TWO_PROCESSES, BEFORE_TASKS),
    "before steps": ([SCHEDULE], TWO_PROCESSES, BEFORE_STEPS),
    "tasks": ([WORKLOAD], TWO_PROCESSES, TASKS),
    "a head after a task": ([WORKLOAD], ONE_PROCESS, HEAD_AFTER_TASK),
    "steps": ([SCHEDULE], TWO_PROCESSES, STEPS),
    "a task too many": ([WORKLOAD], ONE_PROCESS + b"p 0 true\n" * MOST_STEPS, TASKS_BEYOND),
    "a step too many": ([SCHEDULE], ONE_PROCESS + b"check\n" * MOST_STEPS, STEPS_BEYOND),
}
ROWS = [(f"{table}, {word}, {row.lines!r}"[:100], word, head, row)
        for table, (words, head, rows) in TABLES.items() for word in words for row in rows]


@pytest.mark.parametrize("word, head, row", [row for _, *row in ROWS], ids=[name for name, *_ in ROWS])
def test_names_the_first_fault(wcpwatch: pathlib.Path, word: str, head: bytes, row: Fault) -> None:
    assert ask(wcpwatch, [word], head + row.lines) == Answer(2, "", f"wcpwatch: line {row.line}: {row.kind}\n")
