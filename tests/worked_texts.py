"""Worked texts: what `wcpwatch` answers to each. The values were worked out by hand."""
from dataclasses import dataclass

from programs import Answer


def writes(output: str, status: int) -> Answer:
    """The answer of a program that says nothing."""
    return Answer(status, output)


def refused(fault: str) -> Answer:
    """The answer with this fault."""
    return Answer(2, "", f"wcpwatch: {fault}\n")


@dataclass(frozen=True)
class Row:
    """A text, the word of the program that reads it, and what it gives."""

    name: str
    word: str
    text: str
    answer: Answer

    @property
    def readers(self) -> list[str]:
        """The words that read a text of this kind."""
        return ["replay"] if self.word == "replay" else ["single", "run"]


# The workload of a ring of three processes in which each has its turn twice.
THREE_TWICE = (
    "wcp 1\nprocs 3\np 0 true\np 0 false\np 0 send 1\np 1 recv 0\np 1 true\np 1 false\np 1 send 2\np 2 recv 1\n"
    "p 2 true\np 2 false\np 2 send 0\np 0 recv 2\np 0 true\np 0 false\np 0 send 1\np 1 recv 0\np 1 true\n"
    "p 1 false\np 1 send 2\np 2 recv 1\np 2 true\np 2 false\n"
)

ANSWERED = [
    Row(
        "true again after a send",
        "single",
        "wcp 1\nprocs 2\np 0 true\np 0 send 1\np 0 true\np 1 recv 0\np 1 true\n",
        writes("found 1 1\nprocess 0 emitted 2 taken 2\nprocess 1 emitted 1 taken 1\ntotal emitted 3 taken 3\n", 0),
    ),
    Row(
        "the least of two cuts",
        "single",
        "wcp 1\nprocs 2\np 0 true\np 0 send 1\np 0 true\np 1 true\np 1 recv 0\n",
        writes("found 0 0\nprocess 0 emitted 2 taken 2\nprocess 1 emitted 1 taken 1\ntotal emitted 3 taken 3\n", 0),
    ),
    Row(
        "one true state",
        "single",
        "wcp 1\nprocs 1\np 0 true\n",
        writes("found 0\nprocess 0 emitted 1 taken 1\ntotal emitted 1 taken 1\n", 0),
    ),
    Row(
        "two concurrent states",
        "single",
        "wcp 1\nprocs 2\np 0 true\np 1 true\n",
        writes("found 0 0\nprocess 0 emitted 1 taken 1\nprocess 1 emitted 1 taken 1\ntotal emitted 2 taken 2\n", 0),
    ),
    Row(
        "repeats emit once",
        "single",
        "wcp 1\nprocs 2\np 0 true\np 0 true\np 0 true\np 1 true\n",
        writes("found 0 0\nprocess 0 emitted 1 taken 1\nprocess 1 emitted 1 taken 1\ntotal emitted 2 taken 2\n", 0),
    ),
    Row(
        "the only pair is ordered",
        "single",
        "wcp 1\nprocs 2\np 0 true\np 0 send 1\np 1 recv 0\np 1 true\n",
        writes("none\nprocess 0 emitted 1 taken 1\nprocess 1 emitted 1 taken 1\ntotal emitted 2 taken 2\n", 1),
    ),
    Row(
        "one watched",
        "single",
        "wcp 1\nprocs 2\nwatch 0\np 0 true\np 0 send 1\np 1 recv 0\np 1 true\n",
        writes("found 0 -\nprocess 0 emitted 1 taken 1\nprocess 1 emitted 0 taken 0\ntotal emitted 1 taken 1\n", 0),
    ),
    Row(
        "two of three watched",
        "single",
        "wcp 1\nprocs 3\nwatch 0 2\np 0 true\np 0 send 1\np 1 true\np 1 recv 0\np 1 send 2\np 2 recv 1\np 2 true\n",
        writes(
            "none\nprocess 0 emitted 1 taken 1\nprocess 1 emitted 0 taken 0\nprocess 2 emitted 1 taken 1\n"
            "total emitted 2 taken 2\n",
            1,
        ),
    ),
    Row(
        "sends alone reset the flag",
        "single",
        "wcp 1\nprocs 2\nflag send\np 0 send 1\np 1 true\np 1 recv 0\np 1 true\np 0 true\n",
        writes("found 1 0\nprocess 0 emitted 1 taken 1\nprocess 1 emitted 1 taken 1\ntotal emitted 2 taken 2\n", 0),
    ),
    Row(
        "a send resets the flag",
        "single",
        "wcp 1\nprocs 2\nflag send\np 0 true\np 0 send 1\np 0 true\np 1 recv 0\np 1 true\n",
        writes("found 1 1\nprocess 0 emitted 2 taken 2\nprocess 1 emitted 1 taken 1\ntotal emitted 3 taken 3\n", 0),
    ),
    Row(
        "a receive leaves the flag up",
        "replay",
        "wcp 1\nprocs 2\nflag send\nobserve 0 true\nput 0\nobserve 1 true\nput 1\nsend 1 0\nrecv 0 0\nobserve 0 true\n"
        "put 0\nadmit 0 0\nadmit 0 1\nadmit 0 0\npass 0\npass 0\npass 0\ncheck\ncheck\ncheck\n",
        writes(
            "done\ndone\ndone\ndone\ndone\ndone\ndone\nrefused empty\ndone\ndone\nrefused empty\ndone\ndone\n"
            "refused empty\ntook 0 snap 0 0 0\ntook 1 snap 0 0 0\nrefused empty\nfound 0 0\n"
            "process 0 emitted 1 taken 1\nprocess 1 emitted 1 taken 1\ntotal emitted 2 taken 2\n",
            0,
        ),
    ),
    Row(
        "ordered through a third process",
        "single",
        "wcp 1\nprocs 3\np 0 true\np 0 send 1\np 1 true\np 1 recv 0\np 1 send 2\np 2 recv 1\np 2 true\n",
        writes(
            "none\nprocess 0 emitted 1 taken 1\nprocess 1 emitted 1 taken 1\nprocess 2 emitted 1 taken 1\n"
            "total emitted 3 taken 3\n",
            1,
        ),
    ),
    Row(
        "no steps",
        "single",
        "wcp 1\nprocs 1\n",
        writes("none\nprocess 0 emitted 0 taken 0\ntotal emitted 0 taken 0\n", 1),
    ),
    Row(
        "a ring with a fault",
        "single",
        "wcp 1\nprocs 2\np 1 true\np 1 false\np 0 true\np 0 false\np 0 send 1\np 1 recv 0\np 1 true\np 1 false\n",
        writes("found 0 0\nprocess 0 emitted 1 taken 1\nprocess 1 emitted 2 taken 2\ntotal emitted 3 taken 3\n", 0),
    ),
    Row(
        "a ring of three processes and two rounds",
        "single",
        THREE_TWICE,
        writes(
            "none\nprocess 0 emitted 2 taken 2\nprocess 1 emitted 2 taken 2\nprocess 2 emitted 2 taken 2\n"
            "total emitted 6 taken 6\n",
            1,
        ),
    ),
    Row(
        "true before and after a receive",
        "single",
        "wcp 1\nprocs 2\np 0 send 1\np 1 true\np 1 recv 0\np 1 true\np 0 true\n",
        writes("found 1 0\nprocess 0 emitted 1 taken 1\nprocess 1 emitted 2 taken 2\ntotal emitted 3 taken 3\n", 0),
    ),
    Row(
        "a chain of eight relays",
        "single",
        "wcp 1\nprocs 2\ncap 1\nrelay 0 root\nrelay 1 0\nrelay 2 1\nrelay 3 2\nrelay 4 3\nrelay 5 4\nrelay 6 5\n"
        "relay 7 6\nattach 0 7\nattach 1 7\np 0 true\np 0 send 1\np 0 true\np 1 recv 0\np 1 true\n",
        writes("found 1 1\nprocess 0 emitted 2 taken 2\nprocess 1 emitted 1 taken 1\ntotal emitted 3 taken 3\n", 0),
    ),
    Row(
        "a message that is never received",
        "run",
        "wcp 1\nprocs 2\np 0 true\np 0 send 1\np 1 true\n",
        writes("found 0 0\nprocess 0 emitted 1 taken 1\nprocess 1 emitted 1 taken 1\ntotal emitted 2 taken 2\n", 0),
    ),
    Row(
        "three leaves under one relay",
        "run",
        "wcp 1\nprocs 3\nrelay 0 root\nrelay 1 0\nrelay 2 0\nrelay 3 0\nattach 0 1\nattach 1 2\nattach 2 3\np 0 true\n"
        "p 0 send 1\np 1 true\np 1 recv 0\np 1 send 2\np 2 recv 1\np 2 true\n",
        writes(
            "none\nprocess 0 emitted 1 taken 1\nprocess 1 emitted 1 taken 1\nprocess 2 emitted 1 taken 1\n"
            "total emitted 3 taken 3\n",
            1,
        ),
    ),
    Row(
        "a backlog refuses a send",
        "replay",
        "wcp 1\nprocs 2\nobserve 0 true\nsend 0 1\nput 0\nsend 0 1\n",
        writes(
            "done\nrefused backlog\ndone\ndone\nundecided\nprocess 0 emitted 1 taken 0\nprocess 1 emitted 0 taken 0\n"
            "total emitted 1 taken 0\n",
            1,
        ),
    ),
    Row(
        "each refusal",
        "replay",
        "wcp 1\nprocs 2\nsend 0 1\nrecv 1 0\nrecv 1 0\nrecv 1 1\nrecv 0 0\nsend 0 0\nput 0\nadmit 0 0\nadmit 1 0\n"
        "pull 0\npass 0\ncheck\n",
        writes(
            "done\ndone\nrefused gone\nrefused nosuch\nrefused nosuch\nrefused nosuch\nrefused empty\nrefused empty\n"
            "refused nosuch\nrefused nosuch\nrefused empty\nrefused empty\nundecided\nprocess 0 emitted 0 taken 0\n"
            "process 1 emitted 0 taken 0\ntotal emitted 0 taken 0\n",
            1,
        ),
    ),
    Row(
        "a full link",
        "replay",
        "wcp 1\nprocs 2\ncap 1\nobserve 0 true\nput 0\nsend 0 1\nobserve 0 true\nput 0\nadmit 0 0\nput 0\n",
        writes(
            "done\ndone\ndone\ndone\nrefused full\ndone\ndone\nundecided\nprocess 0 emitted 2 taken 0\n"
            "process 1 emitted 0 taken 0\ntotal emitted 2 taken 0\n",
            1,
        ),
    ),
    Row(
        "a cut is found before all is taken",
        "replay",
        "wcp 1\nprocs 2\nobserve 0 true\nput 0\nobserve 1 true\nput 1\nadmit 0 0\npass 0\nadmit 0 1\npass 0\ncheck\n"
        "check\nsend 0 1\nobserve 0 true\nput 0\nrecv 1 0\n",
        writes(
            "done\ndone\ndone\ndone\ndone\ndone\ndone\ndone\ntook 0 snap 0 0 0\ntook 1 snap 0 0 0\ndone\ndone\ndone\n"
            "done\nfound 0 0\nprocess 0 emitted 2 taken 1\nprocess 1 emitted 1 taken 1\ntotal emitted 3 taken 2\n",
            0,
        ),
    ),
    Row(
        "a clock takes every component",
        "replay",
        "wcp 1\nprocs 3\nobserve 0 true\nput 0\nsend 0 1\nrecv 1 0\nsend 1 2\nrecv 2 1\nobserve 2 true\nput 2\n"
        "admit 0 2\npass 0\ncheck\n",
        writes(
            "done\ndone\ndone\ndone\ndone\ndone\ndone\ndone\ndone\ndone\ntook 2 snap 0 1 2 1\nundecided\n"
            "process 0 emitted 1 taken 0\nprocess 1 emitted 0 taken 0\nprocess 2 emitted 1 taken 1\n"
            "total emitted 2 taken 1\n",
            1,
        ),
    ),
    Row(
        "a close mark goes the same way",
        "replay",
        "wcp 1\nprocs 1\nobserve 0 true\nput 0\nclose 0\nobserve 0 true\nput 0\nadmit 0 0\nadmit 0 0\npass 0\npass 0\n"
        "check\ncheck\n",
        writes(
            "done\ndone\ndone\nrefused closed\ndone\ndone\ndone\ndone\ndone\ntook 0 snap 0 0\ntook 0 close 1\n"
            "found 0\nprocess 0 emitted 1 taken 1\ntotal emitted 1 taken 1\n",
            0,
        ),
    ),
    Row(
        "messages overtake",
        "replay",
        "wcp 1\nprocs 2\nsend 0 1\nobserve 0 true\nput 0\nsend 0 1\nrecv 1 1\nobserve 1 true\nput 1\nrecv 1 0\n"
        "close 0\nput 0\nclose 1\nput 1\nadmit 0 0\nadmit 0 0\nadmit 0 1\nadmit 0 1\npass 0\npass 0\npass 0\npass 0\n"
        "check\ncheck\ncheck\ncheck\n",
        writes(
            "done\ndone\ndone\ndone\ndone\ndone\ndone\ndone\ndone\ndone\ndone\ndone\ndone\ndone\ndone\ndone\ndone\n"
            "done\ndone\ndone\ntook 0 snap 0 1 0\ntook 0 close 1\ntook 1 snap 0 2 1\ntook 1 close 1\nnone\n"
            "process 0 emitted 1 taken 1\nprocess 1 emitted 1 taken 1\ntotal emitted 2 taken 2\n",
            1,
        ),
    ),
    Row(
        "a newest-first hold would lose the cut",
        "replay",
        "wcp 1\nprocs 2\nobserve 0 true\nput 0\nobserve 1 true\nput 1\nsend 1 0\nrecv 0 0\nobserve 0 true\nput 0\n"
        "admit 0 0\nadmit 0 1\nadmit 0 0\npass 0\npass 0\npass 0\ncheck\ncheck\ncheck\n",
        writes(
            "done\ndone\ndone\ndone\ndone\ndone\ndone\ndone\ndone\ndone\ndone\ndone\ndone\ndone\ntook 0 snap 0 0 0\n"
            "took 1 snap 0 0 0\ntook 0 snap 1 1 1\nfound 0 0\nprocess 0 emitted 2 taken 2\n"
            "process 1 emitted 1 taken 1\ntotal emitted 3 taken 3\n",
            0,
        ),
    ),
    Row(
        "undecided before all is taken",
        "replay",
        "wcp 1\nprocs 2\nobserve 0 true\nput 0\nobserve 1 true\nput 1\nsend 1 0\nrecv 0 0\nobserve 0 true\nput 0\n"
        "admit 0 0\nadmit 0 1\nadmit 0 0\npass 0\npass 0\npass 0\ncheck\n",
        writes(
            "done\ndone\ndone\ndone\ndone\ndone\ndone\ndone\ndone\ndone\ndone\ndone\ndone\ndone\ntook 0 snap 0 0 0\n"
            "undecided\nprocess 0 emitted 2 taken 1\nprocess 1 emitted 1 taken 0\ntotal emitted 3 taken 1\n",
            1,
        ),
    ),
    Row(
        "a process is lost",
        "replay",
        "wcp 1\nprocs 2\nobserve 0 true\nput 0\nsend 0 1\nobserve 0 true\ndrop 0\nobserve 0 true\nput 0\nadmit 0 0\n"
        "admit 0 0\nadmit 0 0\npass 0\npass 0\ncheck\ncheck\ncheck\n",
        writes(
            "done\ndone\ndone\ndone\ndone\nrefused closed\nrefused empty\ndone\ndone\nrefused empty\ndone\ndone\n"
            "took 0 snap 0 0 0\ntook 0 lost 1\nrefused empty\nundecided\nprocess 0 emitted 2 taken 1\n"
            "process 1 emitted 0 taken 0\ntotal emitted 2 taken 1\n",
            1,
        ),
    ),
    Row(
        "a full link gets the mark of a lost process, and a cut is found all the same",
        "replay",
        "wcp 1\nprocs 2\ncap 1\nobserve 0 true\nput 0\nsend 0 1\nobserve 0 true\nput 0\ndrop 0\nadmit 0 0\nadmit 0 0\n"
        "admit 0 0\npass 0\ncheck\npass 0\ncheck\nobserve 1 true\nput 1\nadmit 0 1\npass 0\ncheck\n",
        writes(
            "done\ndone\ndone\ndone\nrefused full\ndone\ndone\ndone\nrefused empty\ndone\ntook 0 snap 0 0 0\ndone\n"
            "took 0 lost 1\ndone\ndone\ndone\ndone\ntook 1 snap 0 0 0\nfound 0 0\nprocess 0 emitted 2 taken 1\n"
            "process 1 emitted 1 taken 1\ntotal emitted 3 taken 2\n",
            0,
        ),
    ),
    Row(
        "drops and closes of processes that emitted nothing",
        "replay",
        "wcp 1\nprocs 2\ndrop 2\ndrop 0\ndrop 0\nclose 0\nclose 1\ndrop 1\nput 1\nadmit 0 1\nadmit 0 0\npass 0\n"
        "pass 0\ncheck\ncheck\n",
        writes(
            "refused nosuch\ndone\nrefused closed\nrefused closed\ndone\nrefused closed\ndone\ndone\ndone\ndone\n"
            "done\ntook 1 close 0\ntook 0 lost 0\nundecided\nprocess 0 emitted 0 taken 0\n"
            "process 1 emitted 0 taken 0\ntotal emitted 0 taken 0\n",
            1,
        ),
    ),
    Row(
        "undecided, since a snapshot went with its process",
        "replay",
        "wcp 1\nprocs 2\nobserve 0 true\nput 0\nsend 0 1\nobserve 0 true\ndrop 0\nrecv 1 0\nobserve 1 true\nput 1\n"
        "close 1\nput 1\nadmit 0 0\nadmit 0 0\nadmit 0 1\nadmit 0 1\npass 0\npass 0\npass 0\npass 0\ncheck\ncheck\n"
        "check\ncheck\ncheck\n",
        writes(
            "done\ndone\ndone\ndone\ndone\ndone\ndone\ndone\ndone\ndone\ndone\ndone\ndone\ndone\ndone\ndone\ndone\n"
            "done\ntook 0 snap 0 0 0\ntook 0 lost 1\ntook 1 snap 0 1 1\ntook 1 close 1\nrefused empty\nundecided\n"
            "process 0 emitted 2 taken 1\nprocess 1 emitted 1 taken 1\ntotal emitted 3 taken 2\n",
            1,
        ),
    ),
]

# One for each question that a text is asked, but for the number of its steps.
REFUSED = [
    Row("an empty text", "single", "", refused("line 1: header")),
    Row("another version", "single", "wcp 2\nprocs 2\n", refused("line 1: header")),
    Row("only the version", "single", "wcp 1\n", refused("line 2: header")),
    Row("a leading zero", "single", "wcp 1\nprocs 02\n", refused("line 2: number")),
    Row("seventeen processes", "single", "wcp 1\nprocs 17\n", refused("line 2: plan")),
    Row("no truth value", "single", "wcp 1\nprocs 2\np 0 maybe\n", refused("line 3: line")),
    Row("a head line after a step", "single", "wcp 1\nprocs 1\np 0 true\ncap 8\n", refused("line 4: line")),
    Row("a last line without its line feed", "single", "wcp 1\nprocs 2\np 0 true", refused("line 3: line")),
    Row("a process that is no number", "single", "wcp 1\nprocs 2\np x true\n", refused("line 3: number")),
    Row("no such process", "single", "wcp 1\nprocs 2\np 2 true\n", refused("line 3: process")),
    Row("a send to itself", "single", "wcp 1\nprocs 2\np 0 send 0\n", refused("line 3: process")),
    Row("a mutual receive", "single", "wcp 1\nprocs 2\np 0 recv 1\np 1 recv 0\n", refused("line 3: stuck")),
    Row(
        "a receive of a message that is never sent",
        "single",
        "wcp 1\nprocs 2\np 1 send 0\np 0 recv 1\np 0 recv 1\n",
        refused("line 5: stuck"),
    ),
    Row("cap too large", "single", "wcp 1\nprocs 2\ncap 1025\n", refused("line 3: plan")),
    Row("a head out of its order", "single", "wcp 1\nprocs 2\nhold 4\ncap 8\n", refused("line 4: line")),
    Row(
        "an unattached process",
        "single",
        "wcp 1\nprocs 2\nrelay 0 root\nattach 0 0\np 0 true\n",
        refused("line 4: plan"),
    ),
    Row("a step of a workload in a schedule", "replay", "wcp 1\nprocs 2\np 0 true\n", refused("line 3: line")),
    Row("a step of a schedule in a workload", "single", "wcp 1\nprocs 2\ncheck\n", refused("line 3: line")),
    Row("procs of three words", "single", "wcp 1\nprocs 2 2\n", refused("line 2: header")),
    Row("a parent that is no number", "single", "wcp 1\nprocs 2\nrelay 0 top\n", refused("line 3: number")),
    Row("a relay before its turn", "single", "wcp 1\nprocs 2\nrelay 1 root\n", refused("line 3: line")),
    Row(
        "no such process to attach",
        "single",
        "wcp 1\nprocs 2\nrelay 0 root\nattach 2 0\n",
        refused("line 4: process"),
    ),
    Row("a process of a schedule that is no number", "replay", "wcp 1\nprocs 2\nput x\n", refused("line 3: number")),
    Row(
        "a mutual receive after a step that can be done",
        "single",
        "wcp 1\nprocs 2\np 0 true\np 0 recv 1\np 1 recv 0\n",
        refused("line 4: stuck"),
    ),
]
