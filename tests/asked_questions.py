"""Files of questions about the log `RUNS_OUT`, and what `wcptrace` answers to each."""
from logs import FORGETS, IN_A_RING
from logs import RUNS_OUT as LOG

HOLDERS = """\
[[question]]
name = "holders"
while = ["ann=holds", "ben=holds"]
"""

# The same, and whether they must have held it at once.
DEFINITELY = "definitely = true\n"
TOGETHER = HOLDERS.replace("holders", "together") + DEFINITELY

# The same of the time from one event until another. Each has an end that no event matches.
NEVER_OVER = """\
[[question]]
name = "never over"
definitely = true
from = ["ann=holds", "ben=holds"]
until = ["ann=gave", "ben=gave"]
"""
OVER = NEVER_OVER.replace("never over", "over").replace("ann=gave", "ann=gives")

EARLY = """\
[[question]]
name = "early"
while = ["keeper=opens", "ann=asks"]
"""

NEVER = """\
[[question]]
name = "never"
at = ["ann=sleeps", "ben=holds"]
"""

NOBODY = """\
[[question]]
name = "nobody"
while = ["ann=holds", "zoe=holds"]
"""

ANY_TWO = """\
[[question]]
name = "any two"
any-two = "^(ann|ben)$=holds"
"""

ANY_SPAN = """\
[[question]]
name = "any span"
any-two-from = "^(ann|ben)$=holds"
any-two-until = "gives"
"""

ANY_NONE = """\
[[question]]
name = "sleepers"
any-two = "n$=sleeps"
"""

ANY_NOBODY = """\
[[question]]
name = "no hosts"
any-two = "^zoe=holds"
"""

# Each learns of the other while it holds, and goes on.
TOLD = """\
ann {"ann":1}
holds
ben {"ben":1}
holds
ann {"ann":2, "ben":1}
holds on
ben {"ben":2, "ann":1}
holds on
ann {"ann":3, "ben":1}
gives
"""

HOLDERS_FOUND = "holders: found\nann line 8 holds the lease\nben line 14 holds the lease\n"
EARLY_FOUND = "early: found\nkeeper line 2 opens\nann line 4 asks for the lease\n"
POSSIBLY = HOLDERS_FOUND.replace("holders: found", "together: possibly")
ANY_FOUND = HOLDERS_FOUND.replace("holders", "any two")
SLEEPERS_NONE = "sleepers: none\nann events 3 matched 0\nben events 2 matched 0\n"
NEVER_NONE = "never: none\nann events 3 matched 0\nben events 2 matched 1\n"
HAS_THREE = "wcptrace: the log has keeper, ann, ben\n"
NO_ZOE = "wcptrace: nobody: nohost zoe\n" + HAS_THREE
FAULT_AT_15 = "wcptrace: line 15: order: ann is 1 after 2, which looks like a restart of ann\n"
FORGETS_AT_4 = "wcptrace: line 4: forgets: it knows the event of line 2, but not all that this knew\n"

# The file, the log, the status, the output, and what is said.
ANSWERS = [
    (HOLDERS + EARLY + NEVER, LOG, 0, EARLY_FOUND + HOLDERS_FOUND + NEVER_NONE, ""),
    (NEVER, LOG, 1, NEVER_NONE, ""),
    (NEVER + NOBODY + EARLY, LOG, 2, EARLY_FOUND + NEVER_NONE, NO_ZOE),
    (NOBODY, LOG, 2, "", NO_ZOE),
    (NOBODY.replace("nobody", "nobody else") + NOBODY, "", 2, "",
     "wcptrace: the log has no event\nwcptrace: nobody else: nohost ann\nwcptrace: nobody: nohost ann\n"),
    # A text alone, other keys first, a span, an escape.
    ('[[question]]\nwhile = "ben=holds"\nname = "one"\n', LOG, 0, "one: found\nben line 14 holds the lease\n", ""),
    ('[[question]]\nname = "span"\nfrom = "ann=^holds"\nuntil = \'ann=^gives\\b\'\n', LOG, 0,
     "span: found\nann line 8 holds the lease\n",
     "wcptrace: span: --until ann=^gives\\b matches none of the first 4 events\n"),
    ('[[question]]\nname = "a \\"b\\": c"\nwhile = "ben=holds\\\\b"\n', LOG, 0,
     'a "b": c: found\nben line 14 holds the lease\n', ""),
    # Two are known with the same event, and stand in the order of the file.
    (HOLDERS + HOLDERS.replace("holders", "again"), LOG, 0,
     HOLDERS_FOUND + HOLDERS_FOUND.replace("holders", "again"), ""),
    # Any two hosts, beside questions about hosts, in the order of the file where two are known with the same event.
    (ANY_TWO + EARLY, LOG, 0, EARLY_FOUND + ANY_FOUND, ""),
    (HOLDERS + ANY_TWO, LOG, 0, HOLDERS_FOUND + ANY_FOUND, ""),
    (ANY_TWO + HOLDERS, LOG, 0, ANY_FOUND + HOLDERS_FOUND, ""),
    (ANY_NONE + NEVER + ANY_TWO, LOG, 0, ANY_FOUND + SLEEPERS_NONE + NEVER_NONE, ""),
    (ANY_SPAN, LOG, 0, HOLDERS_FOUND.replace("holders", "any span"),
     "wcptrace: any span: --any-two-until gives matches none of the first 7 events\n"),
    (ANY_NOBODY + ANY_TWO, LOG, 2, ANY_FOUND, "wcptrace: no hosts: nohost ^zoe\n" + HAS_THREE),
    (ANY_NONE, "", 2, "", "wcptrace: the log has no event\nwcptrace: sleepers: nohost n$\n"),
    (ANY_NONE + ANY_TWO, LOG.replace('ann {"ann":3', 'ann {"ann":1'), 2, ANY_FOUND, FAULT_AT_15),
    # Whether they must have held it at once: it is possible, or certain before the log ends, or with its end.
    (TOGETHER, LOG, 1, POSSIBLY, ""),
    (TOGETHER + HOLDERS + NEVER, LOG, 0, HOLDERS_FOUND + POSSIBLY + NEVER_NONE, ""),
    (TOGETHER, TOLD, 0, "together: definitely\nann line 2 on holds\nben line 4 on holds\n", ""),
    (TOGETHER.replace("ben=holds", "ben=^holds$"), TOLD, 0,
     "together: definitely\nann line 2 on holds\nben lines 4 to 8 holds\n", ""),
    (TOGETHER.replace("ben=holds", "ben=sleeps"), TOLD, 1,
     "together: none\nann events 3 matched 2\nben events 2 matched 0\n", ""),
    (TOGETHER.replace("ben=", "zoe="), LOG, 2, "", "wcptrace: together: nohost zoe\n" + HAS_THREE),
    (TOGETHER + "at = []\n", LOG, 1, POSSIBLY, ""),
    (NEVER_OVER, LOG, 0, "never over: definitely\nann line 8 on holds the lease\nben line 14 on holds the lease\n",
     "wcptrace: never over: --until ann=gave matches no event\n"
     "wcptrace: never over: --until ben=gave matches no event\n"),
    (OVER, LOG, 1, POSSIBLY.replace("together", "over"), "wcptrace: over: --until ben=gave matches no event\n"),
    # `false` is as if it were left out.
    (HOLDERS + DEFINITELY.replace("true", "false"), LOG, 0, HOLDERS_FOUND, ""),
    (NEVER + DEFINITELY.replace("true", "false"), LOG, 1, NEVER_NONE, ""),
    (ANY_TWO + DEFINITELY.replace("true", "false"), LOG, 0, ANY_FOUND, ""),
    (ANY_SPAN + DEFINITELY.replace("true", "false"), LOG, 0, HOLDERS_FOUND.replace("holders", "any span"),
     "wcptrace: any span: --any-two-until gives matches none of the first 7 events\n"),
    # An event that forgets is a fault where one question of the file asks so, and of no other file.
    (HOLDERS, IN_A_RING, 0, "holders: found\nann line 2 holds\nben line 4 holds\n", f"wcptrace: {FORGETS}\n"),
    (HOLDERS + TOGETHER, IN_A_RING, 2, "", FORGETS_AT_4),
    (TOGETHER + HOLDERS, IN_A_RING, 2, "", FORGETS_AT_4),
    # A fault ends the questions that have no answer, and is behind what answers all of them.
    (HOLDERS + EARLY, LOG.replace('ben {"ben":2', 'ben {"ben":1'), 2, EARLY_FOUND,
     "wcptrace: line 13: order: ben is 1 again\n"),
    (HOLDERS + EARLY, LOG.replace('ann {"ann":3', 'ann {"ann":1'), 0, EARLY_FOUND + HOLDERS_FOUND, ""),
    (HOLDERS + EARLY + NEVER, LOG.replace('ann {"ann":3', 'ann {"ann":1'), 2, EARLY_FOUND + HOLDERS_FOUND, FAULT_AT_15),
]
