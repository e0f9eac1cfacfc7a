#!/usr/bin/env python3
"""Prints a workload of long runs of true states in no order: runs.py PROCS TRUES.

No message is received, so no state precedes one of another process. Each process but the last has TRUES true states, a
send after each; the last is true once, after all of them."""
import sys

procs, trues = int(sys.argv[1]), int(sys.argv[2])
lines = ["wcp 1", f"procs {procs}"]
for _ in range(trues):
    for p in range(procs - 1):
        lines.append(f"p {p} true")
        lines.append(f"p {p} send {procs - 1}")
lines.append(f"p {procs - 1} true")
print("\n".join(lines))
