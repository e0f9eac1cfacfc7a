#!/usr/bin/env python3
"""Prints a workload in which process 0 receives from all others, and is true behind each receive: gather.py PROCS
ROUNDS."""
import sys

procs, rounds = int(sys.argv[1]), int(sys.argv[2])
lines = ["wcp 1", f"procs {procs}"]
for _ in range(rounds):
    for p in range(1, procs):
        lines += [f"p {p} true", f"p {p} send 0", f"p 0 recv {p}", "p 0 true"]
print("\n".join(lines))
