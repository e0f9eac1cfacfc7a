#!/usr/bin/env python3
"""Prints the workload of a token ring: ring.py PROCS ROUNDS."""
import sys

procs, rounds = int(sys.argv[1]), int(sys.argv[2])
lines = ["wcp 1", f"procs {procs}"]
for turn in range(rounds):
    for p in range(procs):
        if not (turn == 0 and p == 0):
            lines.append(f"p {p} recv {(p - 1) % procs}")
        lines.append(f"p {p} true")
        lines.append(f"p {p} false")
        if not (turn == rounds - 1 and p == procs - 1):
            lines.append(f"p {p} send {(p + 1) % procs}")
print("\n".join(lines))
