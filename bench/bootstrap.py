#!/usr/bin/env python3
"""Prints a script of a bootstrap that logs and applies COUNT commits over a table of ROWS rows.

The first commit puts all rows, at most 4,096. Each of the COUNT behind it changes one row and is fed; every 32 of them are
logged, applied and trimmed.

Usage: bootstrap.py COUNT ROWS
"""
import sys

GROUP = 32


def main():
    count, rows = int(sys.argv[1]), int(sys.argv[2])
    puts = " ".join(f"0/{key}={key:08x}" for key in range(rows))
    out = ["relay 16777216 4096", f"commit 1 {puts}", "feed 1", "log 1", "apply 1"]
    for i in range(2, count + 2):
        key = i * 1103515245 % rows
        out.append(f"commit {i} 0/{key}={i % 65536:04x}{key % 65536:04x}")
        if (i - 1) % GROUP == 0 or i == count + 1:
            out.extend([f"feed {GROUP}", f"log {GROUP}", f"apply {GROUP}", f"trim {i}"])
    sys.stdout.write("\n".join(out) + "\n")


main()
