#!/usr/bin/env python3
"""Prints a script of consumers that are each brought from one end of a log of WINDOWS windows to the other by a delta.

At first each consumer gets ROWS rows of one byte from the relay, in windows of at most 4,096 rows. Each window that is logged behind them
changes one of them; the relay keeps 32. In each of ROUNDS rounds the bootstrap logs so many, each consumer asks for a delta of them all,
in replies of REPLY bytes, and the log is then applied and trimmed.

Usage: delta.py WINDOWS ROWS REPLY CONSUMERS ROUNDS
"""
import sys

GROUP = 32
MOST = 4096
FRAME = 10
CHANGE = 24


def fill(out, rows, consumers):
    firsts = range(0, rows, MOST)
    for scn, first in enumerate(firsts, 1):
        puts = " ".join(f"0/{key}=aa" for key in range(first, min(first + MOST, rows)))
        out.extend([f"commit {scn} {puts}", "feed 1", *(f"poll c{c} 1048576" for c in range(consumers)), "log 1", "apply 1"])
    out.extend([f"trim {len(firsts)}", "# answers"])
    return len(firsts)


def log(out, first, windows, rows):
    for scn in range(first + 1, first + windows + 1):
        out.append(f"commit {scn} 0/{scn * 7919 % rows}={scn % 256:02x}")
        if scn % GROUP == 0 or scn == first + windows:
            out.extend([f"feed {GROUP}", f"log {GROUP}"])


def main():
    windows, rows, reply, consumers, rounds = (int(word) for word in sys.argv[1:])
    out = [f"relay 1048576 {GROUP}", *(f"consumer c{c} all" for c in range(consumers))]
    # how the relay answers, where to begin, and the changes
    replies = 2 + -(-min(windows, rows) // ((reply - FRAME) // CHANGE))
    last = fill(out, rows, consumers)
    for _ in range(rounds):
        log(out, last, windows, rows)
        last += windows
        out.extend(f"poll c{c} {reply}" for c in range(consumers) for _ in range(replies))
        out.extend([f"apply {windows}", f"trim {last}"])
    sys.stdout.write("\n".join(out) + "\n")


main()
