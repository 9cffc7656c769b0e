#!/usr/bin/env python3
"""Prints a script of eight consumers that each follow an eighth of a table of ROWS rows, and scan it in chunks of CHUNK bytes.

Commits of at most 4,096 rows of one byte make the table; the relay keeps one window, so no consumer finds its next one. In each of
ROUNDS rounds the bootstrap trims its log, so all begin a snapshot. They scan in turns of one chunk each, and behind each turn the source
commits a change of one row, which is fed, logged and applied. Then they ask for their target and catch up, 32 windows at a time.

Usage: scan.py ROWS CHUNK ROUNDS, with ROWS divisible by 8
"""
import sys

CONSUMERS = 8
MOST = 4096
FRAME = 10
ROW = 24


class Source:
    def __init__(self, rows, out):
        self.rows, self.out, self.scn = rows, out, 0

    def commit(self, changes):
        self.scn += 1
        self.out.extend([f"commit {self.scn} {changes}", "feed 1", "log 1", "apply 1"])

    def fill(self):
        for first in range(0, self.rows, MOST):
            self.commit(" ".join(f"0/{key}=aa" for key in range(first, min(first + MOST, self.rows))))

    def change(self):
        self.commit(f"0/{self.scn * 7919 % self.rows}={self.scn % 256:02x}")


def turns_of(rows, chunk):
    return -(-rows // CONSUMERS // ((chunk - FRAME) // ROW))


def scan(source, chunk, turns):
    # two commits, so that the relay has evicted what follows a consumer's mark
    source.change()
    source.change()
    poll = [f"poll c{c} {chunk}" for c in range(CONSUMERS)]
    source.out.extend([f"trim {source.scn}", *poll, *poll])
    for _ in range(turns):
        source.out.extend(poll)
        source.change()
    source.out.extend(poll)
    source.out.extend(f"poll c{c} 65536" for _ in range(-(-turns // 32)) for c in range(CONSUMERS))


def main():
    rows, chunk, rounds = (int(word) for word in sys.argv[1:])
    out = ["relay 1048576 1", *(f"consumer c{c} 0%{CONSUMERS}:{c}" for c in range(CONSUMERS))]
    source = Source(rows, out)
    source.fill()
    out.append("# answers")
    for _ in range(rounds):
        scan(source, chunk, turns_of(rows, chunk))
    sys.stdout.write("\n".join(out) + "\n")


main()
