#!/usr/bin/env python3
"""Prints a script of COUNT commits of one small change under a relay of 16 MiB and 4,096 windows.

Eight consumers each follow an eighth of the rows. After every 32 commits the relay publishes them and each
consumer polls, so each has followed to the end.

Usage: filtered.py COUNT
"""
import sys

CONSUMERS = 8
STEP = 32


def main():
    count = int(sys.argv[1])
    out = ["relay 16777216 4096"]
    for i in range(CONSUMERS):
        out.append(f"consumer c{i} 0%8:{i};1%8:{i};2%8:{i}")
    for i in range(1, count + 1):
        key = i * 1103515245 % 4096
        out.append(f"commit {i} {i % 3}/{key}={i % 65536:04x}{key % 65536:04x}")
        if i % STEP == 0 or i == count:
            out.append(f"feed {STEP}")
            out.extend(f"poll c{c} 16777216" for c in range(CONSUMERS))
    sys.stdout.write("\n".join(out) + "\n")


main()
