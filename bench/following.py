#!/usr/bin/env python3
"""Prints a script of one consumer that follows a table of ROWS rows over COUNT commits, and shows it at the end.

The first commit puts all rows, at most 4,096. Each of the COUNT behind it changes one row, is fed, and is polled.

Usage: following.py COUNT ROWS
"""
import sys


def main():
    count, rows = int(sys.argv[1]), int(sys.argv[2])
    puts = " ".join(f"0/{key}={key:08x}" for key in range(rows))
    out = ["consumer c all", f"commit 1 {puts}", "feed 1", "poll c 16777216"]
    for i in range(2, count + 2):
        key = i * 1103515245 % rows
        out.extend([f"commit {i} 0/{key}={i % 65536:04x}{key % 65536:04x}", "feed 1", "poll c 1000"])
    out.append("show c")
    sys.stdout.write("\n".join(out) + "\n")


main()
