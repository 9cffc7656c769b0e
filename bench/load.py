#!/usr/bin/env python3
"""Times the built program on generated windows: processor seconds, microseconds a window, and the peak of memory in MiB, the least
of three runs. The relay has room for 16,777,216 bytes and 65,536 windows; 50,000 windows at a time are made, published, and polled 32
at a time by each consumer. One consumer follows all rows; of several, each follows the rows whose key has one remainder.

Usage: load.py WINDOWS/CONSUMERS ..
"""
import os
import subprocess
import sys
import tempfile

from built import PROGRAM, need_program, processor

RUNS = 3
BLOCK = 50_000


def script(windows, consumers):
    if consumers == 1:
        filters = ["all"]
    else:
        filters = [";".join(f"{source}%{consumers}:{place}" for source in range(3)) for place in range(consumers)]
    lines = ["relay 16777216 65536"] + [f"consumer c{i} {text}" for i, text in enumerate(filters)]
    left = windows
    while left:
        count = min(BLOCK, left)
        left -= count
        lines += [f"gen 7 {count}", f"feed {count}"]
        lines += [f"poll c{i} 16777216" for i in range(consumers) for _ in range((count + 31) // 32)]
    return "\n".join(lines + [f"sum c{i}" for i in range(consumers)]) + "\n"


def run(text):
    """The seconds of processor time and the peak of memory in MiB of one run."""
    with tempfile.TemporaryFile() as given:
        given.write(text.encode())
        given.seek(0)
        child = subprocess.Popen([PROGRAM, "trace"], stdin=given, stdout=subprocess.DEVNULL)
        _, status, used = os.wait4(child.pid, 0)
        child.returncode = status
        if status:
            sys.exit(f"{PROGRAM} ended with {status}")
        return used.ru_utime + used.ru_stime, used.ru_maxrss / 1024


def main():
    need_program()
    print(processor())
    print(f"{'windows':>8} {'consumers':>9} {'seconds':>8} {'us/window':>10} {'peak MiB':>9}")
    for size in sys.argv[1:]:
        windows, consumers = (int(number) for number in size.split("/"))
        text = script(windows, consumers)
        runs = [run(text) for _ in range(RUNS)]
        seconds = min(used for used, _ in runs)
        peak = min(memory for _, memory in runs)
        print(f"{windows:>8} {consumers:>9} {seconds:>8.3f} {seconds / windows * 1e6:>10.3f} {peak:>9.1f}", flush=True)


main()
