#!/usr/bin/env python3
"""Times the built program on scripts of several sizes: seconds, microseconds a commit and lines a second, the best of
five runs. Each script is what `GENERATOR COUNT` prints, or `GENERATOR COUNT ROWS`.

Usage: timed.py GENERATOR COUNT[/ROWS] ..
"""
import subprocess
import sys
import tempfile
import time

from built import HERE, PROGRAM, need_program, processor

RUNS = 5


def seconds_of(script):
    script.seek(0)
    start = time.perf_counter()
    subprocess.run([PROGRAM, "trace"], stdin=script, stdout=subprocess.DEVNULL, check=True)
    return time.perf_counter() - start


def main():
    generator, *sizes = sys.argv[1:]
    need_program()
    print(processor())
    print(f"{'commits':>8} {'rows':>6} {'lines':>8} {'seconds':>9} {'us/commit':>10} {'lines/s':>10}")
    for size in sizes:
        count, _, rows = size.partition("/")
        with tempfile.TemporaryFile() as script:
            words = [count, rows] if rows else [count]
            subprocess.run([sys.executable, HERE / generator, *words], stdout=script, check=True)
            script.seek(0)
            lines = sum(1 for _ in script)
            best = min(seconds_of(script) for _ in range(RUNS))
        print(f"{count:>8} {rows:>6} {lines:>8} {best:>9.4f} {best / int(count) * 1e6:>10.2f} {lines / best:>10.0f}")


main()
