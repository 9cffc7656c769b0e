#!/usr/bin/env python3
"""Times `databus trace` beside the plain program of plain.rs on the same scripts, in turn, and prints the ratios.

compare.py [--runs 7] [--generated]
With --generated it runs scripts with the lines gen and sum instead. A ratio above 1 means that databus takes less processor time. Both must print the same bytes. It builds plain.rs by
`rustc -O` in a folder of its own, and times the built program crates/databus/out/databus.
"""
import argparse
import os
import random
import subprocess
import sys
import tempfile
from pathlib import Path


def commits(count, keys, size, seed):
    rng = random.Random(seed)
    lines = []
    for scn in range(1, count + 1):
        row = f"{rng.randrange(3)}/{rng.randrange(keys)}"
        lines.append(f"commit {scn} {row}-" if rng.random() < 0.1 else f"commit {scn} {row}={rng.randbytes(size).hex()}")
    return lines


def script(count, keys, size, filters, every, relay, seed=1):
    lines = [relay] if relay else []
    lines += [f"consumer c{i} {f}" for i, f in enumerate(filters)]
    made = commits(count, keys, size, seed)
    for first in range(0, count, every):
        lines += made[first:first + every]
        lines.append(f"feed {every}")
        lines += [f"poll c{i} 16777216" for i in range(len(filters)) for _ in range((every + 31) // 32)]
    lines += [f"show c{i}" for i in range(len(filters))]
    return "\n".join(lines) + "\n"


EIGHTH = [f"0%8:{i};1%8:{i};2%8:{i}" for i in range(8)]

WORKLOADS = {
    "each: 40,000 commits, fed and polled one by one": script(40_000, 300, 16, ["all"], 1, None),
    "runs: 100,000 commits, fed and polled 32 at a time": script(100_000, 4096, 16, ["all"], 320, "relay 16777216 65536"),
    "filters: 40,000 commits, 8 consumers of an eighth": script(40_000, 4096, 16, EIGHTH, 320, "relay 16777216 65536"),
    "evict: 100,000 commits through 256 windows": script(100_000, 4096, 16, ["all"], 256, "relay 1048576 256"),
    "wide: 3,000 commits of 1,024 bytes over 40,000 rows": script(3_000, 40_000, 1024, ["all"], 32, None),
}


def load(count, filters):
    lines = ["relay 16777216 65536"] + [f"consumer c{i} {f}" for i, f in enumerate(filters)]
    for _ in range(count // 50_000):
        lines += ["gen 7 50000", "feed 50000"]
        lines += [f"poll c{i} 16777216" for i in range(len(filters)) for _ in range(1563)]
    return "\n".join(lines + [f"sum c{i}" for i in range(len(filters))]) + "\n"


def generated():
    return {
        "100,000 generated windows, one consumer": load(100_000, ["all"]),
        "1,000,000 generated windows, one consumer": load(1_000_000, ["all"]),
        "200,000 generated windows, 8 consumers of an eighth": load(200_000, EIGHTH),
    }


PROGRAM = Path(__file__).resolve().parent.parent / "crates/databus/out/databus"


def processor():
    with open("/proc/cpuinfo", encoding="utf-8") as info:
        names = [line.split(":", 1)[1].strip() for line in info if line.startswith("model name")]
    return f"{len(names)} x {names[0]}" if names else "an unknown processor"


def run(program, text):
    """The output and the processor time in seconds of one run."""
    with tempfile.TemporaryFile() as given:
        given.write(text)
        given.seek(0)
        child = subprocess.Popen(program, stdin=given, stdout=subprocess.PIPE)
        out = child.stdout.read()
        _, status, used = os.wait4(child.pid, 0)
        child.returncode = status
    if status:
        sys.exit(f"{program[0]} ended with {status}")
    return out, used.ru_utime + used.ru_stime


def main():
    words = argparse.ArgumentParser()
    words.add_argument("--runs", type=int, default=7)
    words.add_argument("--generated", action="store_true")
    words = words.parse_args()
    if not PROGRAM.exists():
        sys.exit("build the program first: (cd crates/databus && rt run -- trace < ../../examples/first.databus)")
    folder = Path(tempfile.mkdtemp())
    plain = folder / "plain"
    subprocess.run(["rustc", "--edition=2021", "-O", "-C", "panic=abort", "-o", plain, Path(__file__).with_name("plain.rs")], check=True)
    print(processor())
    print(f"{'processor time, the least of ' + str(words.runs):54} {'databus s':>10} {'plain s':>9} {'ratio':>6}")
    for name, text in (generated() if words.generated else WORKLOADS).items():
        text = text.encode()
        ours, theirs = [], []
        for _ in range(words.runs):
            ours.append(run([PROGRAM, "trace"], text))
            theirs.append(run([plain], text))
        if ours[0][0] != theirs[0][0]:
            sys.exit(f"{name}: other bytes")
        a, b = min(r[1] for r in ours), min(r[1] for r in theirs)
        print(f"{name:54} {a:10.3f} {b:9.3f} {b / a:6.2f}", flush=True)


main()
