#!/usr/bin/env python3
"""Times what a bootstrap answers to the polls of scripts of several sizes: the processor time of a script, less that of the script without
its polls behind the line `# answers`, the least of seven runs each in turn, by the rows or changes that were sent and by the
logged windows of the deltas. The peaks of memory are those of the script and of the one without these polls.

Usage: answered.py GENERATOR WORDS ..    where WORDS is what the generator is given, parted by `/`
"""
import os
import pathlib
import subprocess
import sys
import tempfile

from built import HERE, PROGRAM, need_program, processor

TIME = pathlib.Path("/usr/bin/time")
RUNS = 7


def run(text):
    """The output and the seconds of processor time of one run."""
    with tempfile.TemporaryFile() as script, tempfile.TemporaryFile() as printed:
        script.write(text)
        script.seek(0)
        child = subprocess.Popen([PROGRAM, "trace"], stdin=script, stdout=printed)
        _, status, used = os.wait4(child.pid, 0)
        child.returncode = status
        if status:
            sys.exit(f"{PROGRAM} ended with {status}")
        printed.seek(0)
        return printed.read().decode(), used.ru_utime + used.ru_stime


def peak(text):
    """The peak of memory of a run in KiB, where /usr/bin/time tells it."""
    if not TIME.exists():
        return "-"
    told = subprocess.run([TIME, "-f", "%M", PROGRAM, "trace"], input=text, stdout=subprocess.DEVNULL, stderr=subprocess.PIPE, check=True)
    return told.stderr.decode().strip()


def counts(printed):
    """In how many replies how many rows or changes were sent, and the logged windows of the deltas."""
    sent = replies = windows = 0
    for line in printed.splitlines():
        words = line.split()
        if words[0] in ("rows", "changes"):
            sent += int(words[1])
            replies += 1
        elif words[:2] == ["start", "delta"]:
            windows += int(words[3]) - int(words[2])
    return sent, replies, windows


def scripts(generator, size):
    """The script of a size, and the one without the polls."""
    text = subprocess.run([sys.executable, HERE / generator, *size.split("/")], stdout=subprocess.PIPE, check=True).stdout
    head, mark, answers = text.partition(b"# answers\n")
    return text, head + mark + b"".join(line for line in answers.splitlines(keepends=True) if not line.startswith(b"poll "))


def main():
    generator, *sizes = sys.argv[1:]
    need_program()
    print(processor())
    print(f"{'script':>26} {'replies':>8} {'sent':>8} {'windows':>8} {'seconds':>9} {'us/sent':>8} {'us/window':>10} {'peaks KiB':>15}")
    made = {size: scripts(generator, size) for size in sizes}
    least, told = {}, {}
    for _ in range(RUNS):
        for size, pair in made.items():
            ran = [run(text) for text in pair]
            least[size] = [min(old, seconds) for old, (_, seconds) in zip(least.get(size, (1e9, 1e9)), ran)]
            told[size] = ran[0][0]
    for size, (text, bare) in made.items():
        sent, replies, windows = counts(told[size])
        seconds = least[size][0] - least[size][1]
        window = f"{seconds / windows * 1e6:.3f}" if windows else "-"
        peaks = f"{peak(text)} {peak(bare)}"
        print(
            f"{size:>26} {replies:>8} {sent:>8} {windows:>8} {seconds:>9.4f} {seconds / sent * 1e6:>8.3f} {window:>10} {peaks:>15}",
            flush=True,
        )


main()
