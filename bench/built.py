"""What the scripts that time the built program share: where it lies, and the name of the processor."""
import pathlib
import sys

HERE = pathlib.Path(__file__).resolve().parent
PROGRAM = HERE.parent / "crates/databus/out/databus"


def processor():
    with open("/proc/cpuinfo", encoding="utf-8") as info:
        names = [line.split(":", 1)[1].strip() for line in info if line.startswith("model name")]
    return f"{len(names)} x {names[0]}" if names else "an unknown processor"


def need_program():
    if not PROGRAM.exists():
        sys.exit("build the program first: (cd crates/databus && rt run -- trace < ../../examples/first.databus)")
