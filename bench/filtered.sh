#!/bin/sh
# Times the built program on 20,000, 40,000 and 80,000 commits under a full relay with eight filtered consumers.
# Build it first: (cd crates/databus && rt run -- trace < ../../examples/first.databus)
exec python3 "$(dirname "$0")/timed.py" filtered.py 20000 40000 80000
