#!/bin/sh
# Times the built program on a bootstrap that logs, applies and trims all commits, over tables of 256, 1,024 and 4,096 rows, and
# with twice as many commits over 4,096 rows. With one commit the time is that of the table alone.
# Build it first: (cd crates/databus && rt run -- trace < ../../examples/first.databus)
exec python3 "$(dirname "$0")/timed.py" bootstrap.py 1/256 150000/256 1/1024 150000/1024 1/4096 150000/4096 300000/4096
