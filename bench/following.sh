#!/bin/sh
# Times the built program on one consumer that polls to the end and is shown, over tables of 256, 1,024 and 4,096 rows, and
# with twice as many commits over 4,096 rows. With one commit the time is that of the table alone.
# Build it first: (cd crates/databus && rt run -- trace < ../../examples/first.databus)
exec python3 "$(dirname "$0")/timed.py" following.py 1/256 100000/256 1/1024 100000/1024 1/4096 100000/4096 200000/4096
