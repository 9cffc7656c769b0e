#!/bin/sh
# Times the built program on windows that are made from a number, published and polled 32 at a time, with one consumer of all rows
# and with 13 filtered ones: seconds, microseconds a window, and the peak of memory. The cost of a window should be flat.
# Build it first: (cd crates/databus && rt run -- trace < ../../examples/first.databus)
exec python3 "$(dirname "$0")/load.py" 10000/1 100000/1 1000000/1 10000/13 100000/13 1000000/13
