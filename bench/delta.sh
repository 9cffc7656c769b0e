#!/bin/sh
# Times the built program on consumers that deltas bring from one end of a log of 4,000 and of 64,000 windows over 1,000 and 16,000 rows to
# the other, in one reply each and in replies of 4,096 bytes. With one reply a logged window should cost as much in both logs. With small
# ones each reply goes through the whole log, so a window costs that much once a reply.
# Build it first: (cd crates/databus && rt run -- trace < ../../examples/first.databus)
exec python3 "$(dirname "$0")/answered.py" delta.py 4000/1000/16777216/32/8 64000/1000/16777216/16/1 64000/16000/16777216/8/2 \
    4000/16000/16777216/32/4 4000/1000/4096/16/6 64000/1000/4096/8/1 64000/16000/4096/1/1 4000/16000/4096/8/1
