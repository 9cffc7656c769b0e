#!/bin/sh
# Times the built program on eight consumers that each follow an eighth of a table of 10,000 and of 80,000 rows, and scan it in chunks of
# 160 and of 65,536 bytes while the source goes on committing, and then catch up. With the same chunk a row should cost as much in both
# tables, apart from the depth of the ordered map. The peaks of memory differ by the consumers' rows and one chunk.
# Build it first: (cd crates/databus && rt run -- trace < ../../examples/first.databus)
exec python3 "$(dirname "$0")/answered.py" scan.py 10000/160/24 80000/160/3 10000/65536/48 80000/65536/6
