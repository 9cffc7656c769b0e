#!/bin/bash
# Times readers of a shared ring, which open, read every byte of what they opened where it stands, and end, while one feeder
# publishes; and the same readers of a buffer behind a lock. Those copy what they are served under the lock and read their copy
# outside, as a server has to, which can't hold a lock while it writes to a connection. Ring and buffer have room for 65,536
# windows or 64 MiB and are full before the readers begin, a quarter of them apart. Readers read eight bytes at a time, go on
# where they stopped, and begin again above the floor where they fell behind it. It prints how many windows a second all readers
# read together, the best of three runs. Build it first: (cd crates/ring_bench && rt run)
set -euo pipefail
cd "$(dirname "$0")/.."
program=crates/ring_bench/out/ring_bench
[ -x "$program" ] || { echo "build the program first: (cd crates/ring_bench && rt run)"; exit 1; }
echo "$(nproc) x $(grep -m1 "model name" /proc/cpuinfo | cut -d: -f2)"
printf '%8s %6s %8s %16s\n' bytes form readers 'windows/s'
while read -r bytes windows asks; do
    for form in ring lock; do
        for readers in 1 2 4; do
            for _ in 1 2 3; do
                "$program" "$form" "$readers" "$bytes" "$windows" "$asks"
            done | awk -v bytes="$bytes" -v form="$form" -v readers="$readers" '
                $4 / $6 > best { best = $4 / $6 }
                END { printf "%8s %6s %8s %16.0f\n", bytes, form, readers, best * 1e9 }'
        done
    done
done <<'SIZES'
100 4000000 300000
65536 60000 1500
SIZES
