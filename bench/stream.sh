#!/bin/bash
# Times the writing and the splitting of a stream of small windows, in pieces of several sizes: nanoseconds a byte, the
# least of five runs. Build it first: (cd crates/stream_bench && rt run)
set -euo pipefail
cd "$(dirname "$0")/.."
program=crates/stream_bench/out/stream_bench
[ -x "$program" ] || { echo "build the program first: (cd crates/stream_bench && rt run)"; exit 1; }
grep -m1 "model name" /proc/cpuinfo
printf '%8s %8s %8s %14s %14s\n' windows piece bytes 'write ns/byte' 'split ns/byte'
while read -r windows piece; do
    for _ in 1 2 3 4 5; do
        "$program" "$windows" "$piece"
    done | awk '
        NR == 1 || $8 < write { write = $8 }
        NR == 1 || $10 < split_ns { split_ns = $10 }
        { windows = $2; piece = $4; bytes = $6 }
        END { printf "%8s %8s %8s %14s %14s\n", windows, piece, bytes, write, split_ns }'
done <<'SIZES'
10000 1
10000 7
5000 4096
10000 4096
20000 4096
5000 1048576
10000 1048576
20000 1048576
SIZES
