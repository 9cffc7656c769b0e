#!/bin/bash
# Times what a relay serves of the 4,096 windows that it keeps, in replies of 32, beside a copy of the same bytes:
# nanoseconds a window, the least of five runs. Build it first: (cd crates/serve_bench && rt run)
set -euo pipefail
cd "$(dirname "$0")/.."
program=crates/serve_bench/out/serve_bench
[ -x "$program" ] || { echo "build the program first: (cd crates/serve_bench && rt run)"; exit 1; }
grep -m1 "model name" /proc/cpuinfo
printf '%-24s %16s %16s\n' filter 'serve ns/window' 'copy ns/window'
for filter in all '0%8:1;1%8:1;2%8:1' '0*'; do
    for _ in 1 2 3 4 5; do
        "$program" serve 4096 100 "$filter"
    done | awk -v filter="$filter" '
        NR == 1 || $8 < serve { serve = $8 }
        NR == 1 || $10 < copied { copied = $10 }
        END { printf "%-24s %16s %16s\n", filter, serve, copied }'
done
