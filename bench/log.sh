#!/bin/bash
# Times the log on real files of a folder, which is given.
#
# First it appends windows of 100 bytes and of 64 KiB for a second, in turn with a plain program that makes the same two writes with two
# calls of fdatasync an append, and with it by two calls of fsync: twenty slices of 50 ms each, each on a new file. It prints the appends
# a second of all slices together, of the median append, and of those that a quarter and a tenth are faster than; and each time the
# log's share of the plain program's.
#
# Then it opens files that are segments of windows of 100 bytes, the last of them full, and reads the windows behind 1,000 random SCNs:
# with the file's pages dropped from memory before, and with them in memory. It prints the least of seven runs.
#
# Where it may, it runs the programs before all others (chrt). Else, on a busy machine, a call that the disk has answered waits for a
# processor, up to 4 ms, and the times are of that wait alone.
#
# Build it first: (cd crates/log_bench && rt run)
set -euo pipefail
[ $# = 1 ] && [ -d "$1" ] || { echo "usage: bench/log.sh FOLDER"; exit 1; }
folder=$(mktemp -d -p "$(realpath "$1")" log_bench.XXXXXX)
trap 'rm -rf "$folder"' EXIT
cd "$(dirname "$0")/.."
program=crates/log_bench/out/log_bench
[ -x "$program" ] || { echo "build the program first: (cd crates/log_bench && rt run)"; exit 1; }
first=()
if chrt -f 1 true 2> "$folder/refused"; then first=(chrt -f 1); fi
rustc --edition=2021 -O -C panic=abort -o "$folder/floor" bench/floor.rs

grep -m1 "model name" /proc/cpuinfo
df --output=source,fstype "$folder" | tail -1
uptime
echo "programs run by: ${first[*]:-their turn}"

# No file is cut or removed between the slices, since the disk would still be at it in the next one.
slices() {
    for round in $(seq 20); do
        "${first[@]}" "$program" append "$folder/log.$1.$round" "$1" 50 >> "$folder/log.times"
        "${first[@]}" "$folder/floor" "$folder/data.$1.$round" "$1" 50 data >> "$folder/data.times"
        "${first[@]}" "$folder/floor" "$folder/all.$1.$round" "$1" 50 all >> "$folder/all.times"
    done
}

# the appends a second: of all together, of the median one, and of those that a quarter and a tenth are faster than
rates() {
    sort -g "$1" | awk '
        { time[NR] = $1; whole += $1 }
        END { print NR * 1e9 / whole, 1e9 / time[int((NR + 1) / 2)], 1e9 / time[int((NR + 3) / 4)], 1e9 / time[int((NR + 9) / 10)] }'
}

printf '%8s %8s %10s %12s %8s %10s %8s\n' bytes append log/s fdatasync/s ratio fsync/s ratio
for size in 100 65536; do
    rm -f "$folder"/*.times
    slices "$size"
    { rates "$folder/log.times"; rates "$folder/data.times"; rates "$folder/all.times"; } | awk -v size="$size" '
        { for (i = 1; i <= 4; i++) rate[NR, i] = $i }
        END {
            split("all median quarter tenth", of)
            for (i = 1; i <= 4; i++)
                printf "%8s %8s %10.1f %12.1f %8.2f %10.1f %8.2f\n", size, of[i], rate[1, i], rate[2, i], rate[1, i] / rate[2, i],
                    rate[3, i], rate[1, i] / rate[3, i]
        }'
done
rm -f "$folder"/log.* "$folder"/data.* "$folder"/all.*

# takes the file's pages out of memory
drop() { dd of="$folder/file" oflag=nocache conv=notrunc,fdatasync count=0 2> "$folder/dropped" || { cat "$folder/dropped"; exit 1; }; }

# a segment of so many windows, opened with its pages on the disk alone or in memory
opened() {
    for _ in $(seq 7); do
        [ "$2" = memory ] || drop
        "${first[@]}" "$program" "$folder/file"
    done | awk -v windows="$1" -v from="$2" '
        NR == 1 || $6 < open_ns { open_ns = $6 }
        NR == 1 || $12 < read_ns { read_ns = $12 }
        { bytes = $2; reads = $8; if ($4 != windows) exit 1 }
        END { printf "%8s %10s %8s %10.1f %14.2f %14.1f\n", windows, bytes, from, open_ns / 1e6, open_ns / bytes, read_ns / reads / 1e3 }'
}

printf '%8s %10s %8s %10s %14s %14s\n' windows bytes from 'open ms' 'open ns/byte' 'next us'
for windows in 10000 80000 319565 639131; do
    "$program" fill "$folder/file" 100 "$windows" > "$folder/filled"
    opened "$windows" disk
    opened "$windows" memory
done
