#!/bin/bash
# Fills a log over 16 new files of a folder, which is given, with windows of 64 KiB, about 1 GB: prints how many it takes and its ends,
# opens it again and reads 1,000 windows at random SCNs, drops its older half, fills it again and opens it once more.
# Build the program first: (cd crates/log_bench && rt run)
set -euo pipefail
[ $# = 1 ] && [ -d "$1" ] || { echo "usage: bench/full.sh FOLDER"; exit 1; }
folder=$(mktemp -d -p "$(realpath "$1")" log_full.XXXXXX)
trap 'rm -rf "$folder"' EXIT
cd "$(dirname "$0")/.."
program=crates/log_bench/out/log_bench
[ -x "$program" ] || { echo "build the program first: (cd crates/log_bench && rt run)"; exit 1; }
"$program" full "$folder" 65536 16
du -sh "$folder" | cut -f1
