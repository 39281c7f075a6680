#!/usr/bin/env bash
# Times storm 7 and a script of three members and 16 flushes of 64 KiB with the built program, and names the three
# functions that take most of each: by the instructions that each executes itself, which valgrind's callgrind counts.
# Usage: bench/storm/run.sh [RUNS], 3 if left out.
set -euo pipefail
top=$(cd "$(dirname "$0")/../.." && pwd)
runs=${1:-3}
work=$(mktemp -d)
trap 'rm -rf "$work"' EXIT

{
    printf 'nodes 3\nseed 5\ncreate 1 0,1,2\n'
    for ((n = 0; n < 16; n++)); do
        printf 'fill 1 65536\nhflush 1\n'
    done
    printf 'close 1\n'
} > "$work/flushes"

# The first call builds the program.
"$top/dn" storm 7 > /dev/null
program=$top/crates/dn/out/dn

PYTHONPATH="$top/bench" PYTHONDONTWRITEBYTECODE=1 python3 - "$program" "$work/flushes" "$runs" <<'PY'
import subprocess, sys
from plays import best, play

program, script, runs = sys.argv[1], sys.argv[2], int(sys.argv[3])


def storm():
    subprocess.run([program, "storm", "7"], stdout=subprocess.DEVNULL, check=True)


print(f"storm 7: {best(storm, runs):.3f} s")
print(f"flushes: {best(lambda: play(program, script), runs):.3f} s")
PY

# The three functions with the most instructions of a call with these words.
dearest() {
    valgrind --tool=callgrind --callgrind-out-file="$work/calls" "$program" "$@" > /dev/null 2> "$work/errors"
    callgrind_annotate --inclusive=no "$work/calls" | grep -E '^ *[0-9,]+ \(' | grep -v 'PROGRAM TOTALS' | awk 'NR <= 3'
}
echo "the dearest of storm 7:"
dearest storm 7
echo "the dearest of the flushes:"
dearest play < "$work/flushes"
