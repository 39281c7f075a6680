#!/usr/bin/env bash
# Times plays of two scripts with the built program, against a yardstick in the same run: as many passes of sums (zlib's
# CRC32) and copies of the same bytes as the members need, two and four each. It prints the best time of each, and the
# ratio of the yardstick to the play. Then it times a block that is appended again and again, and prints what the second
# 800 appends take beside the first: about 1 where an append costs as much however many connections have ended.
# Usage: bench/play/run.sh [RUNS], 3 if left out.
set -euo pipefail
top=$(cd "$(dirname "$0")/../.." && pwd)
runs=${1:-3}
work=$(mktemp -d)
trap 'rm -rf "$work"' EXIT

# Three members, 16 flushes of 64 KiB each.
{
    printf 'nodes 3\nseed 5\ncreate 1 0,1,2\n'
    for ((n = 0; n < 16; n++)); do
        printf 'fill 1 65536\nhflush 1\n'
    done
    printf 'close 1\n'
} > "$work/flushes"

# 16 members, 32 MiB in one write.
{
    printf 'nodes 16\nseed 5\ncreate 1 0,1,2,3,4,5,6,7,8,9,10,11,12,13,14,15\n'
    printf 'fill 1 33554432\nclose 1\n'
} > "$work/wide"

# A block that is appended so many times, each time at three members anew.
for appends in 0 800 1600; do
    {
        printf 'nodes 3\nseed 5\ncreate 1 0,1,2\nfill 1 1024\nclose 1\n'
        for ((n = 0; n < appends; n++)); do
            printf 'append 1 0,1,2\nfill 1 1024\nclose 1\n'
        done
    } > "$work/appends-$appends"
done

# The first play builds the program.
"$top/dn" play < "$work/flushes" > /dev/null

PYTHONPATH="$top/bench" PYTHONDONTWRITEBYTECODE=1 python3 - "$top/dn" "$work" "$runs" <<'PY'
import sys, zlib
from plays import best, play

program, work, runs = sys.argv[1], sys.argv[2], int(sys.argv[3])


def played(name):
    return best(lambda: play(program, f"{work}/{name}"), runs)


def passes(size, members):
    data = bytes(size)
    for _ in range(members):
        for _ in range(2):
            zlib.crc32(data)
        for _ in range(4):
            bytearray(data)


for name, size, members in [("flushes", 16 * 65536, 3), ("wide", 33554432, 16)]:
    took, yardstick = played(name), best(lambda: passes(size, members), runs)
    print(f"{name}: {took:.3f} s, yardstick {yardstick:.3f} s, ratio {yardstick / took:.2f}")

none, first, both = [played(f"appends-{appends}") for appends in (0, 800, 1600)]
print(f"appends: 800 in {first:.3f} s, 1600 in {both:.3f} s, second 800 to first {(both - first) / (first - none):.2f}")
PY
