#!/usr/bin/env bash
# Times plays of scripts that read with the built program: so many reads one after the other, and so many that are open
# at once. It prints the best time of each, and what twice as many reads take beside the half of them: about 2 where a
# read costs as much however many there are.
# Usage: bench/reads/run.sh [RUNS], 3 if left out.
set -euo pipefail
top=$(cd "$(dirname "$0")/../.." && pwd)
runs=${1:-3}
work=$(mktemp -d)
trap 'rm -rf "$work"' EXIT

# So many reads of a block at three members in turn, with these words behind each.
script_of() {
    printf 'nodes 3\nseed 7\ncreate 1 0,1,2\nfill 1 4096\nhflush 1\nsettle\n'
    for ((n = 0; n < $1; n++)); do
        printf 'read 1 %d 0 512\n%b' $((n % 3)) "$2"
    done
    printf 'settle\nclose 1\n'
}
for reads in 800 1600; do
    script_of "$reads" 'settle\n' > "$work/turns-$reads"
    script_of "$reads" '' > "$work/open-$reads"
done

# The first play builds the program.
"$top/dn" play < "$work/open-800" > /dev/null

PYTHONPATH="$top/bench" PYTHONDONTWRITEBYTECODE=1 python3 - "$top/dn" "$work" "$runs" <<'PY'
import sys
from plays import best, play

program, work, runs = sys.argv[1], sys.argv[2], int(sys.argv[3])

for kind, half in [("turns", 800), ("open", 800)]:
    one, two = [best(lambda: play(program, f"{work}/{kind}-{reads}"), runs) for reads in (half, 2 * half)]
    print(f"{kind}: {half} reads in {one:.3f} s, {2 * half} in {two:.3f} s, ratio {two / one:.1f}")
PY
