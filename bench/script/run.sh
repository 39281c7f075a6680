#!/usr/bin/env bash
# Times script_lang's reader on this machine: scripts of 65,536 lines, and of almost 16 MiB.
#
# The program is built in a folder of its own, from a copy of the crate and of hd_base, with nothing of the repository changed.
# Usage: run.sh [RUNS], 3 if left out. Each line is a script, its bytes, the best milliseconds, the bytes a second, and its lines.
set -euo pipefail
here=$(cd "$(dirname "$0")" && pwd)
top=$(cd "$here/../.." && pwd)
runs=${1:-3}
work=$(mktemp -d)
trap 'rm -rf "$work"' EXIT

git init -q "$work"
printf 'hd_base: thiserror\nscript_lang: hd_base thiserror hex itoa\nscript_bench: hd_base script_lang\n' > "$work/crates.txt"
mkdir -p "$work/crates/script_bench/src"
for crate in hd_base script_lang; do
  mkdir -p "$work/crates/$crate"
  tar -C "$top/crates/$crate" --exclude=./out -cf - . | tar -C "$work/crates/$crate" -xf -
done
cp "$here/program.rattle" "$work/crates/script_bench/src/main.rt"
echo "proving and building; this takes some minutes" >&2
(cd "$work/crates/script_bench" && rt run > "$work/build.txt" 2>&1) || { tail -n 20 "$work/build.txt" >&2; exit 1; }

for ((run = 0; run < runs; run++)); do
  "$work/crates/script_bench/out/script_bench"
done > "$work/lines.txt"

awk '
  { if (!($1 in best)) { order[++count] = $1; best[$1] = $3 }
    if ($3 < best[$1]) best[$1] = $3
    bytes[$1] = $2; lines[$1] = $4
    if ($4 == 0) { print "not read: " $1 > "/dev/stderr"; failed = 1 } }
  END {
    for (i = 1; i <= count; i++) { k = order[i]
      printf "%-8s %9d bytes %7.1f ms %6.2f GB/s %6d lines\n", k, bytes[k], best[k] / 1e6, bytes[k] / best[k], lines[k] }
    exit failed }' "$work/lines.txt"
