#!/usr/bin/env bash
# Times the scan of a shelf of 10,000 blocks of 64 KiB in memory against one pass of sums and one copy of the same bytes, in one run on this
# machine: the scan must go at no less than half of that speed.
#
# The program is built in a folder of its own, from a copy of the crates, with nothing of the repository changed. It takes some 1.5 GB of
# memory. Usage: run.sh [RUNS], 3 if left out.
set -euo pipefail
here=$(cd "$(dirname "$0")" && pwd)
top=$(cd "$here/../.." && pwd)
runs=${1:-3}
work=$(mktemp -d)
trap 'rm -rf "$work"' EXIT

crates="hd_base file_calls chunk_sums proto_fields refusing_files mem_ports meta_file block_files packet_codec replica_core replica_model \
  replica_calls replica_files restart_scan"
git init -q "$work"
for crate in $crates; do
  grep "^$crate:" "$top/crates.txt" >> "$work/crates.txt"
  mkdir -p "$work/crates/$crate"
  tar -C "$top/crates/$crate" --exclude=./out -cf - . | tar -C "$work/crates/$crate" -xf -
done
echo 'scan_bench: hd_base chunk_sums mem_ports meta_file restart_scan anyhow' >> "$work/crates.txt"
mkdir -p "$work/crates/scan_bench/src"
cp "$here/program.rattle" "$work/crates/scan_bench/src/main.rt"
echo "proving and building; this takes some minutes" >&2
(cd "$work/crates/scan_bench" && rt run > "$work/build.txt" 2>&1) || { tail -n 20 "$work/build.txt" >&2; exit 1; }

for ((run = 0; run < runs; run++)); do
  "$work/crates/scan_bench/out/scan_bench"
done > "$work/lines.txt"

awk '
  { if (!($1 in best) || $3 < best[$1]) best[$1] = $3; bytes[$1] = $2 }
  END {
    if (bytes["scan"] != bytes["passes"]) { print "what was found differs from what was summed" > "/dev/stderr"; exit 1 }
    printf "A scan goes over %d bytes at %.2f ns a byte; one pass of sums and one copy take %.2f ns a byte.\n",
      bytes["scan"], best["scan"] / bytes["scan"], best["passes"] / bytes["passes"]
    printf "So it goes at %.2f of that speed.\n", best["passes"] / best["scan"] }
' "$work/lines.txt"
