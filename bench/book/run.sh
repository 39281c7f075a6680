#!/usr/bin/env bash
# Times a replica's book over memory against one pass of sums and two copies of the same bytes, in one run on this machine: the book must go
# at no less than half of that speed.
#
# The program is built in a folder of its own, from a copy of the crates, with nothing of the repository changed. Usage: run.sh [RUNS], 3 if left out.
set -euo pipefail
here=$(cd "$(dirname "$0")" && pwd)
top=$(cd "$here/../.." && pwd)
runs=${1:-3}
work=$(mktemp -d)
trap 'rm -rf "$work"' EXIT

crates="hd_base file_calls refusing_files chunk_sums proto_fields mem_ports meta_file block_files packet_codec replica_core replica_model replica_calls replica_files"
git init -q "$work"
for crate in $crates; do
  grep "^$crate:" "$top/crates.txt" >> "$work/crates.txt"
  mkdir -p "$work/crates/$crate"
  tar -C "$top/crates/$crate" --exclude=./out -cf - . | tar -C "$work/crates/$crate" -xf -
done
echo 'book_bench: hd_base mem_ports packet_codec replica_core replica_model replica_files bytes anyhow' >> "$work/crates.txt"
mkdir -p "$work/crates/book_bench/src" "$work/crates/book_bench/proofs/new_book"
cp "$here/program.rattle" "$work/crates/book_bench/src/main.rt"
cp "$here/new_book.answers" "$work/crates/book_bench/proofs/new_book/Answers.antt"
echo "proving and building; this takes some minutes" >&2
(cd "$work/crates/book_bench" && rt run > "$work/build.txt" 2>&1) || { tail -n 20 "$work/build.txt" >&2; exit 1; }

for ((run = 0; run < runs; run++)); do
  "$work/crates/book_bench/out/book_bench"
done > "$work/lines.txt"

awk '
  { if (!($1 in best) || $3 < best[$1]) best[$1] = $3; if ($1 == "book") bytes = $2 }
  END {
    printf "A book takes %d bytes at %.2f ns a byte; one pass of sums and two copies take %.2f ns a byte.\n", bytes, best["book"] / bytes, best["passes"] / bytes
    printf "So it goes at %.2f of that speed.\n", best["passes"] / best["book"] }
' "$work/lines.txt"
