#!/usr/bin/env bash
# Runs a block's life through a replica's book over memory, under each kind of sums, once for each allocation, which is refused in that run. A step
# that finds no memory is done again, so no answer may differ from those of a run in which none is refused.
#
# The program is built in a folder of its own, from a copy of the crates, with nothing of the repository changed. It prints how many runs there were,
# how many ended with an error before or after the book's calls (where memory for the program's own values was refused), and each that differs.
set -euo pipefail
here=$(cd "$(dirname "$0")" && pwd)
top=$(cd "$here/../.." && pwd)
work=$(mktemp -d)
trap 'rm -rf "$work"' EXIT

crates="hd_base file_calls refusing_files chunk_sums proto_fields mem_ports meta_file block_files packet_codec replica_core replica_model replica_calls replica_files"
git init -q "$work"
for crate in $crates; do
  grep "^$crate:" "$top/crates.txt" >> "$work/crates.txt"
  mkdir -p "$work/crates/$crate"
  tar -C "$top/crates/$crate" --exclude=./out -cf - . | tar -C "$work/crates/$crate" -xf -
done
echo 'refused_memory: hd_base mem_ports packet_codec replica_core replica_files bytes anyhow' >> "$work/crates.txt"
mkdir -p "$work/crates/refused_memory/src" "$work/crates/refused_memory/proofs/new_book"
cp "$here/program.rattle" "$work/crates/refused_memory/src/main.rt"
sed 's/book_bench/refused_memory/g' "$top/bench/book/new_book.answers" > "$work/crates/refused_memory/proofs/new_book/Answers.antt"
echo "proving and building; this takes some minutes" >&2
(cd "$work/crates/refused_memory" && rt run > "$work/build.txt" 2>&1) || { tail -n 40 "$work/build.txt" >&2; exit 1; }
program="$work/crates/refused_memory/out/refused_memory"
cc -O2 -shared -fPIC -o "$work/refuse.so" "$here/refuse.c" -ldl

COUNT="$work/count" LD_PRELOAD="$work/refuse.so" "$program" > "$work/wanted.txt"
count=$(cat "$work/count")
errors=0 differ=0
for ((number = 1; number <= count; number++)); do
  if REFUSE=$number LD_PRELOAD="$work/refuse.so" "$program" > "$work/got.txt" 2> "$work/error.txt"; then
    cmp -s "$work/wanted.txt" "$work/got.txt" || { differ=$((differ + 1)); echo "refused allocation $number:"; diff "$work/wanted.txt" "$work/got.txt" || true; }
  else
    errors=$((errors + 1))
    head -c "$(stat -c %s "$work/got.txt")" "$work/wanted.txt" | cmp -s - "$work/got.txt" || { differ=$((differ + 1)); echo "refused allocation $number, before the error:"; cat "$work/got.txt"; }
    echo "refused allocation $number: $(head -c 100 "$work/error.txt" | tr '\n' ' ')"
  fi
done
echo "$count runs, in each of which one allocation was refused: $errors ended with an error of the program's own, and in $differ an answer differed."
