#!/usr/bin/env bash
# Times chains of 3 and of 16 members over memory that are sent 32 MiB, against as many passes of sums and copies of the same bytes as the
# members need, in one run on this machine: a chain must go at no less than a third of that speed.
#
# The program is built in a folder of its own, from a copy of the crates, with nothing of the repository changed. Usage: run.sh [RUNS], 3 if left out.
set -euo pipefail
here=$(cd "$(dirname "$0")" && pwd)
top=$(cd "$here/../.." && pwd)
runs=${1:-3}
work=$(mktemp -d)
trap 'rm -rf "$work"' EXIT

crates="hd_base file_calls refusing_files chunk_sums proto_fields link_pieces mem_ports meta_file block_files packet_codec ack_codec op_headers frame_feed \
  link_messages node_refs replica_core replica_model replica_calls request_refusals member_core replica_files block_receiver packet_responder \
  pipe_turns pipe_setup pipe_member"
git init -q "$work"
for crate in $crates; do
  grep "^$crate:" "$top/crates.txt" >> "$work/crates.txt"
  mkdir -p "$work/crates/$crate"
  tar -C "$top/crates/$crate" --exclude=./out -cf - . | tar -C "$work/crates/$crate" -xf -
done
echo 'member_bench: hd_base mem_ports packet_codec op_headers node_refs replica_core replica_model replica_files pipe_member bytes anyhow' >> "$work/crates.txt"
mkdir -p "$work/crates/member_bench/src" "$work/crates/member_bench/proofs/knows" "$work/crates/member_bench/proofs/new_book"
cp "$here/program.rattle" "$work/crates/member_bench/src/main.rt"
cp "$here/knows.answers" "$work/crates/member_bench/proofs/knows/Answers.antt"
cp "$here/new_book.answers" "$work/crates/member_bench/proofs/new_book/Answers.antt"
echo "proving and building; this takes some minutes" >&2
(cd "$work/crates/member_bench" && rt run > "$work/build.txt" 2>&1) || { tail -n 20 "$work/build.txt" >&2; exit 1; }

# The C library keeps memory that was freed: the files and the roads hold all that was written and sent, and fresh pages of the system for these
# would be timed with a chain alone.
export MALLOC_MMAP_MAX_=0 MALLOC_TRIM_THRESHOLD_=100000000000 MALLOC_TOP_PAD_=67108864
for ((run = 0; run < runs; run++)); do
  "$work/crates/member_bench/out/member_bench"
done > "$work/lines.txt"

awk '
  { key = $1 " " $2; members[$2] = $2
    if (!(key in best) || $4 < best[key]) best[key] = $4
    if ($1 == "chain") bytes[$2] = $3 }
  END {
    for (n in members) {
      printf "A chain of %d members takes %d bytes at %.2f ns a byte; the passes and copies that it needs take %.2f ns a byte.\n",
        n, bytes[n], best["chain " n] / bytes[n], best["passes " n] / bytes[n]
      printf "So it goes at %.2f of that speed.\n", best["passes " n] / best["chain " n] } }
' "$work/lines.txt"
