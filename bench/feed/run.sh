#!/usr/bin/env bash
# Times frame_feed over packets of up to 16 MiB that come in pieces of 1 byte to 64 KiB, on this machine, and prints a table: the time for a
# byte must not grow with the packet, whatever the pieces.
#
# The program is built in a folder of its own, from a copy of the crates, with nothing of the repository changed. Usage: run.sh [RUNS], 3 if left out.
set -euo pipefail
here=$(cd "$(dirname "$0")" && pwd)
top=$(cd "$here/../.." && pwd)
runs=${1:-3}
work=$(mktemp -d)
trap 'rm -rf "$work"' EXIT

crates="hd_base proto_fields packet_codec ack_codec op_headers frame_feed"
git init -q "$work"
for crate in $crates; do
  grep "^$crate:" "$top/crates.txt" >> "$work/crates.txt"
  mkdir -p "$work/crates/$crate"
  tar -C "$top/crates/$crate" --exclude=./out -cf - . | tar -C "$work/crates/$crate" -xf -
done
echo 'feed_bench: packet_codec frame_feed bytes anyhow' >> "$work/crates.txt"
mkdir -p "$work/crates/feed_bench/src"
cp "$here/program.rattle" "$work/crates/feed_bench/src/main.rt"
echo "proving and building; this takes some minutes" >&2
(cd "$work/crates/feed_bench" && rt run > "$work/build.txt" 2>&1) || { tail -n 20 "$work/build.txt" >&2; exit 1; }

# The C library keeps memory that was freed, so that rounds after the first don't ask the system for fresh pages, whose cost is the system's alone.
export MALLOC_MMAP_MAX_=0 MALLOC_TRIM_THRESHOLD_=1073741824 MALLOC_TOP_PAD_=67108864
for ((run = 0; run < runs; run++)); do
  "$work/crates/feed_bench/out/feed_bench"
done > "$work/lines.txt"

awk '
  { key = $1 " " $2 " " $3; time = $4 / ($1 * $3); copy = $6 / ($1 * $3)
    if (!(key in copied) || copy < copied[key]) copied[key] = copy
    if (!(key in order)) { order[key] = ++count; keys[count] = key }
    if (!(key in best) || time < best[key]) best[key] = time }
  END {
    print "| Packet, bytes | Piece, bytes | Packets | ns for a byte | ns for a piece | to a plain copy |"
    print "|---|---|---|---|---|---|"
    for (i = 1; i <= count; i++) {
      split(keys[i], part, " "); piece = part[2] < part[1] ? part[2] : part[1]
      ratio = best[keys[i]] / copied[keys[i]]; if (piece >= 64 && ratio > most) most = ratio
      printf "| %s | %s | %s | %.3f | %.1f | %.2f |\n", part[1], part[2], part[3], best[keys[i]], best[keys[i]] * piece, ratio
      cost[part[1] " " part[2]] = best[keys[i]] }
    printf "\nOf 16 MiB, a byte in pieces of 1 byte costs %.1f times a byte in pieces of 64 KiB.\n", cost["16777218 1"] / cost["16777218 65536"]
    printf "A byte of 16 MiB costs, against one of 1 MiB: in pieces of 1 byte %.2f times as much, in pieces of 64 KiB %.2f times.\n",
      cost["16777218 1"] / cost["1048578 1"], cost["16777218 65536"] / cost["1048578 65536"]
    printf "In pieces of 64 bytes or more the feed takes at most %.2f times as long as these are only copied behind each other.\n", most }
' "$work/lines.txt"
