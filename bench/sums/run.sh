#!/usr/bin/env bash
# Times chunk_sums beside a plain Rust slicing by 16, the processor's instruction (crc32 for CRC32C, PCLMULQDQ for CRC32, as ISA-L has them) and
# what ISA-L takes on this processor, for CRC32C and CRC32, and prints a table of ratios. A second table has bodies that are summed by chunks of
# 512 bytes and copied: in one pass, and by chunk_sums and a copy one after the other.
#
# The proved program is built in a folder of its own, from a copy of the crate and of hd_base, with nothing of the repository changed. All
# four ways go over the same bytes, and the script stops where what they computed differs. Usage: run.sh [RUNS], 3 if left out.
set -euo pipefail
here=$(cd "$(dirname "$0")" && pwd)
top=$(cd "$here/../.." && pwd)
runs=${1:-3}
work=$(mktemp -d)
trap 'rm -rf "$work"' EXIT

if [ ! -e /usr/include/isa-l/crc.h ]; then
  sudo=$([ "$(id -u)" = 0 ] || echo sudo)
  $sudo apt-get update -qq && $sudo apt-get install -y -qq libisal-dev
fi

git init -q "$work"
printf 'hd_base: thiserror\nchunk_sums: hd_base\nsums_bench: hd_base chunk_sums\n' > "$work/crates.txt"
mkdir -p "$work/crates/sums_bench/src"
for crate in hd_base chunk_sums; do
  mkdir -p "$work/crates/$crate"
  tar -C "$top/crates/$crate" --exclude=./out -cf - . | tar -C "$work/crates/$crate" -xf -
done
cp "$here/program.rattle" "$work/crates/sums_bench/src/main.rt"
echo "proving and building; this takes some minutes" >&2
(cd "$work/crates/sums_bench" && rt run > "$work/build.txt" 2>&1) || { tail -n 20 "$work/build.txt" >&2; exit 1; }
rustc --edition 2024 -O -o "$work/plain" "$here/plain.rs"

for ((run = 0; run < runs; run++)); do
  "$work/crates/sums_bench/out/sums_bench" | sed 's/^/proved /'
  "$work/plain"
done > "$work/lines.txt"

awk '
  { key = $2 " " $3; speed = $3 * $4 / $5
    if (!(key in order)) { order[key] = ++count; keys[count] = key }
    if (result[key] == "") result[key] = $6
    if (result[key] != $6) { print "what was computed differs: " key > "/dev/stderr"; failed = 1 }
    if (speed > best[$1, key]) best[$1, key] = speed }
  END {
    if (failed) exit 1
    split("crc32c crc32", kinds, " "); name["crc32c"] = "CRC32C"; name["crc32"] = "CRC32"
    for (k in kinds) {
      kind = kinds[k]
      for (size = 512; size <= 4096; size *= 2) {
        title[kind "-writing-" size " 65536"] = name[kind] ", chunks of " size " B, written"
        title[kind "-testing-" size " 65536"] = name[kind] ", chunks of " size " B, tested"
        title[kind "-refusing-" size " 65536"] = name[kind] ", chunks of " size " B, tested, the last wrong"
      }
      title[kind "-body 65536"] = name[kind] ", 64 KiB"; title[kind "-body 1048576"] = name[kind] ", 1 MiB"
      title[kind "-body 67108864"] = name[kind] ", 64 MiB"
    }
    print "| | chunk_sums GB/s | plain GB/s | instruction GB/s | ISA-L GB/s | to plain | to the instruction | to ISA-L |"
    print "|---|---|---|---|---|---|---|---|"
    for (i = 1; i <= count; i++) {
      key = keys[i]; if (key ~ /-(together|apart)-/) continue
      ours = best["proved", key]; plain = best["plain", key]; one = best["instruction", key]; isal = best["isal", key]
      printf "| %s | %.2f | %.2f | %.2f | %.2f |", title[key], ours, plain, one, isal
      printf " %.2f | %.2f | %.2f |\n", ours / plain, ours / one, ours / isal }
    print "\n| Summed and copied | in one pass GB/s | in two GB/s | one to two |"
    print "|---|---|---|---|"
    split("65536 1048576", lens, " "); shown[1] = "64 KiB"; shown[2] = "1 MiB"
    for (k = 1; k <= 2; k++) for (l = 1; l <= 2; l++) {
      one = kinds[k] "-together-512 " lens[l]; two = kinds[k] "-apart-512 " lens[l]
      if (result[one] != result[two]) { print "what was computed differs: " one > "/dev/stderr"; exit 1 }
      printf "| %s, %s | %.2f | %.2f | %.2f |\n", name[kinds[k]], shown[l], best["proved", one], best["proved", two], best["proved", one] / best["proved", two] } }
' "$work/lines.txt"
