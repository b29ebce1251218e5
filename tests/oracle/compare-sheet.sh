#!/usr/bin/env bash
# compare-sheet.sh [--f64] SRC [BATCHES [COUNT]]: makes BATCHES seeded batches of COUNT blocks (default 100 of 10,000) of twelve families (see
# oracle/batches.rs), runs the oracle's sheet and ours on each, and compares every byte; likewise COUNT carts, convex outlines and outlines that nearly
# touch (oracle/families.rs); then files of every length from 1 to 1,023 bytes. With --f64 the same, worked by the oracle's f64 build and by `sheet64`.
# SRC is the folder that holds query/sweep_toi/*.rs of parry2d 0.31.1.
set -eu
wide=""; if [ "$1" = --f64 ]; then wide=64; shift; fi
src="$1"; batches="${2:-100}"; count="${3:-10000}"
cd "$(dirname "$0")/../.."
oracle/build.sh "$src" target/oracle
[ -z "$wide" ] || oracle/build.sh --f64 "$src" target/oracle
. tests/programs/with.sh
proved "sheet$wide"
work="$(mktemp -d)"; trap 'rm -r "$work"' EXIT
differ=0
same() { # same NAME: the two sheets of the batch in the work folder
  "target/oracle/oracle$wide" sheet < "$work/batch" > "$work/oracle"
  $run "$bin/sheet$wide" < "$work/batch" > "$work/ours"
  cmp -s "$work/oracle" "$work/ours" || { differ=$((differ + 1)); echo "$1 differs: $(diff "$work/oracle" "$work/ours" | head -n 2 | tr '\n' ' ')"; }
}
for seed in $(seq 1 "$batches"); do
  target/oracle/oracle batch "$seed" "$count" > "$work/batch"
  same "seed $seed"
  cut -d' ' -f3,4 "$work/ours" | grep -v '^[0-9]* [0-9]*$' >> "$work/kinds" || true
done
echo "$((batches * count)) blocks in $batches batches, $differ differ"
awk '{kind = $1 == 0 ? $2 : $1; n[kind]++} END {for (k in n) printf "%s %d  ", k, n[k]; print ""}' "$work/kinds"
for family in carts convex near; do
  target/oracle/oracle "$family" 1 "$count" > "$work/batch"
  same "$family"
done
echo "$count carts, as many convex outlines and as many that nearly touch, $differ differ in all"
target/oracle/oracle batch 7 2 > "$work/whole"
for length in $(seq 1 1023); do
  head -c "$length" "$work/whole" > "$work/batch"
  same "length $length"
done
echo "1023 cut files, $differ differ in all"
[ "$differ" = 0 ]
