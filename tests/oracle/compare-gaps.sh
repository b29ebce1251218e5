#!/usr/bin/env bash
# compare-gaps.sh SRC [BATCHES [COUNT]]: makes BATCHES seeded batches of COUNT blocks (default 10 of 1,000) of twelve families (see oracle/batches.rs),
# and as many carts, convex outlines and outlines that nearly touch (oracle/families.rs), has the gaps of each along its moves worked by the oracle's own
# distance call and by `gaps`, and compares every byte; then files of 23 to 26 blocks, with and without a short rest, at the border of a part.
# SRC is the folder that holds query/sweep_toi/*.rs of parry2d 0.31.1.
set -eu
src="$1"; batches="${2:-10}"; count="${3:-1000}"
cd "$(dirname "$0")/../.."
oracle/build.sh "$src" target/oracle
. tests/programs/with.sh
proved gaps
work="$(mktemp -d)"; trap 'rm -r "$work"' EXIT
differ=0; lines=0
same() { # same NAME: the gaps of the batch in the work folder
  target/oracle/oracle gaps < "$work/batch" > "$work/oracle"
  $run "$bin/gaps" < "$work/batch" > "$work/ours"
  cmp -s "$work/oracle" "$work/ours" \
    || { differ=$((differ + 1)); echo "$1 differs: $(diff "$work/oracle" "$work/ours" | head -n 2 | cut -c 1-200 | tr '\n' ' ')"; }
  lines=$((lines + $(grep -c '^[0-9]* [0-9]* 0 ' "$work/ours" || true)))
}
for seed in $(seq 1 "$batches"); do
  target/oracle/oracle batch "$seed" "$count" > "$work/batch"
  same "seed $seed"
done
for family in carts convex near; do
  target/oracle/oracle "$family" 1 "$count" > "$work/batch"
  same "$family"
done
target/oracle/oracle batch 7 27 > "$work/whole"
for length in 11776 11777 12287 12288 12289 12799 12800 13312 13313; do
  head -c "$length" "$work/whole" > "$work/batch"
  same "length $length"
done
echo "$((batches * count)) blocks in $batches batches, $count of three families each, 9 files around a part: $lines worked blocks, $differ files differ"
[ "$differ" = 0 ]
