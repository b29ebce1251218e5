#!/usr/bin/env bash
# compare.sh [--f64] distance|sweep|ground SRC [SEEDS [COUNT]]: asks the oracle for COUNT random calls from each of SEEDS pools (default 50 of 20,020),
# or for COUNT of each ground operation from each of SEEDS seeds, has the proved program answer them, and says how many differ; with --f64 the oracle's
# f64 build and `replay64`. SRC is the folder that holds query/sweep_toi/*.rs of parry2d 0.31.1.
set -eu
wide=""; if [ "$1" = --f64 ]; then wide=64; shift; fi
kind="$1"; src="$2"; seeds="${3:-50}"; count="${4:-20020}"
cd "$(dirname "$0")/../.."
oracle/build.sh ${wide:+--f64} "$src" target/oracle
. tests/programs/with.sh
proved "replay$wide"
total() { sed -n "s/.*$1 \([0-9]*\),.*/\1/p" <<< "$out" | awk '{n += $1} END {print n + 0}'; }
rows=0; differ=0
for seed in $(seq 1001 $((1000 + seeds))); do
  out="$("target/oracle/oracle$wide" "$kind" "$seed" "$count" 1 2> /dev/null | $run "$bin/replay$wide")"
  rows=$((rows + $(total rows)))
  here=$(total differ)
  [ "$here" = 0 ] || echo "seed $seed: $here differ"
  differ=$((differ + here))
done
echo "$kind${wide:+ in f64}: $rows calls, $differ differ"
[ "$rows" -gt 0 ] && [ "$differ" = 0 ]
