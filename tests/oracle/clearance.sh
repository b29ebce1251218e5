#!/usr/bin/env bash
# clearance.sh SRC [COUNT]: makes COUNT moves of each of the ten kinds of docs/TURNS.md (default 90,000), and as many blocks of the oracle's own families
# in four parts (mixed, carts, convex outlines, outlines that nearly touch), has `clearance` answer them, and holds its lines to a dense look in f64
# (clearance.c). Answers 1 where a line is unsound, spoiled lines go
# unnoticed, or a refused block is not refused as on the oracle's sheet.
# SRC is the folder that holds query/sweep_toi/*.rs of parry2d 0.31.1.
set -eu
src="$1"; count="${2:-90000}"
cd "$(dirname "$0")/../.."
oracle/build.sh "$src" target/oracle
. tests/programs/with.sh
proved clearance
work="$(mktemp -d)"; trap 'rm -r "$work"' EXIT
cc -O2 -Wall -o "$work/look" tests/oracle/clearance.c -lm
status=0
look() { # look NAME COUNT: the batch in the work folder, told by parts of COUNT blocks
  echo "--- $1"
  $run "$bin/clearance" < "$work/batch" > "$work/lines"
  "$work/look" "$work/batch" "$work/lines" "$2" || status=1
  tail -n 1 "$work/lines"
  target/oracle/oracle sheet < "$work/batch" > "$work/sheet"
  awk '$3 > 0 && $1 != "TOTAL"' "$work/lines" > "$work/refused"
  awk '$3 > 0 && $1 != "TOTAL"' "$work/sheet" | cmp -s - "$work/refused" || { echo "refused blocks are not those of the sheet"; status=1; }
  # the sheet's letters beside the verdicts
  paste -d' ' <(awk '{print ($3 > 0 ? "refused" : $4)}' "$work/sheet") <(awk '{print ($3 > 0 ? "refused" : $4)}' "$work/lines") | sed '$d' | sort | uniq -c | sed 's/^ */    /'
}
target/oracle/oracle turning 1 "$count" > "$work/batch"; look "ten kinds of moves" "$count"
# spoiled answers are noticed: a contact told CLEAR, u moved on to 1, t moved back to 0
for spoil in 's/ 0 TOUCH .*/ 0 CLEAR 1/' 's/ TOUCH [^ ]* [^ ]*/ TOUCH 3F800000 3F800000/' 's/ TOUCH [^ ]* [^ ]*/ TOUCH 00000000 00000000/'; do
  sed "$spoil" "$work/lines" | head -n 3000 > "$work/spoiled"; head -c $((3000 * 512)) "$work/batch" > "$work/few"
  found="$("$work/look" "$work/few" "$work/spoiled" 3000 | grep -c ^UNSOUND)" || true
  echo "spoiled by $spoil: $found noticed"; [ "$found" -gt 0 ] || status=1
done
target/oracle/oracle batch 1 "$count" > "$work/batch"; look "twelve families" "$count"
for family in carts convex near; do target/oracle/oracle "$family" 1 "$((count / 3))" > "$work/batch"; look "$family" "$((count / 3))"; done
exit $status
