#!/usr/bin/env bash
# whole-moves.sh: runs `all_clear` and `rooms` on the cases below and compares what they write with the lines of `clearance`: the number is that of its first line
# without CLEAR, `none` where there is none; a room is told just where its line has CLEAR; refused lines and their count are the same. Exit status 1 where one
# differs. tests/programs/with.sh says which programs are run, and how.
set -u
cd "$(dirname "$0")/../.."
. tests/programs/with.sh
proved clearance all_clear rooms
work="$(mktemp -d)"; trap 'rm -r "$work"' EXIT
bad=0

# runs PROGRAM INPUT OUT: what it prints goes to OUT, what it tells to err
runs() { timeout 60 $run "$bin/$1" < "$2" > "$3" 2> "$work/err"; }

# block N [BYTES]: block N of clearance's stored batch, or its first bytes
block() { tail -c +$((512 * ($1 - 1) + 1)) crates/clearance/stdin | head -c "${2:-512}"; }
many() { for _ in $(seq "$1"); do block "$2"; done; }

# both CASE FILE: the two programs beside `clearance`
both() {
  runs clearance "$2" "$work/lines"
  first="$(awk '$1 != "TOTAL" && $4 != "CLEAR" { print $1; exit }' "$work/lines")"
  runs all_clear "$2" "$work/out"
  if [ "$(cat "$work/out")" = "${first:-none}" ] && [ ! -s "$work/err" ]; then
    echo "all_clear, $1: ${first:-none}"
  else
    echo "all_clear, $1: WRONG: printed '$(cat "$work/out")', told '$(cat "$work/err")'; expected '${first:-none}'"; bad=1
  fi
  runs rooms "$2" "$work/out"
  awk '$1 == "TOTAL" { print $1, $2, $6; next } $3 != 0 { print; next } { print $1, $2, 0, ($4 == "CLEAR" ? "room" : "-") }' "$work/lines" > "$work/expected"
  awk '$1 == "TOTAL" || $3 != 0 { print; next } $5 !~ /^[CTO]+$/ || length($5) != 64 { print "no cells"; next }
    { print $1, $2, 0, ($4 ~ /^[0-9A-F]+$/ && length($4) == 8 ? "room" : $4) }' "$work/out" > "$work/told"
  if cmp -s "$work/told" "$work/expected" && [ ! -s "$work/err" ]; then
    echo "rooms, $1: $(tail -n 1 "$work/out")"
  else
    echo "rooms, $1: WRONG: $(diff "$work/told" "$work/expected" | head -n 3 | tr '\n' ' '), told '$(cat "$work/err")'"; bad=1
  fi
}
both "the sample shift" examples/shift.batch
both "the same in form 2" examples/shift-form-2.batch
both "every answer of a sheet, a short block last" examples/every-answer.batch
both "the stored batch" crates/clearance/stdin
many 3 1 > "$work/batch";                          both "all clear" "$work/batch"
many 128 2 > "$work/batch";                        both "all clear in a whole part" "$work/batch"
{ many 128 1; block 5 100; } > "$work/batch";      both "a short block in the second part" "$work/batch"
{ many 127 1; block 16; block 3; } > "$work/batch"; both "OPEN, the last of the first part" "$work/batch"
{ many 129 1; block 11; } > "$work/batch";         both "refused, in the second part" "$work/batch"
block 1 100 > "$work/batch";                       both "a short block alone" "$work/batch"

# no block: all_clear prints nothing, rooms its TOTAL
: > "$work/nothing"
for program in all_clear rooms; do
  expected=""; [ $program = rooms ] && expected="TOTAL 0 0"
  runs $program "$work/nothing" "$work/out"
  if [ "$(cat "$work/out")" = "$expected" ] && [ "$(cat "$work/err")" = "standard input: no block came" ]; then
    echo "$program, no input: ${expected:-nothing printed}, told: $(cat "$work/err")"
  else
    echo "$program, no input: WRONG: printed '$(cat "$work/out")', told '$(cat "$work/err")'"; bad=1
  fi
done

# it reads no part behind the one that decides: of 512 blocks, 256 KiB, the parts behind are left
{ block 3; many 511 1; } > "$work/long"
{ timeout 60 $run "$bin/all_clear" > "$work/out"; cat > "$work/left"; } < "$work/long"
if [ "$(cat "$work/out")" = 1 ] && [ "$(wc -c < "$work/left")" -eq $((3 * 65536)) ]; then
  echo "all_clear, the first of 512 blocks: 1, $((3 * 65536)) bytes left"
else
  echo "all_clear, the first of 512 blocks: WRONG: printed '$(cat "$work/out")', $(wc -c < "$work/left") bytes left"; bad=1
fi
exit $bad
