#!/usr/bin/env bash
# faults.sh: what `sheet` and the C and Rust examples tell where input, output or arguments are at fault. For each fault and program: the exit
# status, the first line on standard error, and that what was printed does not pass for a finished sheet. Exit status 1 where one differs.
# Which programs are run, and how, is said in tests/programs/with.sh and build-examples.sh; SHEET names another program to try in the place of `sheet`.
#
# - `sheet` ends with status 0 even then. C and Rust end with 1, for an argument with 2.
# - Rust adds `(os error N)` to the system's text, which is taken off here.
# - Rust's start-up opens /dev/null where the input is closed, so that its example sees no input and prints the sheet of none.
# - Where a pipe is closed early the system ends a program (status 141), unless the signal is ignored, as Rust's start-up does: then the write
#   fails, and that is told. Rattle's start-up ignores it too, and `sheet` then ends as the system would end it, without a word.
set -u
cd "$(dirname "$0")/../.."
. tests/programs/with.sh
proved sheet; linked
work="$(mktemp -d)"; trap 'rm -r "$work"' EXIT
declare -A program=([sheet]="${SHEET:-$bin/sheet}" [c]=target/link/sheet-c [rust]=target/link/sheet-rust)
declare -A faulty=([sheet]=0 [c]=1 [rust]=1) argued=([sheet]=0 [c]=2 [rust]=2) piped=([sheet]=141 [c]=141 [rust]=1)
cp examples/shift.batch "$work/batch"
for _ in $(seq 1000); do cat "$work/batch"; done > "$work/long"
bad=0

# docs/PROGRAMS.md's line: the sheet is whole.
finished() { awk 'END { exit !($1 == "TOTAL" && $2 == NR - 1) }' "$1"; }

expect() { # expect FAULT STATUS TEXT: of the last run, which left its status in `ended` and its words in the work folder
  told="$(head -n 1 "$work/err" | sed 's/ (os error [0-9]*)$//')"
  if [ "$ended" = "$2" ] && [ "$told" = "$3" ] && ! finished "$work/out"; then
    echo "$kind, $1: status $ended, ${told:-nothing told}"
  else
    echo "$kind, $1: WRONG: status $ended, told '$told', last line '$(tail -n 1 "$work/out")'; expected status $2, '$3' and no TOTAL"
    bad=1
  fi
}

for kind in sheet $kinds; do
  this="$run ${program[$kind]}"
  status=${faulty[$kind]}

  timeout 60 $this < "$work/batch" > "$work/out" 2> "$work/err"
  finished "$work/out" || { echo "$kind: WRONG: a sheet without a fault does not pass for finished"; bad=1; }

  : > "$work/out"
  timeout 60 $this < "$work" > "$work/out" 2> "$work/err"; ended=$?
  expect "a directory as input" "$status" "standard input: Is a directory"

  timeout 60 $this <&- > "$work/out" 2> "$work/err"; ended=$?
  if [ $kind = rust ]; then
    [ "$ended" = 0 ] && [ "$(cat "$work/out")" = "$($run "$bin/sheet" < /dev/null)" ] || { echo "rust, closed input: WRONG: status $ended"; bad=1; }
    echo "rust, closed input: as no input"
  else
    expect "closed input" "$status" "standard input: Bad file descriptor"
  fi

  : > "$work/out"
  for input in long batch nothing; do
    : > "$work/nothing"
    timeout 60 $this < "$work/$input" > /dev/full 2> "$work/err"; ended=$?
    expect "full output, input: $input" "$status" "standard output: No space left on device"
  done

  timeout 60 $this < "$work/long" 2> "$work/err" | head -n 1 > "$work/out"; ended=${PIPESTATUS[0]}
  text=""; [ $kind = rust ] && text="standard output: Broken pipe"
  expect "a pipe closed early" "${piped[$kind]}" "$text"
  (trap '' PIPE; timeout 60 $this < "$work/long" 2> "$work/err") | head -n 1 > "$work/out"; ended=${PIPESTATUS[0]}
  text="standard output: Broken pipe"; [ $kind = sheet ] && { status=${piped[sheet]}; text=""; }
  expect "the same, the signal ignored" "$status" "$text"
  status=${faulty[$kind]}

  # what is left of the input after the run is all of it
  { timeout 60 $this word > "$work/out" 2> "$work/err"; ended=$?; cat > "$work/left"; } < "$work/batch"
  expect "an argument" "${argued[$kind]}" "sheet: no argument is taken"
  cmp -s "$work/left" "$work/batch" && [ ! -s "$work/out" ] || { echo "$kind, an argument: WRONG: something was read or printed"; bad=1; }
done
exit $bad
