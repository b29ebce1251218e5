#!/usr/bin/env bash
# page.sh: makes the page of every examples/*.batch, of cut ones, of no input, of the sample shift's swing with its turn cut by `jobtext`, and of 5,000 random moves, and
# has tests/programs/page.py compare each with what `sheet`, `clearance` and `rooms` print of the same batch. Then what `page`, `jobtext` and `routetext` tell
# where something fails, with their exit status: a page is whole or not there. Last it has tests/programs/page-picture.sh make the picture of README. Exit
# status 1 where anything differs. Needs cargo or rustc, and Python 3.
set -u
cd "$(dirname "$0")/../.."
. tests/programs/with.sh
command -v python3 > /dev/null || { echo "skipped: page, jobtext and routetext: no python3 here"; exit 0; }
command -v cargo > /dev/null || command -v rustc > /dev/null || { echo "skipped: page, jobtext and routetext: neither cargo nor rustc is here"; exit 0; }
proved sheet clearance rooms gaps pack route sheet64
export PROGRAMS="$bin"
work="$(mktemp -d)"; trap 'rm -r "$work"' EXIT
bad=0
wrong() { echo "WRONG: $*"; bad=1; }
./foldflake help > /dev/null 2> "$work/told" || { cat "$work/told"; exit 1; }
page() { ./foldflake page "$@"; }
jobs_of() { ./foldflake jobtext "$@"; }
route_of() { ./foldflake routetext "$@"; }

same() { # same NAME BATCH: the page in the work folder says what the programs say of the batch
  for name in sheet clearance rooms; do $run "$bin"/$name < "$2" > "$work/$name"; done
  python3 tests/programs/page.py "$work/page.html" "$2" "$work/sheet" "$work/clearance" "$work/rooms" > "$work/said" 2>&1 \
    || { wrong "$1"; tail -n 3 "$work/said"; }
}
compare() { # compare NAME: the page of the batch in the work folder
  page "$work/batch" "$work/page.html" 2> "$work/told" || wrong "$1: $(cat "$work/told")"
  same "$1" "$work/batch"
  echo "$1:$(sed 's/^[^:]*://' "$work/said" | head -n 1)"
}
for batch in examples/*.batch; do
  cp "$batch" "$work/batch"; compare "$batch"
  head -c 1000 "$batch" > "$work/batch"; compare "the first 1000 bytes of $batch"
done
: > "$work/batch"; compare "no input"
cp crates/sheet/stdin "$work/batch"; compare "the batch of the gate"

# the swing, as one turn and cut into steps
swing='a plate: 5 5\nb: 0 -20  4 -20  4 20  0 20\na turned: 0 90\nb from: 6 0\n'
printf "job: 1\n$swing\njob: 11\n${swing}turn by: 10\n" > "$work/jobs"
jobs_of "$work/jobs" 2> "$work/told" | $run "$bin"/pack > "$work/batch"
grep -q 'line 12, job 11: cut into 9 steps, jobs 11 to 19' "$work/told" || wrong "jobtext told: $(cat "$work/told")"
grep -q 'line 4, job 1: warning: a turns by 90 degrees in one step, and S does not clear such a turn: `turn by: 10` cuts it' "$work/told" || wrong "no warning"
[ "$(tail -n 1 "$work/told")" = "$work/jobs: 10 jobs written" ] || wrong "jobtext told last: $(tail -n 1 "$work/told")"
compare "the swing"
grep -q '>not clear: further apart than 0.005 up to 0.1872 of the move, within 0.005 by 0.1873<' "$work/page.html" || wrong "the swing's card does not open so"
grep -q '^<section class="card touch warned" id="block1">$' "$work/page.html" || wrong "the swing's card is not red"
[ "$(cut -d ' ' -f 4 "$work/sheet" | head -n 10 | tr -d '\n')" = SSHOOOOOOS ] || wrong "the swing's letters"

# names and the unit of the text stand on the page; jobs of one number are told apart by block
page --text examples/shift.txt examples/shift.batch "$work/page.html" 2> /dev/null || wrong "a page with its text"
same "a page with its text" examples/shift.batch
for word in '<th>unit</th><td>100 mm</td>' '<span class="name">square cart turns at the wall</span>' '(unit: 100 mm)'; do
  grep -q "$word" "$work/page.html" || wrong "not on the page: $word"
done
cat examples/shift.batch examples/shift.batch > "$work/batch"; page "$work/batch" "$work/page.html" 2> /dev/null
grep -q '<a href="#block28">2113 (block 28)</a>' "$work/page.html" || wrong "jobs of one number are not told apart"

# random moves, most of which turn: every S that is not clear has its drawing, more than the usual 500 where more are so. PAGE_MOVES asks for more of them
for swings in 3 2500; do
  moves="${PAGE_MOVES:-$((swings > 500 ? 1200 : 300))}"
  python3 tests/cases/random_moves.py $swings "$moves" > "$work/batch"; compare "$moves random moves, $swings of 5,000 swings into a wall"
done

# what fails
refused() { # refused NAME STATUS TOLD COMMAND..: ends so, tells it on the last line, and leaves neither a page nor anything beside it
  local name="$1" status="$2" told="$3"; shift 3
  ls -A "$work/out" > "$work/before"
  "$@" > "$work/printed" 2> "$work/told"; local ended=$?
  ls -A "$work/out" | cmp -s - "$work/before" || wrong "$name: left $(ls -A "$work/out" | tr '\n' ' ')"
  [ "$ended" = "$status" ] || wrong "$name: exit status $ended, not $status"
  case "$(tail -n 1 "$work/told")" in *"$told"*) ;; *) wrong "$name: told '$(cat "$work/told")', not '$told'" ;; esac
  [ ! -s "$work/printed" ] || wrong "$name: printed something"
  echo "$name: exit status $ended, $(tail -n 1 "$work/told" | sed "s|$work/||g")"
}
mkdir "$work/out"; cp examples/shift.batch "$work/batch"; sheet="$work/out/sheet.html"
refused "no batch" 2 "none: No such file or directory" page "$work/none" "$sheet"
refused "a folder as batch" 2 "Is a directory" page "$work" "$sheet"
refused "no folder for the page" 2 "No such file or directory" page "$work/batch" "$work/out/none/sheet.html"
refused "a folder in the page's place" 2 "no file that a page can take the place of" page "$work/batch" "$work/out"
refused "a device in the page's place" 2 "no file that a page can take the place of" page "$work/batch" /dev/null
refused "the batch in the page's place" 2 "the page would take the batch's place" page "$work/batch" "$work/out/../batch"
cmp -s "$work/batch" examples/shift.batch || wrong "the batch was written over"
cp examples/shift.txt "$work/text"
refused "the text in the page's place" 2 "the page would take the text's place" page --text "$work/text" "$work/batch" "$work/text"
refused "another batch's text" 2 "it is not the text of $work/batch: block 1 is another job" page --text "$work/jobs" "$work/batch" "$sheet"
cat examples/shift.batch examples/shift.batch > "$work/twice"
refused "a text of fewer jobs" 2 "15 jobs, and 30 blocks" page --text "$work/text" "$work/twice" "$sheet"
for name in -x --no; do
  refused "the name $name" 2 "foldflake page: $name: a name that begins with - is not taken; ./$name names such a file" page "$work/batch" "$name"
  refused "the batch $name" 2 "foldflake page: $name: a name that begins with - is not taken" page "$name" "$sheet"
done
# another batch under the page's name is kept
cp examples/every-answer.batch "$work/out/other"; page "$work/batch" "$work/out/other" 2> "$work/told" || wrong "a page over a batch"
cmp -s "$work/out/other.old" examples/every-answer.batch && grep -q '</html>' "$work/out/other" || wrong "a batch in the page's place is not kept"
grep -q "other: it was no page; what it held is kept as .*other.old" "$work/told" || wrong "not told: $(cat "$work/told")"
page "$work/batch" "$work/out/other" 2> "$work/told" && ! grep -q "kept as" "$work/told" || wrong "a page over a page"
cp examples/every-answer.batch "$work/out/other"
refused "a batch in the page's place, .old is there" 2 "other.old is there already: nothing is replaced" page "$work/batch" "$work/out/other"
cmp -s "$work/out/other" examples/every-answer.batch && cmp -s "$work/out/other.old" examples/every-answer.batch || wrong "one of the two is gone"
rm "$work/out/other" "$work/out/other.old"
small() { (trap '' XFSZ; ulimit -f 16; page "$@"); }
refused "a write that fails" 2 "File too large" small "$work/batch" "$sheet"
echo before > "$sheet"
refused "a write that fails, over an old page" 2 "File too large" small "$work/batch" "$sheet"
[ "$(cat "$sheet")" = before ] || wrong "the old page is gone"
for words in "" "$work/batch" "$work/batch $sheet more" "--drawings x $work/batch $sheet" "--drawings $work/batch"; do
  refused "arguments '${words//$work\//}'" 2 "usage: foldflake page" page $words
done
ln -s sheet.html "$work/out/link.html"
page "$work/batch" "$work/out/link.html" 2> /dev/null; [ -L "$work/out/link.html" ] && grep -q '</html>' "$sheet" || wrong "a link is not followed"

refused "a text that is not there" 2 "none: No such file or directory" jobs_of "$work/none"
printf 'job: 7\na: 0 0\n\njob: 8\na: 0 0 1\nb: 1 1\n' > "$work/jobs"
refused "a text with faults" 2 "refused, and nothing is printed" jobs_of "$work/jobs"
printf "%s\n" "$work/jobs, line 1, job 7: no line \`b\`, \`b plate\` or \`b bar\`" "$work/jobs, line 5, job 8: 3 numbers are no points: x y for each" \
  | cmp -s - <(head -n 2 "$work/told") || wrong "told: $(cat "$work/told")"
for reader in jobs_of route_of; do
  text=examples/shift.txt; [ $reader = jobs_of ] || text=examples/hall.txt
  refused "$reader, no text named" 2 "usage: " $reader
  refused "$reader, two texts" 2 "usage: " $reader a b
  refused "$reader, the name -x" 2 "-x: a name that begins with - is not taken; ./-x names such a file" $reader -x
  refused "$reader, an empty text" 2 "refused, and nothing is printed" $reader /dev/null
  grep -q "/dev/null, line 1: no .* is in the text" "$work/told" || wrong "an empty text: $(cat "$work/told")"
  printf 'job: 7\na: 0 0\nname: K\344fig\nb: 1 1\n' > "$work/bytes"
  refused "$reader, no UTF-8" 2 "refused, and nothing is printed" $reader "$work/bytes"
  grep -q "line 3: byte 8 of the line, E4, is no UTF-8" "$work/told" || wrong "no UTF-8: $(cat "$work/told")"
  full() { $reader $text > /dev/full; }
  refused "$reader, full output" 2 "standard output: No space left on device" full
  shut() { $reader $text >&-; }
  refused "$reader, closed output" 2 "standard output: it is closed" shut
  shut() { $reader - <&-; }
  refused "$reader, closed input" 2 "standard input: it is closed" shut
  $reader --help > "$work/help" 2> "$work/told" && [ ! -s "$work/told" ] && grep -q '^usage: ' "$work/help" || wrong "$reader --help"
  [ "$(wc -l < "$work/help")" -gt 15 ] || wrong "$reader --help explains little"
  $reader - < $text 2> /dev/null | cmp - <($reader $text 2> /dev/null) || wrong "$reader, standard input"
  (printf '\357\273\277'; cat $text) | $reader - 2> /dev/null | cmp - <($reader $text 2> /dev/null) || wrong "$reader, a byte order mark"
done
page --help 2> "$work/told" | grep -q '^usage: foldflake page' || wrong "page --help"
jobs_of examples/shift.txt 2> /dev/null | $run "$bin"/pack | cmp - examples/shift.batch || wrong "the sample shift from its text"
[ "$(route_of examples/hall.txt 2> "$work/told" | $run "$bin"/route)" = "0 CLEAR 34" ] || wrong "the hall from its text"
grep -q 'line 22: outline 1 is column 1' "$work/told" && grep -q 'a route of 5 legs past 6 outlines written' "$work/told" || wrong "the hall's names"

# a broken pipeline does not look finished: with pipefail it fails, and the sheet says that no block came
(set -o pipefail; jobs_of "$work/bytes" 2> /dev/null | $run "$bin"/pack | $run "$bin"/sheet > "$work/printed" 2> "$work/told") && wrong "a broken pipeline"
[ "$(cat "$work/printed" "$work/told")" = $'TOTAL 0 0 0 0 0\nstandard input: no block came' ] || wrong "a broken pipeline: $(cat "$work/printed" "$work/told")"
$run "$bin"/sheet64 < /dev/null 2>&1 > /dev/null | grep -q '^standard input: no block came$' || wrong "sheet64 of nothing"

# a long batch: told as it goes, within seconds. PAGE_BLOCKS asks for a longer one
long="${PAGE_BLOCKS:-2000}"; red=$(((long + 2) / 15)); drawn=$((red > 500 ? red : 500))
for i in $(seq $((long / 15 + 1))); do cat examples/shift.batch; done | head -c $((512 * long)) > "$work/long"
TIMEFORMAT="$long blocks in %R s, %U s of the processor"; time FOLDFLAKE_PROGRESS=yes page "$work/long" "$sheet" 2> "$work/told" || wrong "a long batch"
for name in sheet clearance rooms gaps; do
  [ "$(grep -c "^$name: .* of $long blocks, .* s$" "$work/told")" = $((long / 1000)) ] || wrong "how far $name is, is not told"
done
echo "a page of $(($(stat -c %s "$sheet") / 1000000)) MB"
[ "$(grep -c 'class="paper"' "$sheet")" = $drawn ] || wrong "not all red ones are drawn: $(grep -c 'class="paper"' "$sheet")"
page --drawings 5 "$work/long" "$sheet" 2> /dev/null; [ "$(grep -c 'class="paper"' "$sheet")" = 5 ] || wrong "not 5 drawings"
tests/programs/page-picture.sh "$work/page.png" || wrong "the picture"
exit $bad
