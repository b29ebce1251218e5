#!/usr/bin/env bash
# verbs.sh: every verb of ./foldflake on good and bad input: what it prints and writes beside what the programs print, files, and exit statuses. Exit status 1
# where one differs. Runs on x86-64 and, with the kit's emulator, elsewhere. Needs cargo or rustc, and Python 3 for one check.
set -u
cd "$(dirname "$0")/../.."
. tests/programs/with.sh
command -v cargo > /dev/null || command -v rustc > /dev/null || { echo "skipped: the verbs of ./foldflake: neither cargo nor rustc is here"; exit 0; }
proved sheet sheet64 clearance any_contact all_clear report route route_clearance pack unpack convert salvage rooms gaps
export PROGRAMS="$bin"
work="$(mktemp -d)"; trap 'rm -r "$work"' EXIT
bad=0; cases=0
wrong() { echo "WRONG: $*"; bad=1; }
ff() { ./foldflake "$@"; }
program() { local name="$1"; shift; $run "$bin/$name" "$@"; }
ff help > /dev/null 2> "$work/told" || { cat "$work/told"; exit 1; }

# ends NAME STATUS TOLD COMMAND..: ends so; what it told on standard error has this in its last line (nothing: it told nothing; *: whatever it told); what
# it printed is left in $work/printed. It leaves nothing in the folder of temporary files.
mkdir "$work/temporary"; export TMPDIR="$work/temporary"
ends() {
  local name="$1" status="$2" told="$3" last; shift 3
  "$@" > "$work/printed" 2> "$work/told" < "${input:-/dev/null}"; local ended=$?
  [ $ended = "$status" ] || wrong "$name: exit status $ended, not $status: $(tail -n 2 "$work/told")"
  last="$(tail -n 1 "$work/told")"
  case $told in
  "") [ ! -s "$work/told" ] || wrong "$name: told '$last'" ;;
  *) [[ "$last" == *$told* ]] || wrong "$name: told '$last', not '$told'" ;;
  esac
  [ -z "$(ls -A "$work/temporary")" ] || { wrong "$name: left $(ls -A "$work/temporary")"; rm -r "$work/temporary"/*; }
  cases=$((cases + 1))
}
prints() { cmp -s "$work/printed" "$1" || wrong "$2: it printed other than the program: $(diff "$work/printed" "$1" | head -n 3)"; }
nothing() { [ ! -s "$work/printed" ] || wrong "$1: it printed $(head -n 1 "$work/printed" | cut -c 1-100)"; }

# verbs that print what a program prints, by name and from standard input
clear="$work/clear.batch"; head -c 1024 examples/shift.batch > "$clear"
passes() { # passes VERB PROGRAM FILE STATUS
  program "$2" < "$3" > "$work/expected" 2> "$work/errors"
  ends "$1 ${3##*/}" "$4" "*" ff "$1" "$3"; prints "$work/expected" "$1 ${3##*/}"
  head -n "$(wc -l < "$work/errors")" "$work/told" | cmp -s - "$work/errors" || wrong "$1 ${3##*/}: standard error is not passed on"
  input="$3" ends "$1 -" "$4" "*" ff "$1" -; prints "$work/expected" "$1 -"
}
for batch in examples/shift.batch examples/every-answer.batch "$clear"; do
  judged=1; [ "$batch" != "$clear" ] || judged=0
  for verb in sheet sheet64; do passes $verb $verb "$batch" 0; done
  passes any-contact any_contact "$batch" 0
  passes clearance clearance "$batch" $judged
  passes all-clear all_clear "$batch" $judged
done
passes unpack unpack examples/shift.batch 0
passes unpack unpack examples/every-answer.batch 2
program unpack < examples/shift.batch > "$work/lines"
passes pack pack "$work/lines" 0; prints examples/shift.batch "pack"
(cat "$work/lines"; echo none) > "$work/more-lines"
passes pack pack "$work/more-lines" 2
passes route route examples/hall.route 0
passes route-clearance route_clearance examples/hall.route 0
sed 's/^SLOP .*/SLOP 41200000/' examples/hall.route > "$work/wide.route"
passes route route "$work/wide.route" 0
passes route-clearance route_clearance "$work/wide.route" 1
echo none > "$work/no.route"; passes route route "$work/no.route" 0; passes route-clearance route_clearance "$work/no.route" 1
for verb in route route-clearance; do
  program ${verb/-/_} < examples/hall.route > "$work/expected"
  ends "$verb, as text" 0 "outline 6 is column 6" ff $verb examples/hall.txt; prints "$work/expected" "$verb, as text"
  ends "$verb, as text with a fault" 2 "refused, and nothing is printed" ff $verb examples/shift.txt; nothing "$verb, a fault"
done
program report examples/shift.batch examples/every-answer.batch > "$work/expected"
ends "report" 0 "" ff report examples/shift.batch examples/every-answer.batch; prints "$work/expected" report
program report < examples/shift.batch > "$work/expected"
input=examples/shift.batch ends "report -" 0 "" ff report -; prints "$work/expected" "report -"
ends "report, a file missing" 2 "what \`report\` printed is not whole" ff report examples/shift.batch "$work/none"; nothing "report"

# jobs as text where a batch is wanted
cp "$work/clear.batch" "$work/page.html"
wants_a_batch="jobs as text, and no batch: \`check\` takes them as they are, \`text\` makes a batch of them"
for verb in sheet sheet64 clearance any-contact all-clear unpack csv json report; do
  ends "$verb of a text" 2 "$wants_a_batch" ff $verb examples/shift.txt; nothing "$verb of a text"
done
input=examples/shift.txt ends "csv of a text, -" 2 "$wants_a_batch" ff csv -
ends "page of a text" 2 "$wants_a_batch" ff page examples/shift.txt "$work/page.html"
ends "convert of a text" 2 "$wants_a_batch" ff convert examples/shift.txt "$work/page.html"
cmp -s "$work/clear.batch" "$work/page.html" || wrong "a text replaced a file"
echo 'no job of any kind' > "$work/words"
passes sheet sheet "$work/words" 0

# no block: nothing is judged clear
: > "$work/empty"
for verb in clearance all-clear check; do ends "$verb of nothing" 2 "*" ff $verb "$work/empty"; done
for verb in sheet sheet64; do ends "$verb of nothing" 0 "standard input: no block came" ff $verb "$work/empty"; done

# convert and salvage
for verb in convert salvage; do
  program $verb "$work/expected-file" < examples/shift.batch > "$work/expected"
  ends "$verb" 0 "" ff $verb examples/shift.batch "$work/out.batch"; prints "$work/expected" $verb
  cmp -s "$work/out.batch" "$work/expected-file" || wrong "$verb: another file"
  input=examples/shift.batch ends "$verb - -" 0 "*" ff $verb - -; prints "$work/expected-file" "$verb - -"
  cp "$work/out.batch" "$work/same.batch"
  ends "$verb onto its input" 2 "it is read, and would be replaced" ff $verb "$work/same.batch" "$work/same.batch"
  cmp -s "$work/out.batch" "$work/same.batch" || wrong "$verb: the input is gone"
  ends "$verb from nowhere" 2 "No such file or directory" ff $verb "$work/none" "$work/out.batch"
  cmp -s "$work/out.batch" "$work/expected-file" || wrong "$verb: a file was replaced by nothing"
  ends "$verb into no folder" 2 "*" ff $verb examples/shift.batch "$work/none/out.batch"
done
ends "convert, blocks refused" 2 "are refused, and not in what it wrote" ff convert examples/every-answer.batch "$work/other.batch"
head -c 700 examples/shift.batch > "$work/torn"
ends "salvage of a torn batch" 0 "" ff salvage "$work/torn" "$work/found"
[ "$(cat "$work/printed")" = $'512 188\nTOTAL 1 188' ] || wrong "salvage: $(cat "$work/printed")"

# text
ends "text" 0 "15 jobs written" ff text examples/shift.txt "$work/made.batch"; nothing text
cmp -s "$work/made.batch" examples/shift.batch || wrong "text: another batch"
ends "text to standard output" 0 "15 jobs written" ff text examples/shift.txt -; prints examples/shift.batch "text -"
printf 'job: 7\na: 0 0 1\nb: 1 1\n' > "$work/faulty.txt"
ends "text with a fault" 2 "refused, and nothing is printed" ff text "$work/faulty.txt" "$work/made.batch"
cmp -s "$work/made.batch" examples/shift.batch || wrong "text: a fault replaced a file"
cp examples/shift.txt "$work/text.txt"
ends "text onto itself" 2 "the batch would take the text's place" ff text "$work/text.txt" "$work/text.txt"
echo words > "$work/words"; ends "text over another file" 0 "15 jobs written" ff text examples/shift.txt "$work/words"
[ "$(cat "$work/words.old")" = words ] && cmp -s "$work/words" examples/shift.batch || wrong "text: another file is not kept"

# check: a line a job, whose words are the proved verdicts; totals; several files; a page
verdicts() { # the verdict of each line that check printed, in the words of clearance
  grep ': .*: \|^[0-9]*: ' "$work/printed" | grep -v '^[0-9]* jobs\?: ' \
    | sed 's/.*: proved clear over .*/CLEAR/; s/.*: not clear: .*/TOUCH/; s/.*: not settled.*/OPEN/; s/.*: refused by \([0-9]*\): .*/\1/'
}
for file in examples/shift.txt examples/shift.batch examples/every-answer.batch examples/fractions.batch "$clear"; do
  status=1; [ "$file" != "$clear" ] || status=0
  ends "check ${file##*/}" $status "*" ff check "$file"
  program clearance < "${file%.txt}$([ "${file%.txt}" = "$file" ] || echo .batch)" > "$work/lines"
  sed '/^TOTAL/d' "$work/lines" | cut -d ' ' -f 3,4 | sed 's/^0 //' | cmp -s - <(verdicts) || wrong "check ${file##*/}: other verdicts than clearance"
  read -r _ n c t o r < <(tail -n 1 "$work/lines")
  case "$(tail -n 1 "$work/printed")" in
  "$n job"*": $c proved clear, $t not clear, $o not settled, $r refused") ;; *) wrong "check ${file##*/}: $(tail -n 1 "$work/printed")" ;;
  esac
done
ends "check -" 1 "" eval 'ff check - < examples/shift.batch'; cp "$work/printed" "$work/expected"
ends "check shift.batch" 1 "" ff check examples/shift.batch; prints "$work/expected" "check -"
swing='2113: not clear: further apart than 0.005 up to 0.1872 of the move, within 0.005 by 0.1873'
grep -qxF "$swing; warning: the search says S, which does not clear a move" "$work/printed" || wrong "job 2113"
ends "check, two files" 1 "" ff check examples/shift.batch examples/fractions.batch
[ "$(tail -n 6 "$work/printed" | tr -s ' ')" = "2 files, 24 jobs: 5 proved clear, 17 not clear, 0 not settled, 2 refused
the search says CLEAR TOUCH OPEN
S, separated 5 1 0
H, hit 0 15 0
O, overlapped 0 1 0
F, no verdict 0 0 0" ] || wrong "check, two files: $(tail -n 6 "$work/printed")"
ends "check with a page" 1 "*" ff check examples/shift.txt --page "$work/page.html"
grep -q 'square cart turns at the wall' "$work/page.html" && tail -n 1 "$work/page.html" | grep -q '</html>' || wrong "check: no page"
cp "$work/page.html" "$work/before.html"
ends "check of a faulty text with a page" 2 "refused, and nothing is printed" ff check "$work/faulty.txt" --page "$work/page.html"; nothing check
cmp -s "$work/page.html" "$work/before.html" || wrong "check: a fault replaced the page"
ends "check, a page of two" 2 "a page is of one file" ff check a b --page "$work/page.html"
ends "check, no name of a page" 2 "--page takes a name" ff check examples/shift.batch --page

# page, csv and json
ends "page" 0 "*" ff page --text examples/shift.txt examples/shift.batch "$work/other.html"; nothing page
cmp -s "$work/other.html" <(sed 's/shift\.txt/shift.batch/g; s/shift\\2e txt/shift\\2e batch/' "$work/page.html") || wrong "page: other than check's"
ends "csv" 0 "" ff csv examples/every-answer.batch
[ "$(wc -l < "$work/printed")" = 32 ] || wrong "csv: $(wc -l < "$work/printed") lines"
[ "$(head -n 1 "$work/printed" | cut -d , -f 1-7)" = block,job,refusal,reason,status,fraction,fraction_bits ] || wrong "csv: its header"
if command -v python3 > /dev/null; then
  cp "$work/printed" "$work/csv"
  ends "json" 0 "" ff json examples/every-answer.batch
  program sheet < examples/every-answer.batch > "$work/sheet"; program clearance < examples/every-answer.batch > "$work/clearance"
  python3 tests/programs/tables.py "$work/csv" "$work/printed" "$work/sheet" "$work/clearance" || wrong "csv or json"
fi

# programs that do not start, and programs whose last line is cut off: status 2, and no file is replaced
mkdir "$work/torn-bin"; cp "$bin"/* "$work/torn-bin"
for name in sheet clearance; do : > "$work/torn-bin/$name"; done
printf '#!/bin/sh\n%s "$@" | sed "\\$d"\n' "$run" > "$work/cut"; chmod +x "$work/cut"
for verb in "sheet $clear" "clearance $clear" "check $clear" "csv $clear" "json $clear" "page $clear $work/page.html" "check $clear --page $work/page.html"; do
  ends "${verb%% *}, a program that does not start" 2 "*" env PROGRAMS="$work/torn-bin" ./foldflake $verb; nothing "${verb%% *}, not started"
  ends "${verb%% *}, a program's last line cut off" 2 "printed is not whole" env RUN="$work/cut" ./foldflake $verb
  case $verb in sheet* | clearance*) [ "$(wc -l < "$work/printed")" = 2 ] || wrong "$verb, cut off" ;; *) nothing "$verb, cut off" ;; esac
done
rm "$work/torn-bin/sheet"; ends "a program that is missing" 2 "there is no such program" env PROGRAMS="$work/torn-bin" ./foldflake sheet "$clear"
cmp -s "$work/page.html" "$work/before.html" || wrong "a torn program replaced the page"

# faults and usage
ends "no verb" 2 "their output is whole" ff; ends "a verb that is none" 2 "there is no such verb" ff jobs x
for verb in check page text csv json clearance all-clear sheet sheet64 any-contact report route route-clearance unpack pack convert salvage jobtext \
  routetext; do
  ends "$verb without a name" 2 "usage: foldflake $verb" ff $verb; nothing "$verb without a name"
  ends "$verb --help" 0 "" ff $verb --help; grep -q "^usage: foldflake $verb " "$work/printed" || wrong "$verb --help"
  case $verb in page | text | convert | salvage) out="$work/nowhere" ;; *) out="" ;; esac
  ends "$verb of a file that is missing" 2 "*" ff $verb "$work/none" $out; nothing "$verb of a missing file"
  grep -q "none: No such file or directory" "$work/told" || wrong "$verb of a missing file: $(cat "$work/told")"
  ends "$verb -x" 2 "-x: a name that begins with - is not taken" ff $verb -x $out
  [ ! -e "$work/nowhere" ] || wrong "$verb: wrote a file"
done
for verb in sheet clearance check csv json jobtext; do
  file=examples/shift.batch; [ $verb != jobtext ] || file=examples/shift.txt
  ends "$verb, full output" 2 "*" eval "ff $verb $file > /dev/full"
  grep -q "standard output: No space left on device" "$work/told" || wrong "$verb, full output: $(cat "$work/told")"
  ends "$verb, closed output" 2 "*" eval "ff $verb $file >&-"
  grep -q "standard output: it is closed" "$work/told" || wrong "$verb, closed output: $(cat "$work/told")"
  ends "$verb, closed input" 2 "standard input: it is closed" eval "ff $verb - <&-"
done
for i in $(seq 70); do cat examples/shift.batch; done > "$work/long"
for verb in sheet csv unpack; do
  ends "$verb, a pipe that is closed" 0 "" eval "(ff $verb $work/long; [ \$? = 141 ] || echo other >&2) | head -n 1 > /dev/null"
done
ends "progress" 1 "*" eval "FOLDFLAKE_PROGRESS=yes ff check $work/long"
[ "$(grep -c '^clearance: 10[05]0 of 1050 blocks, ' "$work/told")" = 2 ] || wrong "progress: $(cat "$work/told")"
ends "--version" 0 "" ff --version
[ "$(sed 's/ .*//' "$work/printed" | tr '\n' ' ')" = "foldflake kit commit " ] && grep -qF "$(rt version)" "$work/printed" \
  || wrong "--version: $(cat "$work/printed")"
ends "help of a verb" 0 "" ff help check; grep -q "^usage: foldflake check" "$work/printed" || wrong "help check"
# from another folder, by a link, with a name that has a blank
cp examples/shift.batch "$work/a shift.batch"; program sheet < examples/shift.batch > "$work/expected"
root="$PWD"; ends "from another folder" 0 "" eval "(cd '$work' && '$root/foldflake' sheet 'a shift.batch')"; prints "$work/expected" "from another folder"
ln -s "$root/foldflake" "$work/link"; ends "by a link" 0 "" "$work/link" sheet examples/shift.batch; prints "$work/expected" "by a link"

# a proof that fails: told, status 2, and no program is run; by another kit's name, which makes every program one that is to be proved
mkdir "$work/kit"
printf '#!/bin/sh\ncase $1 in version) echo another ;; check) echo "rt: sheet is not proved"; exit 1 ;; esac\n' > "$work/kit/rt"; chmod +x "$work/kit/rt"
ends "a proof that fails" 2 "rt check ended with status 1: see $PWD/target/foldflake.log" env -u PROGRAMS PATH="$work/kit:$PATH" ./foldflake sheet "$clear"
nothing "a proof that fails"; grep -q '^rt: sheet is not proved$' "$work/told" || wrong "a proof that fails: $(cat "$work/told")"

# install and uninstall
ends "install" 0 "takes them away" ff install "$work/there"
[ "$(ls "$work/there/bin")" = foldflake ] && [ "$(ls "$work/there/libexec/foldflake" | wc -l)" = 15 ] || wrong "install: $(ls "$work/there"/*)"
(cd "$work/there" && find . -type f | sed 's|^\./||' | sort) | cmp -s - <(sort "$work/there/share/foldflake/installed") || wrong "install: the list is another"
ends "the installed one" 0 "" env -u PROGRAMS "$work/there/bin/foldflake" sheet examples/shift.batch; prints "$work/expected" "the installed one"
ends "its version" 0 "" env -u PROGRAMS "$work/there/bin/foldflake" --version; grep -q '^kit ' "$work/printed" || wrong "the installed version"
case "$(uname -m)" in
x86_64)
  [ -f "$work/there/lib/libfoldflake.a" ] && [ -f "$work/there/lib/pkgconfig/foldflake.pc" ] || wrong "install: no library"
  [ "$(sed -n 's/^Version: /foldflake /p' "$work/there/lib/pkgconfig/foldflake.pc")" = "$(head -n 1 "$work/printed")" ] || wrong "install: another version"
  if [ -f "$work/there/lib/libfoldflake.so" ] && command -v python3 > /dev/null; then
    ends "the installed module" 0 "" env -u FOLDFLAKE_LIB PYTHONPATH="$work/there/lib/python" PYTHONDONTWRITEBYTECODE=1 \
      python3 -c 'import foldflake; print("foldflake", foldflake.__version__); assert foldflake.root(4.0) == 2.0'
  fi ;;
*) grep -q '^skipped: .*libfoldflake.a' "$work/told" || [ ! -e "$work/there/lib" ] || wrong "install: a library for another machine" ;;
esac
echo mine > "$work/there/share/mine"
ends "install again" 0 "takes them away" ff install "$work/there"
ends "uninstall" 0 "is taken away" ff uninstall "$work/there"
[ "$(cd "$work/there" && find . -type f)" = ./share/mine ] || wrong "uninstall left $(find "$work/there" -type f)"
ends "uninstall again" 2 "nothing is known to be installed" ff uninstall "$work/there"
ends "install nowhere" 2 "usage: ./foldflake install DIR" ff install
[ $bad = 0 ] && echo "$cases cases as they should be"
exit $bad
