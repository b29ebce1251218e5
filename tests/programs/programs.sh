#!/usr/bin/env bash
# programs.sh: runs `any_contact`, `clearance` and `gaps`, and `sheet` beside them, `convert` and `salvage` on the cases below, `pack` and `unpack` on those of job_lines.py in
# tests/cases, `report` on those of report_cases.py, `route` and `route_clearance` on those of route_cases.py, and compares all that they
# write, standard error and files included.
# Exit status 1 where one differs. tests/programs/with.sh says which programs are run, and how.
set -u
cd "$(dirname "$0")/../.."
. tests/programs/with.sh
command -v python3 > /dev/null || { echo "skipped: cases of the programs: no python3 here"; exit 0; }
proved any_contact clearance gaps sheet convert salvage pack unpack report route route_clearance
work="$(mktemp -d)"; trap 'rm -r "$work"' EXIT
bad=0

# block ANSWER [BYTES]: a block with that status or refusal, or its first bytes, from the batch that has every answer
block() {
  case $1 in H) at=1;; S) at=2;; O) at=5;; F) at=12;; 8) at=6;; 10) at=14;; 11) at=10;; esac
  tail -c +$((512 * (at - 1) + 1)) examples/every-answer.batch | head -c "${2:-512}"
}
many() { for _ in $(seq "$1"); do block "$2"; done; }

# wrote CASE STATUS OUT ERR: what the last run left in `ended`, in out and in err
wrote() {
  if [ "$ended" = "$2" ] && [ "$(cat "$work/out"; echo .)" = "$3." ] && [ "$(cat "$work/err"; echo .)" = "$4." ]; then
    echo "$1: ${3:-nothing printed}${4:+, told: $4}" | tr -d '\n'; echo
  else
    echo "$1: WRONG: status $ended, printed '$(cat "$work/out")', told '$(cat "$work/err")'; expected $2, '$3', '$4'"; bad=1
  fi
}

# answers CASE TEXT [TOLD]: the batch in the file `batch` has that answer, and its sheet says the same: the first line with H or O has the number, and
# contact in TOTAL is above 0 just where there is one. TOLD is what goes to standard error, of the sheet where the batch has no byte
answers() {
  timeout 60 $run "$bin/any_contact" < "$work/batch" > "$work/out" 2> "$work/err"; ended=$?
  wrote "$1" 0 "$2"$'\n' "${3:-}"
  timeout 60 $run "$bin/sheet" < "$work/batch" > "$work/sheet" 2> "$work/err"
  if [ ! -s "$work/batch" ]; then
    cp "$work/sheet" "$work/out"; wrote "$1, the sheet" 0 $'TOTAL 0 0 0 0 0\n' "${3:-}"; : > "$work/err"
  fi
  first="$(awk '$4 ~ /^[HO]$/ { print $1; exit }' "$work/sheet")"
  contact="$(awk '$1 == "TOTAL" { print $4 }' "$work/sheet")"
  if [ "${first:-none}" != "$2" ] || [ -s "$work/err" ] || { [ "$contact" -gt 0 ] && [ "$2" = none ]; } || { [ "$contact" = 0 ] && [ "$2" != none ]; }; then
    echo "$1: WRONG: the sheet's first contact is ${first:-none}, its TOTAL counts $contact, told '$(cat "$work/err")'"; bad=1
  fi
}

# the rules' whole example
timeout 60 $run "$bin/sheet" < examples/example.batch > "$work/out" 2> "$work/err"; ended=$?
wrote "the whole example" 0 $'1 7 0 H 3F600000 3E800000 00000000 3F800000 00000000 2 2 2 0 0 0 0\nTOTAL 1 0 1 0 0\n' ""

nothing=$'standard input: no block came\n'
: > "$work/batch";                                          answers "no input" none "$nothing"
block S 100 > "$work/batch";                                answers "a short block alone" none "$nothing"
for s in S F 8 10 11; do block $s; done > "$work/batch";    answers "none: S, F and refused blocks" none
{ block H; many 3 S; } > "$work/batch";                     answers "the first, H" 1
{ block O; many 3 H; } > "$work/batch";                     answers "the first, O" 1
for s in S F 8 10 11 O H; do block $s; done > "$work/batch"; answers "behind S, F and refused blocks" 6
{ many 9 S; block H; } > "$work/batch";                     answers "the last" 10
{ many 9 S; block H; block H 100; } > "$work/batch";        answers "the last before a short block" 10
{ many 127 S; block H; } > "$work/batch";                   answers "the last of the first part" 128
{ many 128 S; block O; many 3 S; } > "$work/batch";         answers "only after 128 blocks" 129
{ many 256 F; block S; block H; } > "$work/batch";          answers "only in the third part" 258
many 128 S > "$work/batch";                                 answers "none in a whole part" none
many 256 F > "$work/batch";                                 answers "none in two whole parts" none
{ many 2 S; block S 100; block H; } > "$work/batch";        answers "a contact behind a short block" none
{ many 128 S; block S 100; many 3 H; } > "$work/batch";     answers "a contact behind a short block, in the second part" none

# faults: neither a number nor `none` is printed
: > "$work/nothing"
for input in batch nothing; do
  : > "$work/out"
  timeout 60 $run "$bin/any_contact" < "$work/$input" > /dev/full 2> "$work/err"; ended=$?
  wrote "full output, input: $input" 0 "" $'standard output: No space left on device\n'
done
timeout 60 $run "$bin/any_contact" < "$work" > "$work/out" 2> "$work/err"; ended=$?
wrote "a directory as input" 0 "" $'standard input: Is a directory\n'
timeout 60 $run "$bin/any_contact" <&- > "$work/out" 2> "$work/err"; ended=$?
wrote "closed input" 0 "" $'standard input: Bad file descriptor\n'

# left CASE BYTES: so many of the input are left after the run
left() {
  if [ "$(wc -c < "$work/left")" -eq "$2" ]; then echo "$1: $2 bytes left"; else echo "$1: WRONG: $(wc -c < "$work/left") bytes left, expected $2"; bad=1; fi
}
{ timeout 60 $run "$bin/any_contact" word > "$work/out" 2> "$work/err"; ended=$?; cat > "$work/left"; } < "$work/batch"
wrote "an argument" 0 "" $'any_contact: no argument is taken\n'
left "an argument" "$(wc -c < "$work/batch")"

# it reads no part behind the one that decides: of 512 blocks, 256 KiB, the parts behind are left
{ block H; many 511 S; } > "$work/long"
{ timeout 60 $run "$bin/any_contact" > "$work/out" 2> "$work/err"; ended=$?; cat > "$work/left"; } < "$work/long"
wrote "a contact in the first of 512 blocks" 0 $'1\n' ""; left "the same" $((3 * 65536))
cat "$work/long" | { timeout 60 $run "$bin/any_contact" > "$work/out" 2> "$work/err"; cat > "$work/left"; }
left "the same from a pipe" $((3 * 65536))
{ many 128 S; block O; many 383 H; } > "$work/long"
{ timeout 60 $run "$bin/any_contact" > "$work/out" 2> "$work/err"; ended=$?; cat > "$work/left"; } < "$work/long"
wrote "a contact in the second part" 0 $'129\n' ""; left "the same" $((2 * 65536))

# ---- clearance: a line for each of the sheet's, its refused lines the sheet's own, TOTAL counted from its words, and no u above its t
# clears CASE FILE LAST: the batch in FILE, whose last line is LAST
clears() {
  timeout 60 $run "$bin/clearance" < "$2" > "$work/out" 2> "$work/err"; ended=$?
  timeout 60 $run "$bin/sheet" < "$2" > "$work/sheet"
  for f in out sheet; do awk '$1 != "TOTAL" { print $1, $2, ($3 == 0 ? "worked" : $3) }' "$work/$f" > "$work/$f.jobs"; done
  if [ "$ended" = 0 ] && [ ! -s "$work/err" ] && [ "$(tail -n 1 "$work/out")" = "$3" ] && cmp -s "$work/out.jobs" "$work/sheet.jobs" \
    && awk '$1 == "TOTAL" { total = $0; next } { n++; word[$4]++ } $4 == "TOUCH" && ($5 "") > ($6 "") { late = 1 }
      END { exit late || total != "TOTAL " n " " word["CLEAR"] + 0 " " word["TOUCH"] + 0 " " word["OPEN"] + 0 " " word[""] + 0 }' "$work/out"; then
    echo "clearance, $1: $3"
  else
    echo "clearance, $1: WRONG: status $ended, last line '$(tail -n 1 "$work/out")', told '$(cat "$work/err")'; expected '$3'"; bad=1
  fi
}
clears "the sample shift" examples/shift.batch "TOTAL 15 5 8 0 2"; cp "$work/out" "$work/shift"
clears "the same in form 2" examples/shift-form-2.batch "TOTAL 15 5 8 0 2"
cmp -s "$work/out" "$work/shift" || { echo "clearance, the same in form 2: WRONG: other lines"; bad=1; }
clears "every answer of a sheet, a short block last" examples/every-answer.batch "TOTAL 31 3 9 0 19"
clears "the stored batch" crates/clearance/stdin "$(tail -n 1 crates/clearance/stdout)"
{ many 128 S; block H; block S 100; } > "$work/batch"
clears "two parts, a short block last" "$work/batch" "TOTAL 130 128 1 0 1"
block S 100 > "$work/short"; clears "a short block alone" "$work/short" "TOTAL 1 0 0 0 1"
timeout 60 $run "$bin/clearance" < "$work/nothing" > "$work/out" 2> "$work/err"; ended=$?
wrote "clearance, no input" 0 $'TOTAL 0 0 0 0 0\n' "$nothing"
: > "$work/out"
for input in batch nothing; do
  timeout 60 $run "$bin/clearance" < "$work/$input" > /dev/full 2> "$work/err"; ended=$?
  wrote "clearance, full output, input: $input" 0 "" $'standard output: No space left on device\n'
  timeout 60 $run "$bin/clearance" < "$work/$input" >&- 2> "$work/err"; ended=$?
  wrote "clearance, closed output, input: $input" 0 "" $'standard output: Bad file descriptor\n'
done
timeout 60 $run "$bin/clearance" < "$work" > "$work/out" 2> "$work/err"; ended=$?
wrote "clearance, a directory as input" 0 "" $'standard input: Is a directory\n'
timeout 60 $run "$bin/clearance" <&- > "$work/out" 2> "$work/err"; ended=$?
wrote "clearance, closed input" 0 "" $'standard input: Bad file descriptor\n'
{ timeout 60 $run "$bin/clearance" word > "$work/out" 2> "$work/err"; ended=$?; cat > "$work/left"; } < "$work/batch"
wrote "clearance, an argument" 0 "" $'clearance: no argument is taken\n'
left "clearance, an argument" "$(wc -c < "$work/batch")"
# ---- gaps
# spaced CASE BLOCKS REFUSED: of the file `batch` each line starts as the sheet's does, a worked one has 257 gaps behind its 0 and a refused one nothing more,
# and TOTAL has those two numbers
spaced() {
  timeout 60 $run "$bin/gaps" < "$work/batch" > "$work/out" 2> "$work/err"; ended=$?
  timeout 60 $run "$bin/sheet" < "$work/batch" | grep -v TOTAL | cut -d' ' -f1-3 > "$work/sheet"; echo "TOTAL $2 $3" >> "$work/sheet"
  odd="$(grep -v TOTAL "$work/out" | grep -cvE '^[0-9]+ [0-9]+ (0( [0-9A-F]{8}){257}|[1-9][0-9]?)$')"
  if [ "$ended" = 0 ] && [ "$odd" = 0 ] && [ ! -s "$work/err" ] && cut -d' ' -f1-3 "$work/out" | cmp -s - "$work/sheet"; then
    echo "gaps, $1: $2 lines, $3 refused"
  else
    echo "gaps, $1: WRONG: status $ended, $odd odd lines, told '$(cat "$work/err")', TOTAL '$(grep TOTAL "$work/out")', expected $2 $3"; bad=1
  fi
}
block S > "$work/batch";                                    spaced "one block" 1 0
block S 100 > "$work/batch";                                spaced "a short block alone" 1 1
for s in S F 8 10 11 O H; do block $s; done > "$work/batch"; spaced "every kind" 7 3
many 23 S > "$work/batch";                                  spaced "a part but one block" 23 0
many 24 H > "$work/batch";                                  spaced "a whole part" 24 0
{ many 24 S; block O 511; } > "$work/batch";                spaced "a whole part and a short block" 25 1
{ many 23 S; block 8; block H; } > "$work/batch";           spaced "one block in the second part" 25 1
{ many 48 F; block S 1; } > "$work/batch";                  spaced "two whole parts and a byte" 49 1
timeout 60 $run "$bin/gaps" < examples/shift-form-2.batch > "$work/out" 2> "$work/err"; ended=$?
if [ "$ended" = 0 ] && cmp -s "$work/out" crates/gaps/stdout; then echo "gaps, form 2: as form 1"; else echo "gaps, form 2: WRONG: not as form 1"; bad=1; fi
timeout 60 $run "$bin/gaps" < /dev/null > "$work/out" 2> "$work/err"; ended=$?
wrote "gaps, no input" 0 $'TOTAL 0 0\n' "$nothing"
: > "$work/out"
timeout 60 $run "$bin/gaps" < examples/shift.batch > /dev/full 2> "$work/err"; ended=$?
wrote "gaps, full output" 0 "" $'standard output: No space left on device\n'
timeout 60 $run "$bin/gaps" < "$work" > "$work/out" 2> "$work/err"; ended=$?
wrote "gaps, a directory as input" 0 "" $'standard input: Is a directory\n'
timeout 60 $run "$bin/gaps" <&- > "$work/out" 2> "$work/err"; ended=$?
wrote "gaps, closed input" 0 "" $'standard input: Bad file descriptor\n'
{ timeout 60 $run "$bin/gaps" word > "$work/out" 2> "$work/err"; ended=$?; cat > "$work/left"; } < examples/shift.batch
wrote "gaps, an argument" 0 "" $'gaps: no argument is taken\n'
left "gaps, an argument" "$(wc -c < examples/shift.batch)"

# ---- convert and salvage, in a folder of their own, so that what is left beside the file shows
folder="$work/folder"; mkdir "$folder"
: > "$work/no"; echo before > "$work/before"

# makes INPUT [ARGUMENT..]: runs $program there
makes() {
  (cd "$folder" && timeout 60 $run "$bin/$program" "${@:2}" < "$1" > "$work/out" 2> "$work/err"); ended=$?
}

# did CASE OUT ERR FILE BYTES: status 0, those bytes printed, that text told, and the folder holds that file alone, with those bytes; or with no FILE
# nothing
did() {
  if [ "$ended" = 0 ] && cmp -s "$work/out" "$2" && [ "$(cat "$work/err"; echo .)" = "$3." ] && [ "$(ls -A "$folder")" = "$4" ] \
    && { [ -z "$4" ] || cmp -s "$folder/$4" "$5"; }; then
    echo "$program, $1: $(wc -l < "$2") printed, ${4:-nothing} left${4:+ with $(wc -c < "$5") bytes}${3:+, told: $3}" | tr -d '\n'; echo
  else
    echo "$program, $1: WRONG: status $ended, told '$(cat "$work/err")', the folder holds '$(ls -A "$folder")'"; bad=1
  fi
}
fresh() { rm -rf "${folder:?}"; mkdir "$folder"; }
old() { fresh; cp "$work/before" "$folder/file"; }

# replaces GOOD SAID MADE LOUD LARGE PIPED NONE ITSELF: what $program does to files that were there, and where something fails. It prints SAID and makes MADE of
# GOOD, prints something of LOUD, makes more than 1 KiB of LARGE, prints more than once of PIPED, and prints NONE of no input
# and ITSELF of the seven bytes in `before`
replaces() {
  good="$1"; said="$2"; made="$3"; loud="$4"; large="$5"; piped="$6"; none="$7"; itself="$8"
  old; makes "$good" file;                         did "over a file that was there" "$said" "" file "$made"
  fresh; mkdir "$folder/sub"; makes "$good" sub/file; mv "$folder/sub/file" "$work/sub"; rmdir "$folder/sub"
  did "in another folder" "$said" "" "" ""; cmp -s "$work/sub" "$made" || { echo "$program, in another folder: WRONG bytes"; bad=1; }
  for mask in 022 027 077; do
    old; chmod 600 "$folder/file"; (umask $mask; makes "$good" file; exit $ended); ended=$?
    did "with umask $mask" "$said" "" file "$made"
    [ "$(stat -c %a "$folder/file")" = "$(printf %o $((0666 & ~0$mask)))" ] || { echo "$program, with umask $mask: WRONG mode"; bad=1; }
  done

  # nothing to write: what the file held is kept as file.old, and where that name is taken nothing is replaced
  kept=$'file: is empty now; what it held is kept as file.old\n'
  taken=$'file: would become empty, and file.old is there already: nothing is replaced\n'
  held() { # held CASE BYTES: file.old has those bytes, and goes
    cmp -s "$folder/file.old" "$2" || { echo "$program, $1: WRONG: file.old has other bytes"; bad=1; }
    rm -f "$folder/file.old"
  }
  old; makes "$work/no" file; held "nothing to write" "$work/before"; did "nothing to write" "$none" "$kept" file "$work/no"
  makes "$work/no" file;                           did "nothing to write, over an empty file" "$none" "" file "$work/no"
  fresh; makes "$work/no" file;                    did "nothing to write, no file" "$none" "" file "$work/no"
  old; makes "$folder/file" file; held "a text over itself" "$work/before"; did "a text over itself" "$itself" "$kept" file "$work/no"
  old; cp "$made" "$folder/file.old"; makes "$work/no" file; held "nothing to write, file.old is there" "$made"
  did "nothing to write, file.old is there" "$work/no" "$taken" file "$work/before"
  old; ln -s nowhere "$folder/file.old"; makes "$work/no" file; rm "$folder/file.old"
  did "nothing to write, file.old is a link to nothing" "$work/no" "$taken" file "$work/before"
  old; mkdir "$folder/file.old"; makes "$work/no" file; rmdir "$folder/file.old"
  did "nothing to write, file.old is a folder" "$work/no" "$taken" file "$work/before"
  old; cp "$made" "$folder/file.old"; makes "$good" file; held "something to write, file.old is there" "$made"
  did "something to write, file.old is there" "$said" "" file "$made"
  long="$(printf 'n%.0s' $(seq 255))"; fresh; cp "$work/before" "$folder/$long"; makes "$work/no" "$long"
  did "nothing to write, no room for .old in the name" "$work/no" "$long.old"$': File name too long\n' "$long" "$work/before"
  for name in --help -h -x -; do
    fresh; makes "$good" "$name"
    did "the name $name" "$work/no" "$program: $name: a name that begins with - is not taken; ./$name names such a file"$'\n' "" ""
  done
  fresh; makes "$good" ./-x;                       did "the name ./-x" "$said" "" -x "$made"

  # faults: the file is as it was, or there is none, and nothing is beside it
  asks="$program"$': one argument is taken, the name of the file to write\n'
  fresh; makes "$good";                            did "no argument" "$work/no" "$asks" "" ""
  fresh; makes "$good" a b;                        did "two arguments" "$work/no" "$asks" "" ""
  fresh; makes "$good" "";                         did "an empty argument" "$work/no" "$asks" "" ""
  fresh; makes "$good" /dev/null;                  did "a device" "$work/no" $'/dev/null: not a regular file\n' "" ""
  fresh; makes "$good" /dev/full;                  did "another device" "$work/no" $'/dev/full: not a regular file\n' "" ""
  fresh; makes "$good" .;                          did "a folder" "$work/no" $'.: Is a directory\n' "" ""
  fresh; makes "$good" none/file;                  did "a folder that is missing" "$work/no" $'none/file: No such file or directory\n' "" ""
  fresh; mkfifo "$folder/pipe"; makes "$good" pipe
  [ -p "$folder/pipe" ] && rm "$folder/pipe";      did "a pipe" "$work/no" $'pipe: not a regular file\n' "" ""
  fresh; ln -s ../before "$folder/link"; makes "$good" link
  [ "$(readlink "$folder/link")" = ../before ] && rm "$folder/link"; did "a link" "$work/no" $'link: not a regular file\n' "" ""
  fresh; ln -s nowhere "$folder/link"; makes "$good" link
  [ "$(readlink "$folder/link")" = nowhere ] && rm "$folder/link"; did "a link to nothing" "$work/no" $'link: not a regular file\n' "" ""
  old; makes "$folder" file;                       did "a folder as input" "$work/no" $'standard input: Is a directory\n' file "$work/before"
  old; (cd "$folder" && timeout 60 $run "$bin/$program" file <&- > "$work/out" 2> "$work/err"); ended=$?
  did "closed input" "$work/no" $'standard input: Bad file descriptor\n' file "$work/before"
  old; : > "$work/out"; (cd "$folder" && timeout 60 $run "$bin/$program" file < "$good" >&- 2> "$work/err"); ended=$?
  did "closed output" "$work/no" $'standard output: Bad file descriptor\n' file "$work/before"
  fresh; (cd "$folder" && timeout 60 $run "$bin/$program" file <&- > "$work/out" 2> "$work/err"); ended=$?
  did "closed input, no file" "$work/no" $'standard input: Bad file descriptor\n' "" ""
  old; : > "$work/out"; (cd "$folder" && timeout 60 $run "$bin/$program" file < "$loud" > /dev/full 2> "$work/err"); ended=$?
  did "full output" "$work/no" $'standard output: No space left on device\n' file "$work/before"
  old; (trap '' XFSZ; ulimit -f 1; cd "$folder" && timeout 60 $run "$bin/$program" file < "$large" > "$work/out" 2> "$work/err"); ended=$?
  did "a file that gets too large" "$work/no" $'file: File too large\n' file "$work/before"
  # the system ends a program that writes to a closed pipe: nothing is told, and the file is as it was
  old; (cd "$folder"; set +o pipefail; cat "$piped" | { timeout 60 $run "$bin/$program" file; echo $? > "$work/status"; } | true) 2> "$work/err"
  ended=0; : > "$work/out"; did "a closed pipe, status $(cat "$work/status")" "$work/no" "" file "$work/before"
}

program=convert; cases="$work/convert"; mkdir "$cases"
for name in $(python3 tests/cases/convert_cases.py "$cases"); do
  fresh; makes "$cases/$name.in" file;             did "$name" "$cases/$name.out" "" file "$cases/$name.file"
  makes "$folder/file" file;                       did "$name, its file over itself" "$work/no" "" file "$cases/$name.kept"
done
echo 1 > "$work/one"
replaces "$cases"/both-forms.in "$work/no" "$cases"/both-forms.file "$cases"/wrong-check.in "$cases"/form-1.in "$cases"/refused-throughout.in "$work/no" "$work/one"

# what was salvaged is salvaged whole; reads of other sizes, from a pipe, change nothing
program=salvage; cases="$work/salvage"; mkdir "$cases"
for name in $(python3 tests/cases/salvage_cases.py "$cases"); do
  fresh; makes "$cases/$name.in" file;             did "$name" "$cases/$name.out" "" file "$cases/$name.file"
  echo "TOTAL $(($(wc -c < "$cases/$name.file") / 512)) 0" > "$work/whole"
  makes "$folder/file" file;                       did "$name, its file over itself" "$work/whole" "" file "$cases/$name.file"
  fresh; mkfifo "$work/reads"; dd if="$cases/$name.in" of="$work/reads" bs=709 2> /dev/null & makes "$work/reads" file; wait; rm "$work/reads"
  did "$name, from a pipe" "$cases/$name.out" "" file "$cases/$name.file"
done
echo "TOTAL 0 0" > "$work/total"; printf '0 7\nTOTAL 0 7\n' > "$work/seven"
replaces "$cases"/both-forms.in "$cases"/both-forms.out "$cases"/both-forms.file "$cases"/both-forms.in "$cases"/no-damage.in "$cases"/lost-in-every-block.in \
  "$work/total" "$work/seven"

# a read that fails after some parts: their runs are told, in order, no TOTAL follows, and the file is as it was
old; input="$cases/lost-in-every-block.in"; fails="$PWD/tests/programs/failing_input.py"
(cd "$folder" && timeout 60 python3 "$fails" "$input" $run "$bin/salvage" file > "$work/out" 2> "$work/err"); ended=$?
head -n 256 "$cases/lost-in-every-block.out" > "$work/runs"
did "a read that fails after four parts" "$work/runs" $'standard input: Input/output error\n' file "$work/before"

# faults PROGRAM INPUT: what it tells where it cannot write, cannot read, or is given an argument
faults() {
  : > "$work/out"
  timeout 60 $run "$bin/$1" < "$2" > /dev/full 2> "$work/err"; ended=$?
  wrote "$1, full output" 0 "" $'standard output: No space left on device\n'
  timeout 60 $run "$bin/$1" < "$work" > "$work/out" 2> "$work/err"; ended=$?
  wrote "$1, a directory as input" 0 "" $'standard input: Is a directory\n'
  timeout 60 $run "$bin/$1" word < "$2" > "$work/out" 2> "$work/err"; ended=$?
  wrote "$1, an argument" 0 "" "$1"$': no argument is taken\n'
}
for program in pack unpack; do
  mkdir "$work/$program"; python3 tests/cases/job_lines.py $program "$work/$program"
  for input in "$work/$program"/*.in; do
    want="${input%.in}"; name="$program, $(basename "$want" | tr _ ' ')"
    timeout 60 $run "$bin/$program" < "$input" > "$work/out" 2> "$work/err"; ended=$?
    if [ $ended = 0 ] && cmp -s "$work/out" "$want.out" && cmp -s "$work/err" "$want.err"; then
      echo "$name: $(wc -c < "$want.out") bytes, told: $(head -n 3 "$want.err" | tr '\n' ';')"
    else
      echo "$name: WRONG: status $ended, $(wc -c < "$work/out") bytes, told '$(head -n 3 "$work/err")'"; bad=1
    fi
  done
  faults $program "$work/$program/$([ $program = pack ] && echo a_good_line || echo a_good_block).in"
done

# routes, by the sweep and looked at as a whole: one line each; the example's is that of the gate
mkdir "$work/route"; python3 tests/cases/route_cases.py "$work/route"
cp examples/hall.route "$work/route/the_hall.in"; cp crates/route/stdout "$work/route/the_hall.out"
cp crates/route_clearance/stdout "$work/route/the_hall.whole"
for input in "$work/route"/*.in; do
  timeout 60 $run "$bin/route" < "$input" > "$work/out" 2> "$work/err"; ended=$?
  wrote "route, $(basename "${input%.in}" | tr _ ' ')" 0 "$(cat "${input%.in}.out")"$'\n' ""
  timeout 60 $run "$bin/route_clearance" < "$input" > "$work/out" 2> "$work/err"; ended=$?
  wrote "the whole route, $(basename "${input%.in}" | tr _ ' ')" 0 "$(cat "${input%.in}.whole")"$'\n' ""
done
faults route examples/hall.route
faults route_clearance examples/hall.route

# there and back: the blocks that are not refused come back in all their bytes; 10, 11, 14, 21, those with a form in byte 6 (25 to 30), and
# the short 31 are refused
timeout 60 $run "$bin/unpack" < examples/every-answer.batch 2> "$work/err" > "$work/lines"; ended=$?
for at in $(seq 24); do
  case $at in 10 | 11 | 14 | 21) ;; *) tail -c +$((512 * (at - 1) + 1)) examples/every-answer.batch | head -c 512 ;; esac
done > "$work/want"
: > "$work/out"; wrote "every answer, to lines" 0 "" $'10 11\n11 11\n14 10\n21 10\n25 10\n26 10\n27 10\n28 10\n29 10\n30 11\n31 9\n'
timeout 60 $run "$bin/pack" < "$work/lines" > "$work/back" 2> "$work/err"; ended=$?
wrote "and back" 0 "" ""
cmp "$work/back" "$work/want" || bad=1

# ---- report: its text is worked out from the sheets of the same batches
reports="$work/reports"; mkdir "$reports"
names="$(python3 tests/cases/report_cases.py files "${run:+$run }$bin/sheet" "$reports")" || bad=1

# reported CASE OUT ERR: status 0, the bytes of OUT printed, and that text told
reported() {
  if [ "$ended" = 0 ] && cmp -s "$work/out" "$2" && [ "$(cat "$work/err"; echo .)" = "$3." ]; then
    echo "report, $1: $(wc -l < "$2") lines${3:+, told: $(tail -c 60 "$work/err")}"
  else
    echo "report, $1: WRONG: status $ended, told '$(cat "$work/err")', printed:"; diff "$work/out" "$2" | head -n 5; bad=1
  fi
}
# reports [FILE..]: runs it in their folder
reports() { (cd "$reports" && timeout 60 $run "$bin/report" "$@" > "$work/out" 2> "$work/err"); ended=$?; }

for name in $names; do
  # shellcheck disable=SC2046
  reports $(cd "$reports" && ls -v "$name".[0-9]*);                reported "$name" "$reports/$name.out" ""
  if [ ! -e "$reports/$name.2" ]; then
    reports < "$reports/$name.1";                                  reported "$name, from standard input" "$reports/$name.out" ""
    cat "$reports/$name.1" | timeout 60 $run "$bin/report" > "$work/out" 2> "$work/err"; ended=$?
    reported "$name, from a pipe" "$reports/$name.out" ""
  fi
done
one="$reports/one-batch.1"; two="two-batches.1"

# faults: the file is told by its name, and nothing is printed, whichever files were read before
reports "$two" missing two-batches.2;                             reported "a missing file" "$work/no" $'missing: No such file or directory\n'
reports missing other;                                            reported "two missing files" "$work/no" $'missing: No such file or directory\n'
reports "$two" . two-batches.2;                                   reported "a folder" "$work/no" $'.: Is a directory\n'
reports "$two" two-batches.2/file;                                reported "a file in a file" "$work/no" $'two-batches.2/file: Not a directory\n'
reports "";                                                       reported "an empty name" "$work/no" $': No such file or directory\n'
long="$(printf 'n%.0s' $(seq 300))"
reports "$long";                                                  reported "a name that is too long" "$work/no" "$long"$': File name too long\n'
long="$(printf 'n%.0s' $(seq 5000))"
reports "$long";                                                  reported "an argument that is too long" "$work/no" "${long:0:4096}"$': File name too long\n'
# root may read any file, so root has nobody run this, on a copy that nobody can reach
nobody=""; [ "$(id -u)" != 0 ] || nobody="setpriv --reuid=65534 --regid=65534 --clear-groups"
chmod 711 "$work"; chmod -R go+rX "$reports"; cp "$bin/report" "$work/program"; chmod 755 "$work/program"
cp "$one" "$reports/locked"; chmod 000 "$reports/locked"
if $nobody test -x "$work/program" 2> /dev/null; then
  (cd "$reports" && timeout 60 $nobody $run "$work/program" "$two" locked > "$work/out" 2> "$work/err"); ended=$?
  reported "a file that may not be read" "$work/no" $'locked: Permission denied\n'
else
  echo "skipped: report on a file that may not be read: root may read it, and cannot be nobody here"
fi
reports < "$work";                                                reported "a folder as input" "$work/no" $'standard input: Is a directory\n'
(cd "$reports" && timeout 60 $run "$bin/report" <&- > "$work/out" 2> "$work/err"); ended=$?
reported "closed input" "$work/no" $'standard input: Bad file descriptor\n'
: > "$work/out"; timeout 60 $run "$bin/report" "$one" > /dev/full 2> "$work/err"; ended=$?
reported "full output" "$work/no" $'standard output: No space left on device\n'
: > "$work/out"; timeout 60 $run "$bin/report" "$one" >&- 2> "$work/err"; ended=$?
reported "closed output" "$work/no" $'standard output: Bad file descriptor\n'
(cd "$reports" && timeout 60 $run "$bin/report" "$two" two-batches.2 <&- > "$work/out" 2> "$work/err"); ended=$?
reported "files with a closed input" "$reports/two-batches.out" ""
exit $bad
