#!/usr/bin/env bash
# python.sh: python/foldflake.py, by tests/programs/python_face.py, beside what the proved programs print of every examples/*.batch, of a part of the stored
# batch of `sheet`, of cut ones and of stored routes. Blocks and refusals are tried on every machine that has python3; the calls, with the doc tests that make
# some, where Python can load the library: on x86-64, and elsewhere where PYTHON names an x86-64 Python, and RUN what runs it. mypy looks at the types.
set -eu
cd "$(dirname "$0")/../.."
. tests/programs/with.sh
command -v python3 > /dev/null || { echo "skipped: python: no python3 here"; exit 0; }
export PYTHONDONTWRITEBYTECODE=1
proved sheet sheet64 clearance gaps convert; linked
has() { case " $kinds " in *" $1 "*) ;; *) return 1 ;; esac; }
work="$(mktemp -d)"; trap 'rm -r "$work"' EXIT

fill() { # fill NAME: what the programs print of the batch of that name in the work folder
  for program in sheet sheet64 clearance gaps; do $run "$bin/$program" < "$work/$1.batch" > "$work/$1.$program"; done
  $run "$bin/convert" "$work/$1.other" < "$work/$1.batch" > /dev/null
}
for batch in examples/*.batch; do
  name="$(basename "$batch" .batch)"
  cp "$batch" "$work/$name.batch"; fill "$name"
  head -c 1000 "$batch" > "$work/$name-cut.batch"; fill "$name-cut"
done
head -c 61500 crates/sheet/stdin > "$work/stored.batch"; fill stored
mkdir "$work/routes"
python3 tests/cases/route_cases.py "$work/routes"

python3 tests/programs/python_face.py blocks "$work"
if command -v mypy > /dev/null; then mypy --strict --cache-dir "$work/mypy" python/foldflake.py; else echo "skipped: the types of python/foldflake.py: no mypy here"; fi
if has c; then
  $run target/link/refusals-c > "$work/texts"
  python3 tests/programs/python_face.py texts | cmp - "$work/texts" || { echo "WRONG: the refusals' texts of Python and C differ"; exit 1; }
  echo "refusals: Python has the texts of C"
fi

if ! has c; then
  echo "skipped: python's calls: no C compiler that links libfoldflake.so here"
elif [ "$(uname -m)" = x86_64 ]; then
  FOLDFLAKE_LIB="$PWD/target/link" ${PYTHON:-python3} tests/programs/python_face.py calls "$work"
elif [ -n "${PYTHON:-}" ]; then
  FOLDFLAKE_LIB="$PWD/target/link" $run $PYTHON tests/programs/python_face.py calls "$work"
else
  echo "skipped: python's calls: libfoldflake.so is for x86-64, and Python here for $(uname -m): PYTHON may name one for x86-64, and RUN what runs it"
fi
