#!/bin/sh
# program.sh NAME..: proves each program with what it is built over, where that is not proved yet, and puts it into target/bin. Ends with rt check's status where
# one is not proved. rt builds a program by running it: it gets no input there, and what it says is not looked at.
set -u
cd "$(dirname "$0")/.." && mkdir -p target/bin || exit 1
for name; do
  rm -f "crates/$name/out/$name"
  (cd "crates/$name" && exec rt check) || exit
  (cd "crates/$name" && exec rt run < /dev/null)
  [ -x "crates/$name/out/$name" ] || { echo "program.sh: $name is not built" >&2; exit 1; }
  cp "crates/$name/out/$name" "target/bin/$name.new" && mv "target/bin/$name.new" "target/bin/$name" || exit 1
done
