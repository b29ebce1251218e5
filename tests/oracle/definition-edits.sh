#!/usr/bin/env bash
# definition-edits.sh: what notices a change of the definition of the distance call. Each edit below is made in crates/model/specs in two copies of the
# tree. In the first the model is its definitions alone, without laws and table, and `exact` is proved over it: that is demand 3's own verdict. In the
# second all is there, and `distance` is proved with what it needs: the first crate that refuses is told, be it the model by its laws and its table
# or the code by its contracts. Printed with the first error of the log. Exit status 1 where `exact` does not do what the edit's line says.
set -u
here="$(cd "$(dirname "$0")/../.." && pwd)"
work="$(mktemp -d)"
trap 'rm -rf "$work"' EXIT
bad=0

edited() { # edited TREE FILE OLD NEW: a fresh copy of the crates with the edit
  rm -rf "$work/$1"; mkdir "$work/$1"
  cp -r "$here/crates" "$here/crates.txt" "$work/$1/"
  python3 - "$work/$1/crates/model/specs/$2" "$3" "$4" <<'PY'
import sys
path, old, new = sys.argv[1:]
text = open(path, encoding="utf-8").read()
if text.count(old) != 1:
    sys.exit(f"{path}: {old!r} stands {text.count(old)} times, not once")
open(path, "w", encoding="utf-8").write(text.replace(old, new))
PY
}

first_error() { grep -m1 'error:\|: no proof' "$work/log" | sed "s|$work/[a-z]*/||" | cut -c1-220 | sed 's/^/    /'; }

try() { # try NAME FILE WHAT-EXACT-DOES OLD NEW
  edited bare "$2" "$4" "$5" || exit 1
  (
    cd "$work/bare" || exit 1
    rm -r crates/model/proofs crates/model/specs/Table.antt
    sed -i '/^pub mod Table$/d' crates/model/specs/Lib.antt
    for crate in crates/*; do case "${crate#crates/}" in model | integers | exact) ;; *) rm -r "$crate" ;; esac; done
    printf 'model:\nintegers:\nexact: model integers\n' > crates.txt
    cd crates/exact && rt check
  ) > "$work/log" 2>&1 && verdict=passes || verdict=refused
  printf '%-20s exact %s\n' "$1" "$verdict"
  [ "$verdict" = passes ] || first_error
  [ "$verdict" = "$3" ] || { echo "    expected of exact: $3"; bad=1; }
  edited full "$2" "$4" "$5" || exit 1
  if (cd "$work/full/crates/distance" && rt check) > "$work/log" 2>&1; then
    printf '%-20s the code passes\n' "$1"
  else
    printf '%-20s %s\n' "$1" "$(sed -n 's/^fn \([a-z_]*\)::.*: n\(o proof\|ot proved\).*/\1 refuses/p' "$work/log" | head -n 1)"
    first_error
  fi
}

try e23-keeps-2-3 Simplex.antt refused \
  'kept s on23 = solved (moved (weigh_edge s 1 2) 0 2) 2' 'kept s on23 = solved (moved (moved (weigh_edge s 1 2) 0 1) 1 2) 2'
try support-takes-last Support.antt refused \
  '(cond (lt value v) i best) (cond (lt value v) v value)' '(cond (lt v value) best i) (cond (lt v value) value v)'
try cache-on-touching Distance.antt refused \
  'cache_by Touching pair c r = c' 'cache_by Touching pair c r = written pair c r.simplex r.count'
try nineteen-rounds Distance.antt passes \
  'max_iterations = 20' 'max_iterations = 19'
try eighteen-rounds Distance.antt refused \
  'max_iterations = 20' 'max_iterations = 18'
try region-strictly Simplex.antt refused \
  'not_above x = le x (Ground.zero f)' 'not_above x = lt x (Ground.zero f)'
try support-along-d Distance.antt refused \
  'support f outline_b (inverse_rotate f pose.rotation (negate d))' 'support f outline_b (inverse_rotate f pose.rotation d)'
try settled-writes-one Distance.antt refused \
  'cache_by Settled pair c r = written pair c r.simplex r.count' 'cache_by Settled pair c r = written pair c r.simplex 1'
exit $bad
