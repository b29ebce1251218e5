#!/usr/bin/env bash
# link.sh: runs the Rust crate's tests, then compares what the C and the Rust examples print of every examples/*.batch, of the stored batch of `sheet`, and
# of cut ones with the proved program, byte for byte; in f64 likewise, and the distances and roots of C with those of Rust. What it needs is said in
# tests/programs/build-examples.sh; where one of the two is not there, the other is compared alone.
set -eu
cd "$(dirname "$0")/../.."
. tests/programs/with.sh
proved sheet sheet64; linked
[ -n "$kinds" ] || { echo "skipped: what C and Rust print beside sheet: neither is built here"; exit 0; }
has() { case " $kinds " in *" $1 "*) ;; *) return 1 ;; esac; }
if has rust; then cargo test --offline --quiet --manifest-path rust/Cargo.toml --target-dir target/rust; fi
work="$(mktemp -d)"; trap 'rm -r "$work"' EXIT
# the header's version is one; where C++ was built it prints what C prints, of the refusals' texts and of a batch
if has c; then
  $run target/link/refusals-c > "$work/texts" || { echo "the header's version is not one"; exit 1; }
  echo "refusals in C: $(wc -l < "$work/texts") numbers"
  # the program of docs/LIBRARY.md: the turn is not clear, and it prints what stands there
  if $run target/link/turn-c > "$work/turned"; then echo "docs/LIBRARY.md: the turn is clear"; exit 1; fi
  awk '$0 == "```output" { on = 1; next } /^```/ { on = 0 } on' docs/LIBRARY.md | cmp - "$work/turned" || { echo "docs/LIBRARY.md: C prints $(cat "$work/turned")"; exit 1; }
  echo "docs/LIBRARY.md: C prints $(cat "$work/turned")"
  if [ -x target/link/sheet-cxx ]; then
    for each in "refusals none" "sheet every-answer" "wide every-answer"; do
      set -- $each
      if [ "$2" = none ]; then : > "$work/batch"; else cp "examples/$2.batch" "$work/batch"; fi
      for kind in c cxx; do $run "target/link/$1-$kind" < "$work/batch" > "$work/$kind" 2>&1; done
      cmp "$work/c" "$work/cxx" || { echo "$1: C and C++ differ"; exit 1; }
    done
    echo "C++17: refusals, sheet and wide print what C prints"
  fi
fi
same() { # same NAME: the three sheets of the batch in the work folder, in f32 and in f64
  $run "$bin/sheet" < "$work/batch" > "$work/sheet"
  for kind in $kinds; do
    $run "target/link/sheet-$kind" < "$work/batch" > "$work/$kind" 2> "$work/$kind.small"
    cmp "$work/sheet" "$work/$kind" || { echo "$1: the $kind example differs from sheet"; exit 1; }
  done
  echo "$1: $(tail -n 1 "$work/sheet"): sheet and $kinds print the same"
  $run "$bin/sheet64" < "$work/batch" > "$work/sheet64"
  sed '$d' "$work/sheet64" > "$work/lines64"
  for kind in $kinds; do
    $run "target/link/wide-$kind" < "$work/batch" > "$work/wide-$kind"
    sed '/^[DR] /d' "$work/wide-$kind" | cmp "$work/lines64" - || { echo "$1: the $kind example differs from sheet64"; exit 1; }
  done
  if has c && has rust; then cmp "$work/wide-c" "$work/wide-rust" || { echo "$1: C and Rust differ in f64"; exit 1; }; fi
  echo "$1: $(tail -n 1 "$work/sheet64"): sheet64 and $kinds print the same, $(grep -c '^D' "$work/wide-$kind" || true) distances each"
}
for batch in examples/*.batch crates/sheet/stdin; do
  cp "$batch" "$work/batch"; same "$batch"
  head -c 1000 "$batch" > "$work/batch"; same "the first 1000 bytes of $batch"
done
: > "$work/batch"; same "no input"
for kind in $kinds; do sed "s/^/$kind /" "$work/$kind.small"; done
