#!/usr/bin/env bash
# front-stored.sh [--check]: writes front/src/stored.txt anew: what `sheet`, `clearance`, `rooms` and `gaps` tell of each block that the front end's tests make.
# With --check nothing is written, and the exit status is 1 where the programs tell other than what is stored.
set -eu
cd "$(dirname "$0")/../.."
. tests/programs/with.sh
command -v cargo > /dev/null || { echo "skipped: what is stored for the tests of front/: no cargo here"; exit 0; }
proved sheet clearance rooms gaps
work="$(mktemp -d)"; trap 'rm -r "$work"' EXIT
said="$(FOLDFLAKE_RUN="$run $bin/" FOLDFLAKE_STORED="$work/stored" cargo test --offline --quiet --manifest-path front/Cargo.toml --target-dir target/front -- \
  --test-threads=1 2>&1)" || { echo "$said"; exit 1; }
if [ "${1:-}" = --check ]; then
  cmp "$work/stored" front/src/stored.txt || exit 1
else
  cp "$work/stored" front/src/stored.txt
fi
echo "stored: what four programs tell of $(($(wc -l < "$work/stored") / 5)) blocks"
