#!/usr/bin/env bash
# front.sh: the tests of front/, which run no program: what the proved programs tell is stored in front/src/stored.txt. RUSTC names another compiler than rustc,
# and RUN then what runs its programs.
set -eu
cd "$(dirname "$0")/../.."
command -v "${RUSTC:-rustc}" > /dev/null || { echo "skipped: the tests of front/: no ${RUSTC:-rustc} here"; exit 0; }
work="$(mktemp -d)"; trap 'rm -r "$work"' EXIT
"${RUSTC:-rustc}" --edition 2021 -D warnings --test --crate-name foldflake -o "$work/front" front/src/main.rs
run=""; [ -z "${RUSTC:-}" ] || run="${RUN:-}"
$run "$work/front" --quiet > "$work/said" || { cat "$work/said"; exit 1; }
grep '^test result' "$work/said"
