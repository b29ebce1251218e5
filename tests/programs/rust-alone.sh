#!/usr/bin/env bash
# rust-alone.sh: the Rust crate without the archive, on every machine that has cargo: its documents are written without a warning; a build ends, and says what
# is missing; nothing of it is newer than the Rust version that rust/Cargo.toml states. For the last OLDEST_RUSTC names a compiler of that version, where
# neither rustc nor /usr/bin/rustc is one.
set -eu
cd "$(dirname "$0")/../.."
command -v cargo > /dev/null || { echo "skipped: the Rust crate without the archive: no cargo here"; exit 0; }
work="$(mktemp -d)"; trap 'rm -r "$work"' EXIT
mkdir "$work/empty"
export FOLDFLAKE_LIB="$work/empty"
manifest=(--offline --manifest-path rust/Cargo.toml --target-dir target/rust-alone)

RUSTDOCFLAGS="-D warnings" cargo doc --quiet --no-deps "${manifest[@]}" 2> "$work/told" || { cat "$work/told"; echo "WRONG: cargo doc fails"; exit 1; }
page="$(find target/rust-alone -path '*/doc/foldflake/index.html' | head -n 1)"
[ -n "$page" ] || { echo "WRONG: cargo doc wrote nothing"; exit 1; }
echo "cargo doc: $(find "$(dirname "$page")" -name '*.html' | wc -l) pages, without the archive"

if cargo build "${manifest[@]}" 2> "$work/told"; then echo "WRONG: a build without the archive succeeds"; exit 1; fi
grep -q -e 'there is no .*libfoldflake.a: run `tools/staticlib.sh`' -e 'libfoldflake.a is for x86-64 Linux programs' "$work/told" \
  || { cat "$work/told"; echo "WRONG: a build without the archive does not say why it ends"; exit 1; }
echo "cargo build: ends, and says that the archive is missing"

oldest="$(sed -n 's/^rust-version = "\(.*\)"/\1/p' rust/Cargo.toml)"; edition="$(sed -n 's/^edition = "\(.*\)"/\1/p' rust/Cargo.toml)"
for rustc in ${OLDEST_RUSTC:+"$OLDEST_RUSTC"} rustc /usr/bin/rustc none; do
  if [ "$rustc" = none ]; then break; fi
  case "$("$rustc" --version 2> /dev/null)" in "rustc $oldest" | "rustc $oldest".*) break ;; esac
done
if [ "$rustc" = none ]; then
  echo "skipped: the Rust crate by Rust $oldest, the oldest that it states: rustc here is another, and OLDEST_RUSTC names none"
else
  flags=(--edition "$edition" --emit metadata -D warnings --out-dir "$work")
  "$rustc" "${flags[@]}" --crate-type rlib --crate-name foldflake rust/src/lib.rs
  for file in rust/examples/*.rs; do "$rustc" "${flags[@]}" --crate-name "example_$(basename "$file" .rs)" --extern "foldflake=$work/libfoldflake.rmeta" "$file"; done
  for file in rust/tests/*.rs; do "$rustc" "${flags[@]}" --test --crate-name "test_$(basename "$file" .rs)" --extern "foldflake=$work/libfoldflake.rmeta" "$file"; done
  echo "Rust $oldest, the oldest stated: crate, examples and tests compile, edition $edition"
fi
