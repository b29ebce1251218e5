#!/usr/bin/env bash
# build-examples.sh: proves and builds the static library, and builds over it the shared one, the C and the Rust examples into target/link; target/link/kinds
# then says which of `c` and `rust` there are. What this machine cannot build is told as skipped, and why. C takes a compiler that writes
# x86-64 programs, CC, by default cc, on another machine x86_64-linux-gnu-gcc; C++ likewise CXX, c++ or x86_64-linux-gnu-g++. Rust takes cargo, and on another
# machine CARGO_BUILD_TARGET. Header and C examples have to compile without a warning as C99, C11 and C++17, and the archive may hold no data that is written
# and ask for nothing but memcpy and memset: what the header says of threads rests on that.
set -eu
cd "$(dirname "$0")/../.."
. tests/programs/with.sh
machine="$(uname -m)"; kinds=""
if [ "$machine" = x86_64 ]; then cc="${CC:-cc}" cxx="${CXX:-c++}"; else cc="${CC:-x86_64-linux-gnu-gcc}" cxx="${CXX:-x86_64-linux-gnu-g++}"; fi
strict="-Wall -Wextra -Werror -pedantic -O2 -Iinclude"
if command -v "${cc%% *}" > /dev/null; then
  kinds="c"
else
  echo "skipped: the C examples: no $cc here, and nothing else that writes x86-64 programs"
fi
if ! command -v cargo > /dev/null; then
  echo "skipped: the Rust crate and its examples: no cargo here"
elif [ "$machine" != x86_64 ] && [ -z "${CARGO_BUILD_TARGET:-}" ]; then
  echo "skipped: the Rust crate and its examples: the archive is for x86-64, and Rust here for $machine"
else
  kinds="$kinds rust"
fi
said="$(tools/staticlib.sh 2>&1)" || { echo "$said"; exit 1; }
mkdir -p target/link
for kind in $kinds; do
  case $kind in
  c)
    # the header alone, taken in twice; then each file, among them the program of docs/LIBRARY.md. What is left of a file is the program that C11 makes
    awk '$0 == "```c" { on = 1; next } /^```/ { on = 0 } on' docs/LIBRARY.md > target/link/turn.c
    files="examples/sheet.c examples/wide.c tests/programs/refusals.c target/link/turn.c"
    alone='#include "foldflake.h"\n#include "foldflake.h"\ntypedef int a_translation_unit_is_not_empty;\n'
    for std in c99 c11; do
      printf "$alone" | $cc -std=$std $strict -fsyntax-only -x c -
      for file in $files; do
        $cc -std=$std $strict -o "target/link/$(basename "$file" .c)-c" "$file" target/staticlib/libfoldflake.a
      done
    done
    if command -v "${cxx%% *}" > /dev/null; then
      printf "$alone" | $cxx -std=c++17 $strict -fsyntax-only -x c++ -
      for file in $files; do
        $cxx -std=c++17 $strict -o "target/link/$(basename "$file" .c)-cxx" -x c++ "$file" -x none target/staticlib/libfoldflake.a
      done
    else
      rm -f target/link/*-cxx
      echo "skipped: the header and the C examples as C++17: no $cxx here"
    fi
    held="$("$($cc -print-prog-name=nm)" target/staticlib/libfoldflake.a | awk '/[0-9A-Fa-f]* [TtRr] / || / U (memcpy|memset)$/ { n++; next } / / { print $NF } END { if (!n) print "nothing" }')"
    [ -z "$held" ] || { echo "libfoldflake.a holds data, or asks for something:" $held; exit 1; }
    $cc -shared -Wl,-soname,libfoldflake.so -o target/link/libfoldflake.so -Wl,--whole-archive target/staticlib/libfoldflake.a -Wl,--no-whole-archive
    ;;
  rust)
    cargo build --offline --quiet --release --manifest-path rust/Cargo.toml --examples --target-dir target/rust
    built="target/rust/${CARGO_BUILD_TARGET:-.}/release"
    for example in sheet wide; do cp "$built/examples/$example" "target/link/$example-rust"; done
    ;;
  esac
done
echo "$kinds" > target/link/kinds
echo "built: libfoldflake.a; examples:${kinds:+ }${kinds:-none}"
