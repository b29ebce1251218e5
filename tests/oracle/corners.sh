#!/usr/bin/env bash
# corners.sh SRC: the corners of foldflake_plate beside the numbers that the Rust gives to corners. SRC is as in oracle/build.sh. Needs a C compiler;
# on a machine that is not x86-64 CC names a cross compiler.
set -euo pipefail
cd "$(dirname "$0")/../.."
. tests/programs/with.sh
oracle/build.sh "$1" target/oracle
tools/staticlib.sh > /dev/null
mkdir -p target/link
"${CC:-cc}" -std=c99 -Wall -Wextra -Werror -O2 -Iinclude -o target/link/corners tests/oracle/corners.c target/staticlib/libfoldflake.a
target/oracle/oracle corners | $run target/link/corners
