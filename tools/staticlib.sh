#!/bin/sh
# staticlib.sh: proves foldflake_c and what it is built over, where that is not proved yet, and puts the library for C programs at target/staticlib/libfoldflake.a
set -eu
cd "$(dirname "$0")/.."
(cd crates/foldflake_c && rt lib)
mkdir -p target/staticlib
cp crates/foldflake_c/out/libfoldflake_c.a target/staticlib/libfoldflake.a.new
mv target/staticlib/libfoldflake.a.new target/staticlib/libfoldflake.a
