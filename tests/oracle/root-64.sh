#!/usr/bin/env bash
# root-64.sh: the proved f64 root beside the processor's, over 10^8 patterns and more (tests/oracle/root_64.c says which). A minute; needs a C compiler.
set -eu
cd "$(dirname "$0")/../.."
tools/staticlib.sh > /dev/null
cc -O2 -o target/root_64 tests/oracle/root_64.c target/staticlib/libfoldflake.a
target/root_64
