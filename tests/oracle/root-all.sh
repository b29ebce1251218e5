#!/usr/bin/env bash
# root-all.sh: the proved root beside the processor's, over every f32. Some minutes; needs an x86-64 machine and a C compiler.
set -eu
cd "$(dirname "$0")/../.."
tools/staticlib.sh > /dev/null
cc -O2 -o target/root_all tests/oracle/root_all.c target/staticlib/libfoldflake.a
target/root_all
