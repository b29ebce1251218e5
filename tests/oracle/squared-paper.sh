#!/usr/bin/env bash
# squared-paper.sh [--f64] SRC OUT [MILLIONS] [SEED]: the claims on squared paper tested by running: demand 3, that the round limit is never reached, that
# no call goes round in circles, and that either outline may be called A. Builds the oracle from SRC (the folder that holds query/sweep_toi/*.rs as
# published) into OUT and makes calls: all pairs of small outlines, MILLIONS of random ones from SEED on, half as many random pairs, each three ways, and
# MILLIONS that are hunted for their length. It stops at the first call that a claim does not fit. With --f64 the oracle's f64 build, within 2,048 instead
# of 16: there the round limit may be reached, and the small outlines are left out.
set -eu
here="$(cd "$(dirname "$0")/../.." && pwd)"
wide=""; if [ "$1" = --f64 ]; then wide=64; shift; fi
"$here/oracle/build.sh" ${wide:+--f64} "$1" "$2" rustc rounds
"$2/oracle$wide" squared-paper "${3:-20}" "${4:-1}"
