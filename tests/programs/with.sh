# To be sourced in the repository's root by scripts that run programs. All are x86-64 programs.
#
# `run` is what stands before a program so that this machine runs it: nothing on x86-64, elsewhere the kit's emulator, loader and C library, as `rt`
# itself runs what it proved. RUN, where it is set, stands in their place.
if [ -n "${RUN+set}" ]; then
  run="$RUN"
elif [ "$(uname -m)" = x86_64 ]; then
  run=""
else
  kit="$(cd "$(dirname "$(rt doc)")/../on/$(uname -m)/toolchain" && pwd)" && [ -x "$kit/bin/qemu-x86_64" ] \
    || { echo "no emulator of the kit runs x86-64 programs on $(uname -m): RUN may name another"; exit 1; }
  run="$kit/bin/qemu-x86_64 $kit/lib/ld-linux-x86-64.so.2 --library-path $kit/lib"
fi

# proved NAME..: sets `bin`, the folder that has these programs: PROGRAMS where it is set, else target/bin, once they are proved
proved() {
  [ -n "${PROGRAMS:-}" ] || tools/program.sh "$@" > /dev/null 2>&1 || { echo "not proved: one of $*"; exit 1; }
  bin="$(cd "${PROGRAMS:-target/bin}" && pwd)"
}

# linked: sets `kinds`, for which of `c` and `rust` target/link has the examples: they are built first, unless LINKED says that they were
linked() {
  [ -n "${LINKED:-}" ] || tests/programs/build-examples.sh || exit 1
  kinds="$(cat target/link/kinds)"
}
