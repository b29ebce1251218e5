# To be sourced by ./foldflake, in the repository's root: `install DIR` and `uninstall DIR`.
#
#   DIR/bin/foldflake                    the front end
#   DIR/libexec/foldflake/               the proved programs, and what they were built from
#   DIR/include/foldflake.h, DIR/lib/libfoldflake.a, DIR/lib/libfoldflake.so, DIR/lib/pkgconfig/foldflake.pc    on x86-64
#   DIR/lib/python/foldflake.py          the same; it finds the shared library above its folder
#   DIR/share/man/man1/foldflake.1
#   DIR/share/foldflake/installed        the list of all that, by which uninstall goes

place_of() {
  [ $# = 2 ] && [ -n "$2" ] || fail "usage: ./foldflake $1 DIR"
  case $2 in -*) fail "$2: a name that begins with - is not taken; ./$2 names such a folder" ;; /*) place=$2 ;; *) place=$here/$2 ;; esac
  list=$place/share/foldflake/installed
}

# put MODE FILE NAME: copies a file to its place beside it, and renames it
put() {
  case $3 in */*) mkdir -p "$place/${3%/*}" ;; esac || exit 2
  cp "$2" "$place/$3.new" && chmod "$1" "$place/$3.new" && mv "$place/$3.new" "$place/$3" || fail "$place/$3: it is not installed"
  echo "$3" >> "$work/list"
}

install() {
  place_of install "$@"
  build
  prove $every
  work=$(mktemp -d) || exit 2
  trap 'rm -rf "$work"' EXIT
  mkdir -p "$place" || exit 2
  # what an earlier install put there and this one does not is taken away at the end
  [ ! -f "$list" ] || cp "$list" "$work/before"
  put 755 target/front/release/foldflake bin/foldflake
  for name in $every; do put 755 "${PROGRAMS:-target/bin}/$name" "libexec/foldflake/$name"; done
  commit=$(git rev-parse --short=12 HEAD 2> /dev/null) || commit=none
  [ -z "$(git status --porcelain 2> /dev/null)" ] || commit="$commit with changes"
  printf 'kit %s\ncommit %s\n' "$kit" "$commit" > "$work/built"
  put 644 "$work/built" libexec/foldflake/built
  put 644 docs/foldflake.1 share/man/man1/foldflake.1
  if [ "$(uname -m)" = x86_64 ]; then
    tools/staticlib.sh > "$log" 2>&1 || fail "the static library is not proved: see $log"
    put 644 include/foldflake.h include/foldflake.h
    put 644 target/staticlib/libfoldflake.a lib/libfoldflake.a
    if command -v "${CC:-cc}" > /dev/null; then
      "${CC:-cc}" -shared -Wl,-soname,libfoldflake.so -o "$work/libfoldflake.so" -Wl,--whole-archive target/staticlib/libfoldflake.a -Wl,--no-whole-archive \
        > "$log" 2>&1 || fail "the shared library does not link: see $log"
      put 755 "$work/libfoldflake.so" lib/libfoldflake.so
    else
      echo "skipped: lib/libfoldflake.so: no ${CC:-cc} here" >&2
    fi
    version=$(sed -n 's/^version = "\(.*\)"/\1/p' front/Cargo.toml)
    printf 'prefix=%s\n\nName: foldflake\nDescription: Time of impact of two convex outlines along planned moves, proved\nVersion: %s\n' "$place" \
      "$version" > "$work/pc"
    printf 'Cflags: -I${prefix}/include\nLibs: -L${prefix}/lib -lfoldflake\n' >> "$work/pc"
    put 644 "$work/pc" lib/pkgconfig/foldflake.pc
    put 644 python/foldflake.py lib/python/foldflake.py
  else
    echo "skipped: the header, libfoldflake.a, libfoldflake.so, foldflake.pc and foldflake.py: the library is for x86-64, and this machine is $(uname -m)" >&2
  fi
  mkdir -p "$place/share/foldflake" || exit 2
  echo share/foldflake/installed >> "$work/list"
  cp "$work/list" "$list.new" && mv "$list.new" "$list" || fail "$list: it is not written"
  if [ -f "$work/before" ]; then
    while read -r name; do grep -qxF "$name" "$work/list" || rm -f "$place/$name"; done < "$work/before"
  fi
  echo "foldflake: $(wc -l < "$list" | tr -d ' ') files in $place; ./foldflake uninstall $place takes them away" >&2
}

uninstall() {
  place_of uninstall "$@"
  [ -f "$list" ] || fail "$list: it is not there, so nothing is known to be installed"
  while read -r name; do
    # names are ours alone: none leads out of the folder
    case $name in /* | *..*) fail "$list: $name is no name that install writes" ;; esac
  done < "$list"
  work=$(mktemp) && cp "$list" "$work" || exit 2
  while read -r name; do rm -f "$place/$name" || fail "$place/$name: it is not taken away"; done < "$work"
  # folders go where they are empty
  sed 's|/[^/]*$||' "$work" | sort -u | while read -r folder; do
    while [ "$folder" != . ] && rmdir "$place/$folder" 2> /dev/null; do folder=$(dirname "$folder"); done
  done
  rm -f "$work"
  echo "foldflake: what was installed in $place is taken away" >&2
}
