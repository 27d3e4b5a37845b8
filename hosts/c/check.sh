#!/usr/bin/env bash
# The door from C and the header from C++, without a warning: hosts/c/check.sh LIBDIR, the folder that has libkernel.a.
# The header's version is the project's, its helpers cost nothing unless used, its fresh table is the same in C and in C++, and the archive is
# as the header says.
set -euo pipefail

stop() {
  printf 'hosts/c/check.sh: %s\n' "$*" >&2
  exit 1
}
[ $# -eq 1 ] || stop "one argument is accepted: the folder that has libkernel.a (target/staticlib after 'hosts/build kernel')"
[ -f "$1/libkernel.a" ] || stop "there is no $1/libkernel.a: run 'hosts/build kernel' at the top of the repository"
archive=$(cd "$1" && pwd)/libkernel.a
cd "$(dirname "${BASH_SOURCE[0]}")"
room=$(mktemp -d)
trap 'rm -rf "$room"' EXIT

warnings=(-Wall -Wextra -Werror -pedantic -I../../include)

# OBJECT: it has no symbol, and no byte of code or data
is_empty() {
  [ -z "$(nm "$1" 2>/dev/null)" ] && ! size -A "$1" | awk '$1 ~ /^\.(text|rodata|data|bss)/ && $2 > 0' | grep -q .
}

# NAME COMPILER..: the fresh table that fresh.c writes, by this compiler and its words, is the one of the first name that was tried
fresh() {
  local name=$1
  shift
  "$@" "${warnings[@]}" fresh.c -o "$room/fresh" || stop "fresh.c as $name"
  "$room/fresh" >"$room/table" || stop "fresh.c as $name writes no table"
  [ -f "$room/first" ] || cp "$room/table" "$room/first"
  cmp "$room/table" "$room/first" || stop "the fresh table is another as $name"
}

# NAME COMPILER..: the macro can't be used so, and what the compiler says names the macro
no_macro() {
  local name=$1
  shift
  ! "$@" "${warnings[@]}" -fsyntax-only -DBY_MACRO fresh.c 2>"$room/said" || stop "SPELTMALLET_FRESH compiles as $name"
  grep -q SPELTMALLET_FRESH "$room/said" || stop "of SPELTMALLET_FRESH as $name the compiler says: $(cat "$room/said")"
}

printf '#include "speltmallet.h"\n' >"$room/unused.c"
cp "$room/unused.c" "$room/unused.cc"
for standard in c89 c99 c11; do
  gcc "${warnings[@]}" -std=$standard -fsyntax-only main.c || stop "main.c as $standard"
  fresh "$standard" gcc -std=$standard -O2
  for level in -O0 -O2; do
    gcc "${warnings[@]}" -Wunused -std=$standard $level -c "$room/unused.c" -o "$room/unused.o" || stop "the header alone as $standard"
    is_empty "$room/unused.o" || stop "the header costs code or data where nothing of it is used, as $standard at $level"
  done
done
for standard in c99 c11; do
  fresh "$standard by the macro" gcc -std=$standard -O2 -DBY_MACRO
done
no_macro c89 gcc -std=c89
# as a compiler of which the header knows nothing: no helpers unless they are asked for
printf '#include <%s>\n' stddef.h stdint.h stdio.h string.h >"$room/strange.h"
printf '#undef __GNUC__\n' >>"$room/strange.h"
strange=(-std=c89 -include "$room/strange.h" -fsyntax-only)
gcc "${warnings[@]}" "${strange[@]}" -DSPELTMALLET_HELPERS main.c || stop "main.c with SPELTMALLET_HELPERS"
gcc "${warnings[@]}" "${strange[@]}" -Wunused "$room/unused.c" || stop "the header alone, without a word for inline"

if command -v g++ >/dev/null 2>&1; then
  for standard in c++98 c++17; do
    g++ "${warnings[@]}" -std=$standard -c header.cc -o "$room/header.o" || stop "header.cc as $standard"
    nm "$room/header.o" | grep -q 'U speltmallet_door$' || stop "C++ gives the door another name than C"
    g++ "${warnings[@]}" -Wunused -std=$standard -O0 -c "$room/unused.cc" -o "$room/unused.o" || stop "the header alone as $standard"
    is_empty "$room/unused.o" || stop "the header costs code or data where nothing of it is used, as $standard"
    fresh "$standard" g++ -x c++ -std=$standard -O2
    no_macro "$standard" g++ -x c++ -std=$standard
  done
else
  printf 'hosts/c/check.sh: there is no g++, so the header is not tried from C++\n' >&2
fi

# MACRO: what the header makes of it
macro() { gcc -E -dM -I../../include "$room/unused.c" | sed -n "s/^#define SPELTMALLET_$1 //p"; }
version=$(cat ../../VERSION)
[ "$(macro VERSION)" = "\"$version\"" ] || stop "VERSION says $version, and the header's SPELTMALLET_VERSION $(macro VERSION)"
numbers=$(macro VERSION_MAJOR).$(macro VERSION_MINOR).$(macro VERSION_PATCH)
[ "$numbers" = "$version" ] || stop "VERSION says $version, and the header's three numbers $numbers"

./archive.sh "$(dirname "$archive")"

../x86_64 cc "${warnings[@]}" -Wunused -std=c89 -O0 "$room/unused.c" -o "$room/unused.o"
is_empty "$room/unused.o" || stop "the header costs code or data where nothing of it is used, on x86-64"
for standard in c89 c99; do
  ../x86_64 cc "${warnings[@]}" -std=$standard -O2 main.c -o "$room/main.o"
  ../x86_64 link "$room/main" "$room/main.o" "$archive" 2>"$room/said" || stop "$(cat "$room/said")"
  ../x86_64 run "$room/main"
done
