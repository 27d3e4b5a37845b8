#!/usr/bin/env bash
# Installs the kernel for C: hosts/install/install.sh PREFIX puts the header into PREFIX/include, the archive into PREFIX/lib as
# libspeltmallet.a, and what pkg-config reads into PREFIX/lib/pkgconfig. DESTDIR, where it is set, stands before PREFIX.
#
# All three files are written under other names first, and renamed when all are there: what can't be written leaves the folder as it was.
# pkg-config's file is the last, so that it is found where the other two are.
set -euo pipefail

stop() {
  printf 'hosts/install/install.sh: %s\n' "$*" >&2
  exit 1
}
if [ $# -ne 1 ] || [ -z "$1" ]; then
  stop "one argument is accepted: the folder to install into, such as /usr/local"
fi
top=$(cd "$(dirname "${BASH_SOURCE[0]}")/../.." && pwd)
header=$top/include/speltmallet.h
archive=$top/target/staticlib/libkernel.a
[ -f "$archive" ] || stop "there is no $archive: run 'hosts/build kernel' at the top of the repository"
version=$(cat "$top/VERSION")

case $1 in
/*) root=${DESTDIR:-}$1 ;;
*)
  [ -z "${DESTDIR:-}" ] || stop "with DESTDIR the folder to install into begins with a slash, and $1 does not"
  root=$PWD/$1
  ;;
esac
targets=("$root/include/speltmallet.h" "$root/lib/libspeltmallet.a" "$root/lib/pkgconfig/speltmallet.pc")

umask 022
made=()
written=()
# what a failure leaves behind is taken away: the files under other names, then the folders that were not there before
undo() {
  local at
  [ ${#written[@]} -eq 0 ] || rm -f -- "${written[@]}"
  for ((at = ${#made[@]} - 1; at >= 0; at--)); do
    rmdir -- "${made[at]}" 2>/dev/null || true
  done
}
trap undo EXIT
trap 'exit 1' HUP INT TERM

# FOLDER: makes it, and those above it
folder() {
  [ ! -d "$1" ] || return 0
  folder "$(dirname "$1")"
  mkdir -- "$1" 2>/dev/null || stop "the folder $1 can't be made"
  made+=("$1")
}

# prints what pkg-config reads; the paths go from the file's own place, so that the whole may be moved
description() {
  cat <<TEXT
prefix=\${pcfiledir}/../..
includedir=\${prefix}/include
libdir=\${prefix}/lib

Name: speltmallet
Description: a proved real-time kernel for two-lane ticket printers (x86-64)
Version: $version
Cflags: -I\${includedir}
Libs: -L\${libdir} -lspeltmallet
TEXT
}

# TARGET COMMAND..: what COMMAND prints is written beside TARGET
write() {
  local target=$1 other
  shift
  [ ! -d "$target" ] || stop "$target is a folder, and a file is to be written there"
  folder "$(dirname "$target")"
  other=$(mktemp "$target.XXXXXX" 2>/dev/null) || stop "the folder $(dirname "$target") can't be written to"
  written+=("$other")
  { "$@" >"$other" && chmod 644 "$other"; } 2>/dev/null || stop "the file $target can't be written"
}
write "${targets[0]}" cat "$header"
write "${targets[1]}" cat "$archive"
write "${targets[2]}" description

for at in 0 1 2; do
  mv -f -- "${written[at]}" "${targets[at]}" 2>/dev/null || stop "the file ${targets[at]} can't be replaced"
done
made=()
written=()
printf 'speltmallet %s is installed:\n' "$version"
printf '  %s\n' "${targets[@]}"
