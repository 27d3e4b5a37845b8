#!/usr/bin/env bash
# What is installed serves a firmware that knows nothing of this repository: hosts/install/check.sh LIBDIR, the folder that has libkernel.a.
# The printer is built outside of the checkout by the flags that pkg-config gives, and says what examples/ has; what docs/FIRMWARE.md
# shows in C compiles. Then what install.sh refuses, and that it leaves nothing behind where it does.
set -euo pipefail

stop() {
  printf 'hosts/install/check.sh: %s\n' "$*" >&2
  exit 1
}
[ $# -eq 1 ] || stop "one argument is accepted: the folder that has libkernel.a (target/staticlib after 'hosts/build kernel')"
[ -f "$1/libkernel.a" ] || stop "there is no $1/libkernel.a: run 'hosts/build kernel' at the top of the repository"
command -v pkg-config >/dev/null 2>&1 || stop "there is no pkg-config on the PATH: install it and run this again"
archive=$(cd "$1" && pwd)/libkernel.a
cd "$(dirname "${BASH_SOURCE[0]}")"
top=$(cd ../.. && pwd)
[ "$archive" = "$top/target/staticlib/libkernel.a" ] || stop "install.sh installs target/staticlib/libkernel.a, and not $archive"
room=$(mktemp -d)
trap 'rm -rf "$room"' EXIT
unset DESTDIR PKG_CONFIG_SYSROOT_DIR
checks=0

# WORD..: install.sh with these has to succeed
installed() {
  checks=$((checks + 1))
  ./install.sh "$@" >"$room/said" 2>&1 || stop "install.sh $*: $(cat "$room/said")"
}

# TEXT WORD..: install.sh with these fails in one line that has TEXT
refused() {
  local text=$1
  shift
  checks=$((checks + 1))
  ! ./install.sh "$@" >"$room/out" 2>"$room/said" || stop "install.sh $* is not refused"
  if [ "$(wc -l <"$room/said")" != 1 ] || [ -s "$room/out" ] || ! grep -qF -- "$text" "$room/said"; then
    stop "install.sh $* says: $(cat "$room/out" "$room/said")"
  fi
}

# FOLDER: the modes and names of what is in it
listed() { (cd "$1" && find . -mindepth 1 -printf '%m %y %p\n' | sort -k3); }

# ROOT: the three files are there, with their modes, and nothing else
complete() {
  checks=$((checks + 1))
  [ "$(listed "$1")" = "755 d ./include
644 f ./include/speltmallet.h
755 d ./lib
644 f ./lib/libspeltmallet.a
755 d ./lib/pkgconfig
644 f ./lib/pkgconfig/speltmallet.pc" ] || stop "in $1 there is: $(listed "$1")"
  cmp "$top/include/speltmallet.h" "$1/include/speltmallet.h" || stop "the header in $1 is another"
  cmp "$archive" "$1/lib/libspeltmallet.a" || stop "the archive in $1 is another"
}

# ROOT: the printer, built outside of the checkout by pkg-config's flags, records and says what examples/ has
prints() {
  checks=$((checks + 1))
  local away=$room/away
  rm -rf "$away" && mkdir "$away" && cp "$top/hosts/printer/printer.c" "$away/app.c"
  export PKG_CONFIG_LIBDIR="$1/lib/pkgconfig"
  [ "$(pkg-config --modversion speltmallet)" = "$(cat "$top/VERSION")" ] || stop "pkg-config gives another version than the file VERSION"
  # flags are words for a shell: a blank in a path has a backslash before it
  local cflags libs
  eval "cflags=($(pkg-config --cflags speltmallet))"
  eval "libs=($(pkg-config --libs speltmallet))"
  (
    cd "$away"
    "$top/hosts/x86_64" cc -Wall -Wextra -Werror -std=c89 -pedantic -O2 "${cflags[@]}" app.c -o app.o
    "$top/hosts/x86_64" link app app.o "${libs[@]}" 2>said || stop "$(cat said)"
    "$top/hosts/x86_64" run ./app requests - 330 >shares
  )
  cmp "$away/requests" "$top/examples/two-lanes.trace" || stop "the installed kernel's printer records otherwise than examples/two-lanes.trace"
  cmp "$away/shares" "$top/examples/two-lanes.shares" || stop "the installed kernel's printer says otherwise than examples/two-lanes.shares"
}

# ROOT: the pieces of C in docs/FIRMWARE.md are one file that compiles without a warning, and needs what they say is the firmware's own
reads() {
  local needed="clock_in_ticks interrupt_ask speltmallet_door start_timer stop_timer switch_context wake_after"
  checks=$((checks + 1))
  {
    printf '#include <stdint.h>\nvoid start(void);\nvoid switch_context(int from, int to);\n'
    printf 'static unsigned long forbid_interrupts(void);\nstatic void restore_interrupts(unsigned long flags);\n'
    awk '/^```/ { is_code = $0 == "```c"; next } is_code' "$top/docs/FIRMWARE.md"
  } >"$room/pieces.c"
  "$top/hosts/x86_64" cc -Wall -Wextra -Werror -O2 -mno-red-zone -I"$1/include" "$room/pieces.c" -o "$room/pieces.o" ||
    stop "the pieces of C in docs/FIRMWARE.md don't compile"
  [ "$(nm -u "$room/pieces.o" | awk '{ print $2 }' | sort | tr '\n' ' ')" = "$needed " ] ||
    stop "the pieces of C in docs/FIRMWARE.md need: $(nm -u "$room/pieces.o")"
}

installed "$room/plain"
complete "$room/plain"
prints "$room/plain"
reads "$room/plain"

# a second time over the first, where the first is out of date and unreadable to others
printf 'old\n' >"$room/plain/include/speltmallet.h"
chmod 600 "$room/plain/lib/libspeltmallet.a"
installed "$room/plain"
complete "$room/plain"

(umask 077 && installed "$room/with two blanks")
complete "$room/with two blanks"
prints "$room/with two blanks"

# the whole may be moved
mv "$room/with two blanks" "$room/moved away"
prints "$room/moved away"

DESTDIR="$room/stage one" installed /usr/local
complete "$room/stage one/usr/local"
prints "$room/stage one/usr/local"
DESTDIR=$room/stage refused "begins with a slash" here

refused "one argument is accepted"
refused "one argument is accepted" ""
refused "one argument is accepted" a b
: >"$room/file"
refused "the folder $room/file can't be made" "$room/file"
refused "the folder $room/file can't be made" "$room/file/below"
refused "can't be made" /proc/speltmallet/prefix

# what fails half-way leaves what was there: nothing, or the first install
mkdir -p "$room/half/lib"
: >"$room/half/lib/pkgconfig"
refused "the folder $room/half/lib/pkgconfig can't be made" "$room/half"
[ "$(listed "$room/half" | cut -d ' ' -f 2-)" = "d ./lib
f ./lib/pkgconfig" ] || stop "a failed install leaves: $(listed "$room/half")"
rm "$room/plain/lib/pkgconfig/speltmallet.pc"
mkdir "$room/plain/lib/pkgconfig/speltmallet.pc"
printf 'old\n' >"$room/plain/include/speltmallet.h"
refused "is a folder" "$room/plain"
[ "$(cat "$room/plain/include/speltmallet.h")" = old ] || stop "a failed install replaces the header"
[ "$(find "$room/plain" -type f | wc -l)" = 2 ] || stop "a failed install leaves: $(listed "$room/plain")"

# root may write everywhere, so a folder without the right to write is tried by others only
if [ "$(id -u)" != 0 ]; then
  mkdir "$room/closed" && chmod 555 "$room/closed"
  refused "can't be made" "$room/closed/prefix"
  mkdir "$room/shut" && mkdir "$room/shut/include" && chmod 555 "$room/shut/include"
  refused "can't be written to" "$room/shut"
fi

printf 'hosts/install: %s checks, the printer built and run outside of the checkout among them\n' "$checks"
