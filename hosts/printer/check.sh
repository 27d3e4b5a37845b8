#!/usr/bin/env bash
# The printers over the header, without a warning: hosts/printer/check.sh LIBDIR TRACE, the folder that has libkernel.a and the trace program.
# What a printer records is what examples/ has, and the trace of it is what the kernel answered; a TICKS that is no number is refused. The
# battery printer leaves the same tables whether it sleeps or its timer wakes it for every tick.
set -euo pipefail

stop() {
  printf 'hosts/printer/check.sh: %s\n' "$*" >&2
  exit 1
}
[ $# -eq 2 ] || stop "two arguments are accepted: the folder that has libkernel.a, and the trace program (target/bin/trace after 'hosts/build trace')"
[ -f "$1/libkernel.a" ] || stop "there is no $1/libkernel.a: run 'hosts/build kernel' at the top of the repository"
[ -f "$2" ] || stop "there is no $2: run 'hosts/build trace' at the top of the repository"
archive=$(cd "$1" && pwd)/libkernel.a
trace=$(cd "$(dirname "$2")" && pwd)/$(basename "$2")
cd "$(dirname "${BASH_SOURCE[0]}")"
room=$(mktemp -d)
trap 'rm -rf "$room"' EXIT

for program in printer battery; do
  ../x86_64 cc -Wall -Wextra -Werror -std=c89 -pedantic -O2 -I../../include "$program.c" -o "$room/$program.o"
  ../x86_64 link "$room/$program" "$room/$program.o" "$archive" 2>"$room/said" || stop "$(cat "$room/said")"
done

# TICKS: what the printer records in so many ticks is traced to the same answers
replayed() {
  ../x86_64 run "$room/printer" "$room/requests" "$room/lines" "$1" >"$room/shares"
  ../x86_64 run "$trace" <"$room/requests" >"$room/traced"
  cmp "$room/lines" "$room/traced" || stop "the trace of $1 ticks answers otherwise than the printer was answered"
}
replayed 20000
replayed 330
cmp "$room/requests" ../../examples/two-lanes.trace || stop "examples/two-lanes.trace is not what the printer records in 330 ticks"
cmp "$room/shares" ../../examples/two-lanes.shares || stop "examples/two-lanes.shares is not what the printer says of 330 ticks"

# WORD: the printer refuses it as TICKS, in one line that names it
refused() {
  ! ../x86_64 run "$room/printer" "$room/none" - "$1" >"$room/out" 2>"$room/said" || stop "the printer takes '$1' as a number of ticks"
  [ "$(cat "$room/said")" = "printer: TICKS is a number from 1 to 1000000, and not $1" ] || stop "of '$1' the printer says: $(cat "$room/said")"
  [ ! -s "$room/out" ] || stop "the printer refuses '$1' and prints all the same"
  [ ! -e "$room/none" ] || stop "the printer refuses '$1' and records all the same"
}
for word in 12abc abc '' -5 +5 ' 5' 0x10 0 1000001 99999999999999999999 -18446744073709551615; do
  refused "$word"
done

# WAY: what the battery printer records in this way is traced to the same answers
battery() {
  ../x86_64 run "$room/battery" "$1" "$room/$1.requests" "$room/$1.lines" "$room/$1.tables" >>"$room/wakes"
  ../x86_64 run "$trace" <"$room/$1.requests" >"$room/traced"
  cmp "$room/$1.lines" "$room/traced" || stop "the trace of the battery printer, $1, answers otherwise than it was answered"
}
battery asleep
battery ticking
[ -s "$room/asleep.tables" ] || stop "the battery printer keeps no table"
cmp "$room/asleep.tables" "$room/ticking.tables" || stop "the battery printer leaves another table asleep than by single ticks"
cmp "$room/asleep.requests" ../../examples/battery.trace || stop "examples/battery.trace is not what the battery printer records"
cmp "$room/wakes" ../../examples/battery.wakes || stop "examples/battery.wakes is not what the battery printer says"
! ../x86_64 run "$room/battery" awake "$room/none" "$room/none" "$room/none" >"$room/out" 2>"$room/said" || stop "the battery printer takes 'awake' as a way"
[ "$(cat "$room/said")" = "battery: usage: battery asleep|ticking REQUESTS LINES TABLES" ] || stop "of 'awake' the battery printer says: $(cat "$room/said")"
[ ! -e "$room/none" ] || stop "the battery printer refuses 'awake' and records all the same"
moments=$(($(stat -c %s "$room/asleep.tables") / 604))
printf 'hosts/printer: 4 recordings replayed to the same answers; asleep and by single ticks the same table after each of %d moments\n' "$moments"
