#!/usr/bin/env bash
# The programs' time for some 1,000,000 records beside the door's own: hosts/bench/programs.sh LIBDIR BIN, the folder that has libkernel.a
# and the folder that has the programs. The records are those of the printer of hosts/printer; write gets the listing that list makes of
# them, and then as many of the longest lines. Ends with status 1 where a program takes above 1.5 times the door's time. Then report gets
# 1,000,000 records that create two lanes and ask for 99,999 ticks at once, over and over; it may take 3 times the door's time for them.
set -euo pipefail

stop() {
  printf 'hosts/bench/programs.sh: %s\n' "$*" >&2
  exit 1
}
[ $# -eq 2 ] || stop "two arguments are accepted: the folder that has libkernel.a, and the folder of the programs (target/bin after 'hosts/build' of trace, write, list and report)"
[ -f "$1/libkernel.a" ] || stop "there is no $1/libkernel.a: run 'hosts/build kernel' at the top of the repository"
for program in trace write list report; do
  [ -f "$2/$program" ] || stop "there is no $2/$program: run 'hosts/build $program' at the top of the repository"
done
archive=$(cd "$1" && pwd)/libkernel.a
bin=$(cd "$2" && pwd)
cd "$(dirname "${BASH_SOURCE[0]}")"
room=$(mktemp -d)
trap 'rm -rf "$room"' EXIT

for program in serve ../printer/printer; do
  name=$(basename "$program")
  ../x86_64 cc -O3 -I../../include "$program.c" -o "$room/$name.o"
  ../x86_64 link "$room/$name" "$room/$name.o" "$archive" 2>"$room/said" || stop "$(cat "$room/said")"
done
# fewer records than the 1,000,000 after which report stops
../x86_64 run "$room/printer" "$room/requests" - 735000 >/dev/null
../x86_64 run "$bin/list" <"$room/requests" >"$room/listing"
../x86_64 run "$bin/write" <"$room/listing" | cmp - "$room/requests" || stop "the listing of the records is written to other records"
records=$(($(stat -c %s "$room/requests") / 12))
# as many of the longest lines that there are
awk -v n="$records" 'BEGIN { while (n--) print "8 255 4294967295 00000000000004294967295" }' >"$room/longest"
../x86_64 run "$bin/write" <"$room/longest" >"$room/widest"

# two lanes, and then the most ticks at once, up to the record after which report stops
{ printf '1 1 5 2\n1 2 5 3\n' && awk 'BEGIN { for (n = 2; n < 1000000; n++) print "21 99999" }'; } >"$room/sleepy"
../x86_64 run "$bin/write" <"$room/sleepy" >"$room/sleeps"
asleep="report, 99,999 ticks in each record"

# ROW PROGRAM INPUT: one run; its processor time in milliseconds goes to took[ROW] where it is the least so far
declare -A took
run() {
  local user system now
  TIMEFORMAT='%U %S'
  read -r user system < <({ time ../x86_64 run "$2" <"$3" >/dev/null; } 2>&1)
  now=$(awk "BEGIN { printf \"%d\", ($user + $system) * 1000 }")
  if [ -z "${took[$1]-}" ] || [ "$now" -lt "${took[$1]}" ]; then took[$1]=$now; fi
}

# ROW: is its least time within 1.5 times the door's least, and of the sleeps within 3 times?
within() {
  if [ "$1" = "$asleep" ]; then
    [ "${took[$1]}" -le $((took[asleep] * 3)) ]
  else
    [ $((took[$1] * 10)) -le $((took[door] * 15)) ]
  fi
}

# A run takes a tenth of a second, and what else the machine does can double it for seconds: all are run in turns, five times, and on while one
# is over, up to forty times. Under the emulator a run takes seconds, and two turns do.
least=5
where=''
if ../x86_64 emulated; then
  least=2
  where=', all under the emulator'
fi
rows=(trace write list report "write, lines of 40 characters" "list, their records")
for round in {1..40}; do
  run door "$room/serve" "$room/requests"
  run trace "$bin/trace" "$room/requests"
  run write "$bin/write" "$room/listing"
  run list "$bin/list" "$room/requests"
  run report "$bin/report" "$room/requests"
  run "${rows[4]}" "$bin/write" "$room/longest"
  run "${rows[5]}" "$bin/list" "$room/widest"
  # the sleeps take seconds: two turns do, and more while report is over
  if [ "$round" -le 2 ] || ! within "$asleep"; then
    run asleep "$room/serve" "$room/sleeps"
    run "$asleep" "$bin/report" "$room/sleeps"
  fi
  over=0
  for row in "${rows[@]}" "$asleep"; do within "$row" || over=1; done
  [ "$round" -lt "$least" ] || [ "$over" -ne 0 ] || break
done

printf '%d records%s, the least of %d runs: the door alone %d ms\n' "$records" "$where" "$round" "${took[door]}"
for row in "${rows[@]}"; do
  verdict=OK
  within "$row" || verdict=OVER
  awk "BEGIN { printf \"%s: %d ms, %.2f times; at most 1.5: %s\n\", \"$row\", ${took[$row]}, ${took[$row]} / ${took[door]}, \"$verdict\" }"
done
verdict=OK
within "$asleep" || verdict=OVER
printf '1000000 records of 99,999 ticks%s: the door alone %d ms\n' "$where" "${took[asleep]}"
awk "BEGIN { printf \"%s: %d ms, %.2f times; at most 3: %s\n\", \"$asleep\", ${took[$asleep]}, ${took[$asleep]} / ${took[asleep]}, \"$verdict\" }"
exit "$over"
