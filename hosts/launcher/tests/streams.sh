#!/usr/bin/env bash
# What goes through a program and how it ends: each test is tried with trace, report, write and list, which is its first argument.
# hosts/launcher/check.sh has what these tests use.
# shellcheck disable=SC2154

a_program_is_built_by_its_own_check() {
  anew
  ran "$1" "$room/given/$1"
  ended 0 5
  is "run of $1" "$TRIED/builds"
  has "proving and building target/bin/$1: about " "$TRIED/err"
  has "4 of 4 crates proved, the last is $1" "$TRIED/err"
  cmp "$room/right/$1" "$TRIED/out"
  ran "$1" "$room/given/$1"
  ended 0 0
  builds 1
}

a_dash_or_nothing_is_standard_input() {
  built "$1"
  ran "$1" - <"$room/given/$1"
  ended 0 0
  cmp "$room/right/$1" "$TRIED/out"
  ran "$1" <"$room/given/$1"
  ended 0 0
  cmp "$room/right/$1" "$TRIED/out"
}

a_file_may_have_spaces_in_its_name() {
  built "$1"
  cp "$room/given/$1" "$TRIED/ a  file "
  ran "$1" "$TRIED/ a  file "
  ended 0 0
  cmp "$room/right/$1" "$TRIED/out"
}

# of a report there is Init's line
empty_input_prints_nothing() {
  built "$1"
  ran "$1" </dev/null
  ended 0 0
  case $1 in
  report) is "0 0 0" "$TRIED/out" ;;
  *) [ ! -s "$TRIED/out" ] ;;
  esac
}

what_is_no_file_is_refused_before_a_build() {
  anew
  ran "$1" "no such file"
  ended 1 1
  has "there is no file 'no such file'" "$TRIED/err"
  ran "$1" hosts
  ended 1 1
  has "'hosts' is a folder, and $1 reads" "$TRIED/err"
  ran "$1" "$room/given/$1" "$room/given/$1"
  ended 1 1
  has "$1 takes one FILE at the most, and not 2: $room/given/$1" "$TRIED/err"
  [ ! -s "$TRIED/out" ]
  builds 0
}

a_file_that_may_not_be_read_is_refused_before_a_build() {
  anew
  # root may read everything
  local as=()
  [ "$(id -u)" -ne 0 ] || as=(setpriv --reuid=65534 --regid=65534 --clear-groups)
  cp "$room/given/$1" "$TRIED/secret"
  chmod 0 "$TRIED/secret"
  status=0
  timeout 10 "${as[@]}" ./speltmallet "$1" "$TRIED/secret" >"$TRIED/out" 2>"$TRIED/err" || status=$?
  ended 1 1
  has "the file '$TRIED/secret' can't be read" "$TRIED/err"
  [ ! -s "$TRIED/out" ]
  builds 0
}

closed_input_is_said() {
  built "$1"
  status=0
  timeout 10 ./speltmallet "$1" <&- >"$TRIED/out" 2>"$TRIED/err" || status=$?
  ended 1 1
  has "standard input is closed: $1 reads" "$TRIED/err"
  status=0
  timeout 10 ./speltmallet "$1" "$room/given/$1" <&- >"$TRIED/out" 2>"$TRIED/err" || status=$?
  ended 0 0
  cmp "$room/right/$1" "$TRIED/out"
}

closed_output_is_said() {
  built "$1"
  status=0
  timeout 10 ./speltmallet "$1" "$room/given/$1" 2>"$TRIED/err" >&- || status=$?
  ended 1 1
  has "standard output is closed" "$TRIED/err"
}

a_missing_locale_is_no_failure() {
  built "$1"
  LC_ALL=xx_YY.UTF-8 ran "$1" "$room/given/$1"
  [ "$status" -eq 0 ] || { echo "status $status" && return 1; }
  cmp "$room/right/$1" "$TRIED/out"
}

# PROGRAM STATUS LINE..: where these lines come on standard error, the launcher passes them on and ends so.
noisy() {
  local program=$1 right=$2
  shift 2
  printf '%s\n' '#!/bin/sh' "cat >&2 <<'LINES'" "$@" LINES >hosts/x86_64
  ran "$program" "$room/given/$program"
  ended "$right" $#
  printf '%s\n' "$@" | cmp - "$TRIED/err"
}

only_the_programs_own_lines_are_failures() {
  built "$1"
  local line=0 record=0
  case $1 in write) line=1 ;; list) record=1 ;; esac
  noisy "$1" 0 "some noise" "another: a failure" "no $1: a failure" "bad line" "bad line 7 of 9" "a bad line 7" "bad record" "bad record 7 of 9" "a bad record 7" \
    stopped ""
  noisy "$1" 1 "some noise" "$1: a failure" "more noise"
  noisy "$1" "$line" "bad line 7"
  noisy "$1" "$record" "some noise" "bad record 123456789012"
  printf '#!/bin/sh\nexit 3\n' >hosts/x86_64
  ran "$1" "$room/given/$1"
  ended 3 0
}

input_that_cannot_be_read_is_said() {
  built "$1"
  ran "$1" <hosts
  ended 1 1
  is "$1: standard input can't be read" "$TRIED/err"
  [ ! -s "$TRIED/out" ]
}

a_full_disk_is_said() {
  built "$1"
  status=0
  timeout 10 ./speltmallet "$1" "$room/given/$1" 2>"$TRIED/err" >/dev/full || status=$?
  ended 1 1
  is "$1: standard output can't be written" "$TRIED/err"
}

# PROGRAM: input for it that has no end; of report, which prints when the input ends, some that ends when nobody reads what it prints.
endless() {
  case $1 in
  report) until_so test -e "$TRIED/closed" >&2 && head -c 12 "$room/given/$1" ;;
  write) yes 19 ;;
  *) cat /dev/zero ;;
  esac
}

# PROGRAM: reads some of what it prints, and closes the pipe; that of report at once.
leaves() {
  case $1 in
  report) exec <&- && : >"$TRIED/closed" ;;
  *) head -c 2 >"$TRIED/out" ;;
  esac
}

a_closed_pipe_is_quiet() {
  built "$1"
  : >"$TRIED/err"
  set +e
  endless "$1" | timeout 10 env --default-signal=PIPE ./speltmallet "$1" 2>"$TRIED/err" | leaves "$1"
  status=${PIPESTATUS[1]}
  set -e
  ended 141 0
}

a_closed_pipe_is_said_where_its_signal_is_ignored() {
  built "$1"
  set +e
  endless "$1" | timeout 10 env --ignore-signal=PIPE ./speltmallet "$1" 2>"$TRIED/err" | leaves "$1"
  status=${PIPESTATUS[1]}
  set -e
  ended 1 1
  is "$1: standard output can't be written" "$TRIED/err"
}

# PROGRAM: starts it on a pipe that stays open and gives it a single record or line; its process is then $pid, and what comes of the
# record or line is out. Of report nothing comes yet: it is at work.
answered() {
  local given=(head -c 12) right=(head -n 1)
  [ "$1" != write ] || given=(head -n 1) right=(head -c 12)
  mkfifo "$TRIED/pipe"
  env --default-signal=TERM ./speltmallet "$1" <"$TRIED/pipe" >"$TRIED/out" 2>"$TRIED/err" &
  pid=$!
  exec 8>"$TRIED/pipe"
  "${given[@]}" "$room/given/$1" >&8
  if [ "$1" = report ]; then
    until_so runs "$pid" report
    sleep 0.3
    [ ! -s "$TRIED/out" ] || { echo "before the input ends:" && cat "$TRIED/out" && return 1; }
    return
  fi
  until_so test -s "$TRIED/out"
  "${right[@]}" "$room/right/$1" | cmp - "$TRIED/out"
}

# a report comes when the input ends
output_comes_as_input_comes() {
  built "$1"
  answered "$1"
  exec 8>&-
  until_so gone "$pid"
  wait "$pid"
  [ "$1" != report ] || is "0 0 0" "$TRIED/out"
}

a_signal_ends_the_program_too() {
  built "$1"
  local pid children status=0
  answered "$1"
  children=$(cat "/proc/$pid/task/$pid/children")
  kill -s TERM "$pid"
  until_so gone "$pid"
  wait "$pid" || status=$?
  [ "$status" -eq 143 ] || { echo "status $status" && return 1; }
  # shellcheck disable=SC2086
  until_so gone $children
  exec 8>&-
}

a_terminal_is_told_what_is_waited_for() {
  built "$1"
  on_terminal "./speltmallet $1 >'$TRIED/out'" </dev/null
  case $1 in
  write) has "waits for lines of a listing (as '1 5 7 10') on standard input" "$TRIED/shown" ;;
  *) has "waits for request records of 12 bytes each on standard input" "$TRIED/shown" ;;
  esac
  has "Ctrl-D" "$TRIED/shown"
}
