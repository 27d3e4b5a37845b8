#!/usr/bin/env bash
# How the launcher builds, tried with the trace program. hosts/launcher/check.sh has what these tests use.
# shellcheck disable=SC2154

progress_is_a_line_for_each_crate() {
  anew
  ran trace "$example"
  ended 0 5
  has "about 4 to 6 minutes on two free cores the first time, half a minute or more after a change" "$TRIED/err"
  like '1 of 4 crates proved, the last is rules; [0-9]+ s so far$' "$TRIED/err"
  has "4 of 4 crates proved, the last is trace" "$TRIED/err"
  has "454 0 0 1" "$TRIED/out"
  lacks speltmallet "$TRIED/out"
}

progress_is_in_place_on_a_terminal() {
  anew
  PAUSE=1.3 on_terminal "./speltmallet trace '$example' >/dev/null"
  like $'\rspeltmallet: 0 of 4 crates proved; [1-9] s so far' "$TRIED/shown"
  has $'\rspeltmallet: 4 of 4 crates proved' "$TRIED/shown"
  [ "$(wc -l <"$TRIED/shown")" -eq 2 ] || { echo "other than two lines:" && cat "$TRIED/shown" && return 1; }
}

# SIGNAL STATUS: a build that it ends leaves nothing behind, and the next start builds at once.
signalled() {
  anew
  # a shell without job control has its background ignore SIGINT
  PAUSE=30 env --default-signal=INT,TERM,HUP ./speltmallet trace "$example" >"$TRIED/out" 2>"$TRIED/err" &
  local pid=$! status=0
  until_so test -s "$TRIED/pids"
  kill -s "$1" "$pid"
  # an old launcher stays until its build ends: it and the build are ended by their ids
  until_so gone "$pid" || { kill -s KILL "$pid" && xargs kill -s TERM <"$TRIED/pids"; }
  wait "$pid" || status=$?
  [ "$status" -eq "$2" ] || { echo "status $status, and not $2" && return 1; }
  # shellcheck disable=SC2046
  gone $(cat "$TRIED/pids") || { echo "still at work: $(cat "$TRIED/pids")" && xargs kill -s TERM <"$TRIED/pids"; return 1; }
  [ -z "$(find "$TMPDIR" -mindepth 1)" ] || { echo "left behind: $(find "$TMPDIR" -mindepth 1)" && return 1; }
  [ -z "$(find target -name '*.began' 2>/dev/null)" ] || { echo "left behind: $(find target -name '*.began')" && return 1; }
  ran trace "$example"
  ended 0 5
  lacks waits "$TRIED/err"
}

interrupt_leaves_nothing() { signalled INT 130; }

request_to_end_leaves_nothing() { signalled TERM 143; }

hangup_leaves_nothing() { signalled HUP 129; }

ctrl_c_on_a_terminal_leaves_nothing() {
  anew
  local status=0
  { until_so test -s "$TRIED/pids" >&2 && printf '\003' && sleep 1; } | PAUSE=8 on_terminal "./speltmallet trace '$example'" || status=$?
  [ "$status" -ne 77 ] || exit 77
  [ "$status" -eq 130 ] || { echo "status $status, and not 130" && cat "$TRIED/shown" && return 1; }
  # shellcheck disable=SC2046
  gone $(cat "$TRIED/pids") || { echo "still at work: $(cat "$TRIED/pids")" && xargs kill -s TERM <"$TRIED/pids"; return 1; }
  [ -z "$(find "$TMPDIR" -mindepth 1)" ] || { echo "left behind: $(find "$TMPDIR" -mindepth 1)" && return 1; }
}

two_starts_build_once() {
  anew
  export PAUSE=1.5
  ./speltmallet trace "$example" >"$TRIED/first" 2>/dev/null &
  until_so test -s "$TRIED/builds"
  ran trace "$example"
  wait "$!"
  builds 1
  ended 0 1
  has "another start is building here; this one waits for it" "$TRIED/err"
  cmp "$TRIED/first" "$TRIED/out"
}

a_waiting_start_can_be_ended() {
  anew
  PAUSE=2 ./speltmallet trace "$example" >/dev/null 2>&1 &
  local first=$! second status=0
  until_so test -s "$TRIED/builds"
  env --default-signal=TERM ./speltmallet trace "$example" >/dev/null 2>"$TRIED/err" &
  second=$!
  until_so grep -q waits "$TRIED/err" || { wait && return 1; }
  kill -s TERM "$second"
  until_so gone "$second"
  wait "$second" || status=$?
  [ "$status" -eq 143 ] || { echo "status $status, and not 143" && return 1; }
  wait "$first"
  builds 1
}

a_build_without_its_launcher_is_waited_for() {
  anew
  export PAUSE=1
  ./speltmallet trace "$example" >/dev/null 2>&1 &
  until_so test -s "$TRIED/builds"
  kill -s KILL "$!"
  ran trace "$example"
  has "another start is building here" "$TRIED/err"
  [ "$status" -eq 0 ]
  gone "$(head -n 1 "$TRIED/pids" | cut -d ' ' -f 1)" || { echo "the first build is still at work" && return 1; }
}

an_edit_during_a_build_is_built() {
  anew
  : >"$TRIED/edit"
  ran trace "$example"
  builds 1
  ran trace "$example"
  builds 2
  ran trace "$example"
  ended 0 0
  builds 2
}

a_file_that_goes_is_an_edit() {
  anew
  echo "// more" >crates/trace/src/more.rt
  ran trace "$example"
  sleep 0.1
  rm crates/trace/src/more.rt
  ran trace "$example"
  builds 2
}

a_file_with_an_old_date_is_an_edit() {
  built trace
  sleep 0.1
  touch -d 2001-01-01 crates/trace/src/main.rt
  ran trace "$example"
  builds 1
}

a_failing_build_runs_nothing() {
  built trace
  sleep 0.1
  touch crates/trace/src/main.rt
  : >"$TRIED/fail"
  for _ in 1 2; do
    ran trace "$example"
    [ "$status" -eq 1 ] || { echo "status $status" && return 1; }
    has "fn trace::run: no proof" "$TRIED/err"
    has "crate rules: " "$TRIED/err"
    has "hosts/build trace" "$TRIED/err"
    has "target/log/trace has the whole" "$TRIED/err"
    has "fn trace::run: no proof" target/log/trace
    [ ! -s "$TRIED/out" ]
  done
  [ -z "$(find "$TMPDIR" -mindepth 1)" ] || { echo "left behind: $(find "$TMPDIR" -mindepth 1)" && return 1; }
}

no_temporary_folder_stops() {
  built trace
  sleep 0.1
  touch crates/trace/src/main.rt
  TMPDIR=$room/nowhere ran trace "$example"
  ended 1 1
  has "$room/nowhere" "$TRIED/err"
  [ ! -s "$TRIED/out" ]
}

a_checkout_that_cannot_be_written_is_said() {
  anew
  # root may write everywhere
  local as=()
  [ "$(id -u)" -ne 0 ] || as=(setpriv --reuid=65534 --regid=65534 --clear-groups)
  chmod 777 "$TMPDIR"
  chmod a-w "$scratch"
  status=0
  timeout 10 "${as[@]}" ./speltmallet trace "$example" >"$TRIED/out" 2>"$TRIED/err" || status=$?
  chmod u+w "$scratch"
  ended 1 1
  has "can't be written" "$TRIED/err"
  has "$scratch" "$TRIED/err"
}

another_kit_is_a_warning() {
  anew
  echo "rattle-kit-9z logic 0" >"$TRIED/kit"
  ran --version
  ended 0 1
  has "rattle-kit-9z logic 0" "$TRIED/err"
  has "$(cat "$top/KIT")" "$TRIED/err"
  ran trace "$example"
  ended 0 6
  has "rattle-kit-9z logic 0" "$TRIED/err"
}

links_lead_to_the_checkout() {
  built trace
  mkdir "$TRIED/bin"
  ln -s "$scratch/speltmallet" "$TRIED/bin/direct"
  ln -s direct "$TRIED/bin/chain"
  (cd "$TRIED/bin" && ln -s "../../a check out/speltmallet" relative)
  for link in direct chain relative; do
    for place in / "$TRIED/bin"; do
      (cd "$place" && timeout 10 "$TRIED/bin/$link" trace "$example") >"$TRIED/out"
      cmp "$room/right/trace" "$TRIED/out"
    done
  done
  (cd "$TRIED/bin" && timeout 10 ./chain trace "$example") | cmp "$room/right/trace" -
  (cd / && PATH="$TRIED/bin:$PATH" timeout 10 chain trace "$example") | cmp "$room/right/trace" -
}
