#!/usr/bin/env bash
# The launcher, tried on a scratch checkout whose rt proves nothing: hosts/launcher/check.sh BIN [LAUNCHER], the folder of the compiled
# programs and the launcher to try, which is ./speltmallet where it is left out. The tests are the files of hosts/launcher/tests.
set -euo pipefail

stop() {
  printf 'hosts/launcher/check.sh: %s\n' "$*" >&2
  exit 1
}
programs=(trace report write list) # a file goes through each
case $# in 1 | 2) ;; *) stop "one or two arguments are accepted: the folder of the programs (target/bin after 'hosts/build' of ${programs[*]}), and a launcher to try" ;; esac
for program in "${programs[@]}"; do
  [ -f "$1/$program" ] || stop "there is no $1/$program: run 'hosts/build $program' at the top of the repository"
done
top=$(cd "$(dirname "${BASH_SOURCE[0]}")/../.." && pwd)
launcher=${2-$top/speltmallet}
[ -f "$launcher" ] || stop "there is no launcher $launcher"

room=$(mktemp -d)
trap 'rm -rf "$room"' EXIT
chmod 755 "$room"
mkdir "$room/bin" "$room/programs" "$room/given" "$room/right"
cp "${programs[@]/#/$1/}" "$room/programs/"
cp "$launcher" "$room/launcher"
chmod 755 "$room/launcher" "$room/programs/"*
scratch="$room/a check out" # a path with spaces
TRIED=$room/tried           # what the fake tools note
REAL=$(command -v rt || true)
export TRIED REAL PROGRAMS="$room/programs"
example=$top/examples/two-lanes.trace

# What the tests give to each program, and what the program by itself makes of that.
for program in trace report list; do cp "$example" "$room/given/$program"; done
"$top/hosts/x86_64" run "$PROGRAMS/list" <"$example" >"$room/given/write"
for program in "${programs[@]}"; do
  "$top/hosts/x86_64" run "$PROGRAMS/$program" <"$room/given/$program" >"$room/right/$program"
done
export TMPDIR=$room/temporary PATH="$room/bin:$PATH"

# The fake tools: an rt that takes PAUSE seconds for the first crate and leaves a temporary folder where it is ended, and a cargo. rt works in the
# folder of a crate, and leaves there what it makes.
cat >"$room/bin/rt" <<'FAKE'
#!/usr/bin/env bash
case $1 in
doc) exec "$REAL" doc ;; # hosts/x86_64 asks the real kit for its emulator
version) cat "$TRIED/kit" && exit ;;
esac
crate=${PWD##*/}
echo "$1 of $crate" >>"$TRIED/builds"
own=$(mktemp -d) || exit 2
case $1 in run) names="rules laws text" ;; *) names="rules laws kernel" ;; esac
pause=${PAUSE-0}
proved() {
  printf '%s\n' "fn $1::of: proved" "library core: modules loaded=2 checked=0" "crate $1: modules loaded=0 checked=2" "logic=proved functions=1 sum=0"
}
for name in $names; do
  sleep "$pause" &
  echo "$$ $!" >>"$TRIED/pids"
  wait "$!"
  pause=0
  proved "$name"
done
[ ! -e "$TRIED/edit" ] || { rm "$TRIED/edit" && sleep 0.1 && echo "// edited" >>src/main.rt; }
[ ! -e "$TRIED/fail" ] || { rmdir "$own" && printf '%s\n' "fn $crate::run: no proof" "crate $crate: modules loaded=0 checked=2" logic=not-proved && exit 1; }
mkdir -p out
case $1 in
run) cp "$PROGRAMS/$crate" out/ && proved "$crate" ;;
*) : >"out/lib$crate.a" && proved "$crate" ;;
esac
rmdir "$own"
FAKE
cat >"$room/bin/cargo" <<'FAKE'
#!/usr/bin/env bash
echo "cargo ran: $*"
FAKE
chmod 755 "$room/bin/rt" "$room/bin/cargo"

# A scratch checkout that is not built. Of its crates each program needs four.
anew() {
  local program
  rm -rf "$scratch" "$TRIED" "$TMPDIR"
  mkdir -p "$scratch/crates/rules/src" "$scratch/crates/rules/specs" "$scratch/crates/kernel_c/src" "$scratch/hosts" "$scratch/.ci" "$TRIED" "$TMPDIR"
  for program in "${programs[@]}"; do mkdir -p "$scratch/crates/$program/src"; done
  cp "$room/launcher" "$scratch/speltmallet"
  cp "$top/hosts/x86_64" "$top/hosts/build" "$scratch/hosts/"
  cp -R "$top/hosts/launcher" "$scratch/hosts/"
  cp "$top/VERSION" "$top/KIT" "$scratch/"
  cp "$top/KIT" "$TRIED/kit"
  printf '%s\n' '# crates' 'rules:' 'laws: rules' 'text: rules' "${programs[@]/%/: laws text json}" 'kernel: laws' 'kernel_c staticlib: rules kernel' 'other: rules' >"$scratch/crates.txt"
  cp "$top/crates/rules/src/lib.rt" "$scratch/crates/rules/src/"
  cp "$top/crates/rules/specs/Requests.antt" "$scratch/crates/rules/specs/"
  echo "// a program" >"$scratch/crates/trace/src/main.rt"
  echo 'echo "the gate ran"' >"$scratch/.ci/run"
  cd "$scratch"
}

# PROGRAM..: a scratch checkout in which these are built.
built() {
  local program
  anew
  for program in "$@"; do
    timeout 20 ./speltmallet "$program" "$room/given/$program" >/dev/null 2>&1
  done
  rm -f "$TRIED/builds"
}

# ARGUMENT..: runs the launcher; its status, output and messages are then in $status, $TRIED/out and $TRIED/err.
ran() {
  status=0
  timeout 20 ./speltmallet "$@" >"$TRIED/out" 2>"$TRIED/err" || status=$?
}

# STATUS LINES: the launcher ended so, with so many lines of messages.
ended() {
  [ "$status" -eq "$1" ] || { echo "status $status, and not $1; messages:" && cat "$TRIED/err" && return 1; }
  [ "$(wc -l <"$TRIED/err")" -eq "$2" ] || { echo "messages of other than $2 lines:" && cat "$TRIED/err" && return 1; }
}

# TEXT FILE: FILE has it.
has() {
  grep -qF -- "$1" "$2" || { echo "no '$1' in:" && cat "$2" && return 1; }
}

# PATTERN FILE: a line of FILE is like it.
like() {
  grep -qE -- "$1" "$2" || { echo "nothing like '$1' in:" && cat "$2" && return 1; }
}

# TEXT FILE: FILE does not have it.
lacks() {
  ! grep -qF -- "$1" "$2" || { echo "'$1' in:" && cat "$2" && return 1; }
}

# TEXT FILE: FILE is this line and nothing else.
is() {
  [ "$(cat "$2"; echo .)" = "$1"$'\n.' ] || { echo "not '$1' alone:" && cat "$2" && return 1; }
}

# N: so many builds were begun.
builds() {
  local n=0
  [ ! -e "$TRIED/builds" ] || n=$(wc -l <"$TRIED/builds")
  [ "$n" -eq "$1" ] || { echo "$n builds, and not $1" && return 1; }
}

# COMMAND..: waits until it succeeds, 10 seconds at the most.
until_so() {
  for _ in {1..200}; do
    ! "$@" || return 0
    sleep 0.05
  done
  echo "not so after 10 seconds: $*"
  return 1
}

# COMMAND: runs it on a terminal of its own; what the terminal shows is in $TRIED/shown.
on_terminal() {
  command -v script >/dev/null 2>&1 || { echo "skipped: there is no script on the PATH to make a terminal" && exit 77; }
  timeout 20 script -qec "$1" /dev/null >"$TRIED/shown" 2>&1
}

# PID PROGRAM: a child of the process runs the program.
runs() {
  local child children=()
  # the line has no line feed, so that read fails at its end
  { read -r -a children <"/proc/$1/task/$1/children" || true; } 2>/dev/null
  for child in "${children[@]}"; do
    ! grep -qsaF "target/bin/$2" "/proc/$child/cmdline" || return 0
  done
  return 1
}

# PID..: none of these is at work.
gone() {
  local pid stat
  for pid in "$@"; do
    # one that goes while it is read is gone
    stat=$(cat "/proc/$pid/stat" 2>/dev/null) || continue
    [[ $stat =~ \)\ [ZX] ]] || return 1
  done
}

# shellcheck source=hosts/launcher/tests/build.sh
. "$top/hosts/launcher/tests/build.sh"
# shellcheck source=hosts/launcher/tests/streams.sh
. "$top/hosts/launcher/tests/streams.sh"
# shellcheck source=hosts/launcher/tests/report.sh
. "$top/hosts/launcher/tests/report.sh"
# shellcheck source=hosts/launcher/tests/sheet.sh
. "$top/hosts/launcher/tests/sheet.sh"
# shellcheck source=hosts/launcher/tests/listing.sh
. "$top/hosts/launcher/tests/listing.sh"
# shellcheck source=hosts/launcher/tests/words.sh
. "$top/hosts/launcher/tests/words.sh"

passed=0 skipped=0 failed=0
# TEST [PROGRAM]: runs it and counts how it ended.
counted() {
  local status
  set +e
  (
    set -e
    "$@"
  ) >"$room/said" 2>&1 </dev/null
  status=$?
  set -e
  case $status in
  0) passed=$((passed + 1)) ;;
  77) skipped=$((skipped + 1)) && cat "$room/said" >&2 ;;
  *) failed=$((failed + 1)) && sed "s/^/    /" "$room/said" >&2 && printf 'hosts/launcher: %s FAILED\n' "$*" >&2 ;;
  esac
}

# FILE [PROGRAM]: runs its tests, which are the functions with a name of several words, or ONLY the one that is asked for.
tested() {
  local name
  while read -r name; do
    [ "${ONLY:-$name}" != "$name" ] || counted "$name" "${@:2}"
  done < <(sed -n 's/^\([a-z]*_[a-z_]*\)() .*/\1/p' "$top/hosts/launcher/tests/$1")
}
tested build.sh
for program in "${programs[@]}"; do tested streams.sh "$program"; done
tested report.sh
tested sheet.sh
tested listing.sh
tested words.sh
printf 'hosts/launcher: %d tests passed, %d skipped, %d failed\n' "$passed" "$skipped" "$failed"
[ "$failed" -eq 0 ]
