#!/usr/bin/env bash
# Listings: what write and list refuse, that each takes what the other prints, and the operations that `help write` has.
# hosts/launcher/check.sh has what these tests use.
# shellcheck disable=SC2154

# Two records: 19 Tick, and 1 Create of thread 5 with priority 7 and turn 10.
two_records='\023\0\0\0\0\0\0\0\0\0\0\0\001\005\007\0\012\0\0\0\0\0\0\0'

# WORD MESSAGE BYTES: of standard input it refuses a part by this message alone, with what came before it out.
refused() {
  ran "$1"
  ended 1 1
  is "$2" "$TRIED/err"
  printf '%b' "$3" | cmp - "$TRIED/out"
}

a_bad_line_stops_the_writer() {
  built write
  printf '19\n1 5 7 10\n' >"$TRIED/listing"
  ran write "$TRIED/listing"
  ended 0 0
  printf '%b' "$two_records" | cmp - "$TRIED/out"
  printf '19\n1 5 7 10\n1 5 7\n19\n' | refused write "bad line 2" "$two_records"
  printf '19\n1 5 7 10\n19' | refused write "bad line 2" "$two_records"
  printf '\n19\n' | refused write "bad line 0" ""
  printf '19\n1 5 7 10\n3 5 7 10\n19\n' | refused write "bad line 2" "$two_records"
  printf '19\n1 5 7 10\n24 5 7 10\n19\n' | refused write "bad line 2" "$two_records"
}

a_bad_record_stops_the_lister() {
  built list
  printf '%b' "$two_records" >"$TRIED/records"
  ran list "$TRIED/records"
  ended 0 0
  printf '19\n1 5 7 10\n' | cmp - "$TRIED/out"
  printf '%b' "$two_records"'\0377\0\0\0\0\0\0\0\0\0\0\0'"$two_records" | refused list "bad record 2" '19\n1 5 7 10\n'
  printf '%b' "$two_records"'\003\005\007\0\012\0\0\0\0\0\0\0' | refused list "bad record 2" '19\n1 5 7 10\n'
  printf '%b' "$two_records"'\023\0\0\0\0' | refused list "bad record 2" '19\n1 5 7 10\n'
  printf '\023' | refused list "bad record 0" ""
}

list_and_write_go_round_and_are_built_in_turn() {
  anew
  ./speltmallet list "$example" 2>"$TRIED/err" | ./speltmallet write 2>>"$TRIED/err" | cmp - "$example"
  builds 2
  ./speltmallet write "$room/given/write" | ./speltmallet list | cmp - "$room/given/write"
  ./speltmallet write "$room/given/write" | ./speltmallet trace 2>>"$TRIED/err" | cmp - "$room/right/trace"
}

records_are_not_written_to_a_terminal() {
  anew
  local status=0
  on_terminal "./speltmallet write '$room/given/write'" || status=$?
  [ "$status" -ne 77 ] || exit 77
  [ "$status" -eq 1 ] || { echo "status $status" && cat "$TRIED/shown" && return 1; }
  has "standard output is a terminal" "$TRIED/shown"
  [ "$(wc -l <"$TRIED/shown")" -eq 1 ]
  builds 0
}

# The operations of `help write`, without the words around them.
operations() {
  ./speltmallet help write | sed '1,/^The operations/d; /^$/d'
}

every_operation_of_the_header_is_in_the_help() {
  anew
  sed -n 's/^#define SPELTMALLET_OP_\([A-Z_]*\) \([0-9]*\)$/\2 \1/p' "$top/include/speltmallet.h" | tr A-Z_ 'a-z ' >"$TRIED/right"
  [ -s "$TRIED/right" ]
  operations | awk '{ line = $1; for (i = 2; i <= NF; i++) if ($i !~ /^[A-Z]+$/) line = line " " tolower($i); print line }' | diff "$TRIED/right" -
}

every_operation_of_the_help_is_written() {
  built write list
  operations | awk '{ line = $1; for (i = 2; $i ~ /^[A-Z]+$/; i++) line = line " " i + 40; print line }' >"$TRIED/listing"
  ran write "$TRIED/listing"
  ended 0 0
  [ "$(stat -c %s "$TRIED/out")" -eq $((12 * $(wc -l <"$TRIED/listing"))) ]
  ./speltmallet list "$TRIED/out" | cmp - "$TRIED/listing"
}

fields_have_the_names_of_the_rules() {
  anew
  operations >"$TRIED/operations"
  has "  1 THREAD PRIORITY TURN   Create" "$TRIED/operations"
  has "  9 THREAD PARCEL          Send from interrupt" "$TRIED/operations"
  has " 13 SEMAPHORE NUMBER       Pend" "$TRIED/operations"
  has " 21 NUMBER                 Ticks" "$TRIED/operations"
  has " 22                        Nearest" "$TRIED/operations"
  has " 23 THREAD PRIORITY        Set priority" "$TRIED/operations"
  has " 24 THREAD TURN            Set turn" "$TRIED/operations"
}

# 3 is gone, and the others keep their numbers
an_operation_that_is_gone_is_not_in_the_help() {
  anew
  operations | awk '{ print $1 }' | diff <(seq 0 24 | sed '/^3$/d') -
}

# FILE SCRIPT: edits a file of the scratch checkout's rules by sed.
edited() {
  cp "crates/rules/$1" "$TRIED/before"
  LC_ALL=C sed "$2" "$TRIED/before" >"crates/rules/$1"
  ! cmp -s "$TRIED/before" "crates/rules/$1" || { echo "nothing of $1 is edited by $2" && return 1; }
}

operations_come_and_go_with_the_rules() {
  anew
  local last
  operations >"$TRIED/before_it"
  last=$(tail -n 1 "$TRIED/before_it" | awk '{ print $1 }')
  edited src/lib.rt '/^pub enum Request/,/^}/s/^}/    WaitForALane { semaphore: u8, number: u32 }, \/\/ for: a lane\n}/'
  edited specs/Requests.antt '/^operations =/,/\[\]/s/^.*\[\]/    -- one more\n    ∷ uses ✓ ✗ ✓ ✗ (λ o p n d. Ask.WaitForALane o n)\n&/'
  operations >"$TRIED/after_it"
  printf '  %3d SEMAPHORE NUMBER       Wait for a lane\n' $((last + 1)) | cat "$TRIED/before_it" - | diff - "$TRIED/after_it"
  # Lock goes, and its number stays free
  edited src/lib.rt '/^    Lock,/d'
  edited specs/Requests.antt 's/uses .*Ask\.Lock)/gone/'
  operations | diff <(sed '/ Lock$/d' "$TRIED/after_it") -
}

# FILE SCRIPT: so edited, the rules have no operations that can be explained.
unfit() {
  anew
  edited "$1" "$2"
  ran help write
  ended 1 1
  has "the checkout is not whole" "$TRIED/err"
  [ ! -s "$TRIED/out" ]
}

rules_that_do_not_fit_together_are_refused() {
  unfit src/lib.rt '/^pub enum Request/s/$/\n    Nothing,/'
  unfit src/lib.rt '/^    Lock,/d'
  unfit src/lib.rt '/^    Create {/s/$/ more: u8,/'
  unfit src/lib.rt '/^pub enum Request/d'
  unfit specs/Requests.antt '/Ask\.Lock/d'
  unfit specs/Requests.antt 's/Ask\.Lock/Ask.Nothing/'
  unfit specs/Requests.antt 's/Ask\.Lock/Ask.Unlock/'
  unfit specs/Requests.antt '/Ask\.Create/s/✓/✗/'
  unfit specs/Requests.antt '/Ask\.Lock/s/✗/✓/'
  unfit specs/Requests.antt '/^operations =/d'
  edited src/lib.rt '/^pub enum Request/d'
  ran write --help
  ended 1 1
  has "the checkout is not whole" "$TRIED/err"
  rm crates/rules/specs/Requests.antt
  ran write -h
  ended 1 1
  has "the checkout is not whole" "$TRIED/err"
  ran help list
  ended 0 0
}
