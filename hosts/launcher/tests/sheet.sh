#!/usr/bin/env bash
# The sheet: what is refused before anything is built, and what is handed on to hosts/sheet, which a fake cargo stands for.
# hosts/launcher/check.sh has what these tests use.
# shellcheck disable=SC2154

both_programs_are_built_and_all_words_are_handed_on() {
  anew
  ran sheet --names "1=left lane,2=right lane" "$example" "a page.html"
  [ "$status" -eq 0 ] || { cat "$TRIED/err" && return 1; }
  printf 'run of trace\nrun of report\n' | diff - "$TRIED/builds"
  has "-p sheet -- --names 1=left lane,2=right lane $example a page.html" "$TRIED/out"
  ran sheet - <"$example"
  ended 0 0
  like "-p sheet -- -$" "$TRIED/out"
  ran sheet <"$example"
  ended 0 0
  like "-p sheet --$" "$TRIED/out"
  builds 2
}

what_is_no_recording_is_refused_before_a_build() {
  anew
  ran sheet "no such file"
  ended 1 1
  has "there is no file 'no such file'" "$TRIED/err"
  ran sheet hosts
  ended 1 1
  has "'hosts' is a folder, and sheet reads" "$TRIED/err"
  ran sheet "$example" one two
  ended 1 1
  has "one FILE and one OUT.html at the most, and not 3" "$TRIED/err"
  ran sheet --names
  ended 1 1
  has "--names takes names" "$TRIED/err"
  ran sheet --colour "$example"
  ended 1 1
  has "and not '--colour'" "$TRIED/err"
  ran sheet <&-
  ended 1 1
  has "standard input is closed" "$TRIED/err"
  [ ! -s "$TRIED/out" ]
  builds 0
}

a_page_is_not_printed_to_a_terminal() {
  anew
  local status=0
  on_terminal "./speltmallet sheet '$example'" || status=$?
  [ "$status" -ne 77 ] || exit 77
  [ "$status" -eq 1 ] || { echo "status $status" && cat "$TRIED/shown" && return 1; }
  has "standard output is a terminal" "$TRIED/shown"
  builds 0
}
