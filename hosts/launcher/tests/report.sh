#!/usr/bin/env bash
# The lane report: what it says of left-over bytes, and of what write gives.
# hosts/launcher/check.sh has what these tests use.
# shellcheck disable=SC2154

left_over_bytes_are_passed_over() {
  built report
  { cat "$example" && printf 'eleven more'; } >"$TRIED/longer"
  ran report "$TRIED/longer"
  ended 0 0
  cmp "$room/right/report" "$TRIED/out"
}

a_listing_is_written_and_reported() {
  built write report
  ./speltmallet write "$top/examples/rounds.listing" | ./speltmallet report >"$TRIED/out"
  printf '0 0 0\n1 6 0\n2 6 0\n3 0 0\n' | diff - "$TRIED/out"
}
