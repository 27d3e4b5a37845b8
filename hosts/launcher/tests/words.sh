#!/usr/bin/env bash
# The words that no file goes through, and the help of all. hosts/launcher/check.sh has what these tests use.
# shellcheck disable=SC2154

every=(trace report sheet write list test bench install) # and help

# also by the messages that name what is accepted
every_word_is_explained() {
  anew
  printf '%s\n' "${every[@]}" help | sort | diff - <(cd hosts/launcher/help && printf '%s\n' *)
  for word in "${every[@]}"; do
    for asked in "help $word" "$word --help" "$word -h"; do
      # shellcheck disable=SC2086
      ran $asked
      ended 0 0
      has "./speltmallet $word" "$TRIED/out"
      for part in reads prints status; do has "$part  " "$TRIED/out"; done
    done
  done
  ran help
  ended 0 0
  for word in "${every[@]}" help; do like "^  \./speltmallet $word( \[[^]]+\])?  +[a-z]" "$TRIED/out"; done
  for asked in "help nothing" nothing; do
    # shellcheck disable=SC2086
    ran $asked
    ended 1 1
    has "accepted are" "$TRIED/err"
    for word in "${every[@]}" help; do like "[ ,]$word(,| and|$)" "$TRIED/err"; done
    [ ! -s "$TRIED/out" ]
  done
  builds 0
}

version_names_project_and_kit() {
  anew
  ran --version
  ended 0 0
  [ "$(cat "$TRIED/out")" = "speltmallet $(cat "$top/VERSION")"$'\n'"$(cat "$top/KIT")" ] || { cat "$TRIED/out" && return 1; }
}

test_and_bench_refuse_other_words() {
  anew
  ran test --fast
  ended 1 1
  ran bench --fast
  ended 1 1
  has "--stack or --strict" "$TRIED/err"
  ran bench --stack --strict
  ended 1 1
  builds 0
  ran test
  [ "$(cat "$TRIED/out")" = "the gate ran" ]
  for words in "" --stack --strict; do
    # shellcheck disable=SC2086
    ran bench $words
    [ "$status" -eq 0 ]
    has "-p bench --${words:+ $words}" "$TRIED/out"
  done
  builds 1
}

a_missing_cargo_is_said() {
  anew
  mkdir "$TRIED/bin"
  for tool in bash env dirname readlink cat; do ln -s "$(command -v "$tool")" "$TRIED/bin/$tool"; done
  ln -s "$room/bin/rt" "$TRIED/bin/rt"
  status=0
  PATH=$TRIED/bin ./speltmallet bench >"$TRIED/out" 2>"$TRIED/err" || status=$?
  ended 1 1
  has "there is no cargo on the PATH" "$TRIED/err"
}

install_builds_and_installs() {
  anew
  ran install
  ended 1 1
  builds 0
  mkdir hosts/install
  cat >hosts/install/install.sh <<'FAKE'
#!/bin/sh
echo "installed into <$1>"
FAKE
  chmod 755 hosts/install/install.sh
  ran install
  has "4 of 4 crates proved, the last is kernel_c" "$TRIED/err"
  [ "$(cat "$TRIED/out")" = "installed into </usr/local>" ] || { cat "$TRIED/out" "$TRIED/err" && return 1; }
  ran install "some where"
  [ "$(cat "$TRIED/out")" = "installed into <some where>" ]
  ran install --fast
  ended 1 1
  [ "$(cat "$TRIED/builds")" = "lib of kernel_c" ]
}
