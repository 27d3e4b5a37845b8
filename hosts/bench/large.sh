#!/usr/bin/env bash
# What the same code takes of stack at the size of the four-lane board: hosts/bench/large.sh [CRATES], the folder of the crates; without it the
# repository's own. Nothing is proved by this. A copy of the sources gets that board's 32 threads and 16 semaphores in the place of 16 and 8, and another
# copy admits the length of its table beside the first; each is compiled at -O3 without proof, by what `rt try` calls, and the bench reads the frames of the
# object file; so it does with the sources as they are, for comparison. Ends with status 1 where the door of the four-lane board alone takes above 320 bytes,
# where no bound can be read, or where the sources lack a line that a copy changes. The bench needs the archive (hosts/build kernel).
set -euo pipefail

stop() {
  printf 'hosts/bench/large.sh: %s\n' "$*" >&2
  exit 1
}
most=320
# the four-lane board, and the length of its table: its records and the kernel's, of 24 bytes each
threads=32
semaphores=16
length=$(((threads + semaphores + 1) * 24))
[ $# -le 1 ] || stop "one argument is accepted: the folder of the crates, if they are not those of the repository"
top=$(cd "$(dirname "${BASH_SOURCE[0]}")/../.." && pwd)
crates=$(cd "${1:-$top/crates}" 2>/dev/null && pwd) || stop "there is no folder ${1:-$top/crates}"
numbers=rules/src/numbers.rt
boards=boards/src/lib.rt
for file in "$numbers" "$boards"; do
  [ -f "$crates/$file" ] || stop "there is no $crates/$file: the argument is the folder that has a folder for each crate"
done
archive=${SPELTMALLET_LIB:-$top/target/staticlib}/libkernel.a
[ -f "$archive" ] || stop "there is no $archive: run 'hosts/build kernel' at the top of the repository"
guide=$(rt doc) || stop "there is no rt on the PATH: the Rattle kit has the compiler"
kit=$(dirname "$guide")
own=$kit/on/$(uname -m)
[ -x "$own/bin/rattle-cases" ] ||
  stop "the kit at $kit has no rattle-cases for this machine, $(uname -m), and no other command that compiles at -O3 without proof: rattle-kit-5b had it"
room=$(mktemp -d)
trap 'rm -rf "$room"' EXIT

# the kit's toolchain, but its clang keeps the object file of each build at -O3
mkdir -p "$room/toolchain/bin"
ln -s "$own/toolchain/lib" "$room/toolchain/lib"
for tool in "$own"/toolchain/bin/*; do
  [ "$(basename "$tool")" = clang ] || ln -s "$tool" "$room/toolchain/bin/"
done
cat >"$room/toolchain/bin/clang" <<END
#!/usr/bin/env bash
"$own/toolchain/bin/clang" "\$@" || exit
case " \$* " in *' -O3 '*) cp module.o "$room/kept.o" ;; esac
END
chmod +x "$room/toolchain/bin/clang"

# the crates that the kernel depends on and the kernel, as crates.txt has them
mapfile -t needed < <(awk '
  function need(crate,    i, n, of) {
    if (crate in seen || !(crate in deps)) return
    seen[crate]
    n = split(deps[crate], of, " ")
    for (i = 1; i <= n; i++) need(of[i])
    print crate
  }
  { sub(/#.*/, "") }
  split($0, part, ":") == 2 { deps[part[1]] = part[2] }
  END { need("kernel") }
' "$top/crates.txt")
[ ${#needed[@]} -gt 1 ] || stop "crates.txt has no crate kernel that depends on others"

# two calls, so that the door stays a function of its own; their tables differ in length, so that LLVM knows none
mkdir -p "$room/program/src"
cat >"$room/program/src/main.rt" <<END
fn main() {
    let mut table = [0u8; rules::TABLE];
    let mut long_table = [0u8; $length];
    let request = [0u8; rules::REQUEST];
    let mut answer = [0u8; rules::AREA];
    kernel::speltmallet_door(&mut table, &request, &mut answer);
    kernel::speltmallet_door(&mut long_table, &request, &mut answer);
}
END

# COPY: the sources as they are
copy() {
  local crate
  for crate in "${needed[@]}"; do
    mkdir -p "$room/$1/$crate"
    cp -R "$crates/$crate/src" "$room/$1/$crate/" || stop "there is no $crates/$crate/src"
  done
}

# COPY FILE WAS IS: a line of a copy, which has to stand there exactly once, becomes another
set_line() {
  local file=$room/$1/$2 times
  times=$(grep -cxF -e "$3" "$file") || true
  [ "$times" = 1 ] || stop "$2 has the line '$3' $times times; this script puts another in its place where it stands exactly once"
  was=$3 is=$4 awk '{ print $0 == ENVIRON["was"] ? ENVIRON["is"] : $0 }' "$file" >"$room/changed"
  mv "$room/changed" "$file"
}

# COPY: compiles a copy and keeps its object file under the copy's name
compile() {
  local crate words=(--toolchain "$room/toolchain" "$room/program/src/main.rt" --crate-name program --lib "std=$kit/libs/std/src/lib.rt")
  for crate in "${needed[@]}"; do words+=(--lib "$crate=$room/$1/$crate/src/lib.rt"); done
  (cd "$room" && "$own/bin/rattle-cases" "${words[@]}") >"$room/said" 2>&1 || stop "the $1 kernel does not compile: $(head -n 5 "$room/said")"
  [ -f "$room/kept.o" ] || stop "rattle-cases made no build at -O3 of the $1 kernel"
  mv "$room/kept.o" "$room/$1.o"
}

# FILE: the bytes of the bound that the bench reads from an object file or archive
bytes_of() {
  CARGO_TARGET_DIR=${CARGO_TARGET_DIR:-$top/target/hosts} cargo run --release --offline --quiet --manifest-path "$top/hosts/Cargo.toml" -p bench -- \
    --frames "$1" >"$room/table" || stop "no bound can be read from $1: see above"
  sed -n 's/^| \*\*together\*\* | \*\*\([0-9]*\)\*\* .*/\1/p' "$room/table"
}

copy two-lane
copy four-lane
set_line four-lane "$numbers" 'pub const THREADS: usize = 16;' "pub const THREADS: usize = $threads;"
set_line four-lane "$numbers" 'const SEMAPHORES: usize = 8;' "const SEMAPHORES: usize = $semaphores;"
copy both-lengths
set_line both-lengths "$numbers" 'pub const MOST_THREADS: usize = THREADS;' "pub const MOST_THREADS: usize = $threads;"
set_line both-lengths "$boards" '    t.len() == TABLE' "    t.len() == TABLE || t.len() == $length"
set_line both-lengths "$boards" '    THREADS' "    if t.len() == TABLE { THREADS } else { $threads }"
for name in two-lane four-lane both-lengths; do compile "$name"; done

proved=$(bytes_of "$archive")
small=$(bytes_of "$room/two-lane.o")
large=$(bytes_of "$room/four-lane.o")
both=$(bytes_of "$room/both-lengths.o")
verdict=OK
[ "$large" -le "$most" ] || verdict=OVER
printf 'The door'\''s stack by its instructions; nothing is proved of what is compiled here:\n'
printf 'the archive, 16 threads and 8 semaphores: %d bytes\n' "$proved"
printf 'compiled here, 16 threads and 8 semaphores: %d bytes\n' "$small"
printf 'compiled here, %d threads and %d semaphores: %d bytes; at most %d: %s\n' "$threads" "$semaphores" "$large" "$most" "$verdict"
printf 'compiled here, either by the length of the table: %d bytes\n' "$both"
[ "$verdict" = OK ]
