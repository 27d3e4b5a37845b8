#!/usr/bin/env bash
# What the header says of the archive's place, held to the archive: hosts/c/archive.sh LIBDIR, the folder that has libkernel.a.
# The symbols and sections say what it needs and what it can write; the instructions say which registers and which stack it uses.
set -euo pipefail

stop() {
  printf 'hosts/c/archive.sh: %s\n' "$*" >&2
  exit 1
}
[ $# -eq 1 ] || stop "one argument is accepted: the folder that has libkernel.a (target/staticlib after 'hosts/build kernel')"
[ -f "$1/libkernel.a" ] || stop "there is no $1/libkernel.a: run 'hosts/build kernel' at the top of the repository"
archive=$(cd "$1" && pwd)/libkernel.a
cd "$(dirname "${BASH_SOURCE[0]}")"
room=$(mktemp -d)
trap 'rm -rf "$room"' EXIT

# PATTERN: how many instructions match
instructions() { grep -cE -- "$1" "$room/instructions" || true; }

# one symbol for the linker, and none from it
nm "$archive" >"$room/symbols"
[ "$(nm --extern-only --defined-only "$archive" | awk 'NF == 3 { print $3 }')" = speltmallet_door ] ||
  stop "the archive defines other symbols for the linker than speltmallet_door"
missing=$(awk '$1 == "U" || $1 == "w" || $1 == "v"' "$room/symbols")
[ -z "$missing" ] || stop "the archive has undefined symbols: $missing"

# an allocated section that is not read-only is data
objdump -h "$archive" | grep ALLOC >"$room/allocated" || stop "objdump -h shows no section of the archive"
! grep -v READONLY "$room/allocated" >"$room/writable" || stop "the archive has data that can be written: see objdump -h"
objdump -h "$archive" | awk '$2 ~ /^\.(data|bss|tdata|tbss|init_array|ctors)/ && $3 !~ /^0+$/' >"$room/data"
[ ! -s "$room/data" ] || stop "the archive has data: $(cat "$room/data")"

../x86_64 disassemble "$archive" >"$room/listing"
awk -F '\t' 'NF > 1 { print $2 }' "$room/listing" >"$room/instructions"
[ "$(instructions '^ret')" -gt 0 ] || stop "the disassembly has no instruction that returns, so it shows nothing"

# the red zone, and no more below the stack pointer than its 128 bytes
below=$(grep -oE -- '-0x[0-9a-f]+\(%rsp' "$room/instructions" | sed 's/^-\(0x[0-9a-f]*\).*/\1/' | sort -u || true)
[ -n "$below" ] || stop "the header says that the archive uses the red zone, and no instruction does: let the header say so"
for depth in $below; do
  [ $((depth)) -le 128 ] || stop "an instruction reaches $depth below the stack pointer, and the red zone has 0x80"
done
[ "$(instructions '^mov(dqa|aps|apd) .*\(%rsp')" -gt 0 ] ||
  stop "the header says that the stack has to be aligned, and no instruction asks for it: let the header say so"

[ "$(instructions '%xmm')" -gt 0 ] || stop "the header says that the archive uses SSE registers, and no instruction does: let the header say so"
[ "$(instructions '%(ymm|zmm|mm[0-7]|st\b|k[0-7])|^(v[a-z]|f[a-z])|^emms')" = 0 ] || stop "an instruction names a register of x87, MMX or AVX"
# a name that is not in the list may be right all the same: look it up, and add it if it is SSE2's
sse2='movd movq movdqa movdqu movaps movups movapd movss movsd pand pandn por pxor andps andnps andpd orps xorps paddb paddd psubb pmaxub'
sse2+=' pcmpeqb pcmpeqw pcmpeqd pmovmskb pshufd pshufhw pshuflw shufps psrlw psrld psrlq psrad psllw pslld psllq pslldq'
sse2+=' punpcklbw punpcklwd punpckldq punpcklqdq punpckhbw punpckhwd'
strange=$(awk -v known="$sse2" '
  BEGIN { split(known, names, " "); for (at in names) is_known[names[at]] }
  /%xmm/ && !($1 in is_known) { print $1 }
' "$room/instructions" | sort -u | tr '\n' ' ')
[ -z "$strange" ] || stop "the header says SSE2, and these instructions are not known to be of it: $strange"

# the number in the header is the one that docs/BENCH.md has
measured=$(sed -n 's/^| \*\*the most of all\*\* | \*\*\([0-9]*\)\*\* .*/\1/p' ../../docs/BENCH.md)
[ -n "$measured" ] || stop "docs/BENCH.md has no row 'the most of all'"
grep -q "^ \* - $measured bytes of stack below" ../../include/speltmallet.h ||
  stop "docs/BENCH.md says $measured bytes of stack, and include/speltmallet.h says otherwise"

printf 'hosts/c: the archive is as the header says: %s instructions read, %s use the red zone, %s name an SSE register\n' \
  "$(wc -l <"$room/instructions")" "$(instructions '-0x[0-9a-f]+\(%rsp')" "$(instructions '%xmm')"
