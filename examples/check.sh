#!/bin/sh
# Rebuilds the examples in a folder of its own, compares each program byte for byte with the one that stands here, and tries the
# kit. Without Debian 12's compiler and C library nothing is compared, without qemu-riscv32 and gdb-multiarch no backtrace.
here=$(CDPATH='' cd -- "$(dirname -- "$0")" && pwd) || exit 1
top=$(dirname -- "$here")
version=$(riscv64-unknown-elf-gcc -dumpfullversion 2>/dev/null)
libc=${PICOLIBC:-/usr/lib/picolibc/riscv64-unknown-elf}
room=$(mktemp -d) || exit 1
trap 'rm -rf "$room"' EXIT
status=0
fail() { echo "examples: $1" >&2; status=1; }

# The picture of each committed report ends with the report's own count of bits; of its input, whole or not.
for report in "$here"/*/*.report; do
    bits=$(sed -n 's/^revealed //p' "$report")
    "$top/told" "$report" | tail -n 1 | grep -q "At most $bits bits of the input are told" || fail "told $report"
done
printf 'crash-report 1\nprogram 1 0\ntrap\nsteps 1\nseed 0\ninput 2\ndata 4142\nset 0 1 -\nrevealed 8 of 16\nend\n' >"$room/report"
printf AB >"$room/input"
"$top/told" "$room/report" "$room/input" | grep -q '^THE REPORT HOLDS YOUR WHOLE INPUT' || fail 'told: a whole input is not told'
printf AC >"$room/input"
"$top/told" "$room/report" "$room/input" | grep -q '^1 of 2 bytes of the data' || fail 'told: bytes of the input are miscounted'
head -n 9 "$room/report" | "$top/told" /dev/stdin 2>/dev/null && fail 'told: a cut report is shown'

# The kit's tests of characters are those of the host's C library.
if command -v cc >/dev/null; then
    cp "$top/kit/include/ctype.h" "$room/kit_ctype.h"
    for name in isdigit islower isupper isalpha isalnum isxdigit isblank isspace iscntrl isgraph isprint ispunct; do
        printf '#include <ctype.h>\nint host_%s(int c) { return %s(c) != 0; }\n' $name $name >"$room/host_$name.c"
        printf '#include "kit_ctype.h"\nint host_%s(int);\nint main(void) { for (int c = -1; c < 256; c++) if ((%s(c) != 0) != host_%s(c)) return 1; return 0; }\n' \
            $name $name $name >"$room/test.c"
        cc -o "$room/test" "$room/test.c" "$room/host_$name.c" && "$room/test" || fail "kit/include/ctype.h: $name"
    done
    for name in tolower toupper; do
        printf '#include <ctype.h>\nint host_%s(int c) { return %s(c); }\n' $name $name >"$room/host_$name.c"
        printf '#include "kit_ctype.h"\nint host_%s(int);\nint main(void) { for (int c = 0; c < 256; c++) if (%s(c) != host_%s(c)) return 1; return 0; }\n' \
            $name $name $name >"$room/test.c"
        cc -o "$room/test" "$room/test.c" "$room/host_$name.c" && "$room/test" || fail "kit/include/ctype.h: $name"
    done
fi

if [ "$version" != 12.2.0 ] || [ ! -d "$libc/lib/rv32im/ilp32" ]; then
    echo 'examples: not rebuilt, since riscv64-unknown-elf-gcc 12.2.0 or picolibc is missing' >&2
    exit $status
fi
cp -R "$here/." "$room" && cd "$room" || exit 1
kit_programs='letter config packet card'
rm crash breakpoint.elf loop.elf order/order groups/groups
for name in $kit_programs; do rm "$name/$name"; done
./build.sh && order/build.sh && groups/build.sh || status=1
for name in $kit_programs; do
    # (the library's printf has one jump by a table)
    "$top/kit/cc" "$name/$name" "$name/$name.c" 2>warnings || status=1
    grep -v __d_vfprintf warnings && fail "$name: warned of"
done
for program in crash breakpoint.elf loop.elf order/order groups/groups letter/letter config/config packet/packet card/card; do
    cmp "$here/$program" "$program" || status=1
done
# What tells much is warned of.
printf '#include "%s/include/ctype.h"\nint main(void) { return isspace(getchar()); }\n' "$libc" | sed '1i #include <stdio.h>' >table.c
CFLAGS=-fjump-tables "$top/kit/cc" table table.c 2>warnings
grep -q _ctype_ warnings || fail 'kit/cc: a table of characters is not warned of'
# shellcheck disable=SC2016
printf 'int a, b; void f(int); int main(void) { switch (a) { %s } return b; }\nvoid f(int c) { b += c; }\n' \
    "$(for i in 0 1 2 3 4 5 6 7 8 9; do printf 'case %s: f(%s); break; ' $i $((i * i % 7)); done)" >jumps.c
CFLAGS='-fjump-tables -fno-tree-switch-conversion' "$top/kit/cc" jumps jumps.c 2>warnings
grep -q 'by a table.*main' warnings || fail 'kit/cc: jumps by a table are not warned of'
# errno and strtok's place, which a C library has for each thread, are apart from the data.
cat >thread.c <<'EOF'
#include <errno.h>
#include <stdlib.h>
#include <string.h>
#include <unistd.h>
static char kept[16] = "kept";
int main(void) {
    char text[] = "a,b", c;
    if (read(7, &c, 1) != -1 || errno != EBADF || strcmp(strtok(text, ","), "a") || strcmp(strtok(0, ","), "b")) return 1;
    if (strcmp(kept, "kept")) return 2;
    abort();
}
EOF
"$top/kit/cc" thread thread.c || status=1
if command -v qemu-riscv32 >/dev/null; then
    qemu-riscv32 ./thread
    [ $? -eq 134 ] || fail 'kit: errno or strtok'
fi
if command -v qemu-riscv32 >/dev/null && command -v gdb-multiarch >/dev/null; then
    for name in $kit_programs; do
        "$top/kit/backtrace" "$name/$name" "$name/$name.report" >calls 2>&1
        grep -q "^#.*main .*$name.c:" calls || { cat calls; fail "kit/backtrace: $name"; }
    done
fi
exit $status
