#!/bin/sh
# Builds order with gcc-riscv64-unknown-elf 12.2.0, binutils 2.40 and picolibc 1.8 (Debian 12).
cd "$(dirname "$0")" || exit 1
libc=${PICOLIBC:-/usr/lib/picolibc/riscv64-unknown-elf}
exec riscv64-unknown-elf-gcc -march=rv32im -mabi=ilp32 -static -nostdlib -isystem $libc/include -O1 \
    -Wl,--no-relax -Wl,-n -Wl,-S -Wl,-z,max-page-size=16 -Wl,-T,program.ld -o order order.c -L$libc/lib/rv32im/ilp32 -lc -lgcc
