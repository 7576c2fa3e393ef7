#!/bin/sh
# Builds the examples of this folder with gcc-riscv64-unknown-elf 12.2.0 and binutils 2.40 (Debian 12).
cd "$(dirname "$0")" || exit 1

# Assembles one example.
assemble() {
    riscv64-unknown-elf-as -march=rv32im -mabi=ilp32 -o "$1.o" "$1.s" &&
        riscv64-unknown-elf-ld -m elf32lriscv -n -s -T link.ld -o "$1.elf" "$1.o" && rm "$1.o"
}

riscv64-unknown-elf-gcc -march=rv32im -mabi=ilp32 -nostdlib -static -ffreestanding -fno-builtin -ffunction-sections -O1 \
    -Wl,-n -Wl,-s -Wl,-z,max-page-size=16 -Wl,-T,program.ld -o crash crash.c &&
    assemble breakpoint && assemble loop
