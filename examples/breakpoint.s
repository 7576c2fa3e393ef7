# Loads a constant and stops at a breakpoint. It never looks at its input.
    .globl _start
_start:
    lui x5, 0x12345
    addi x5, x5, 0x678
    ebreak
