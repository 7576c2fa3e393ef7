# A loop without an end: a load, a store and an addition in each turn.
    .globl _start
_start:
    addi x6, x2, 0
again:
    lw x5, 0(x6)
    addi x5, x5, 1
    sw x5, 0(x6)
    bne x5, x0, again
    ebreak
