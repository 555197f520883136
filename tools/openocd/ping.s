# Two harts that send each other machine software interrupts. Each counts in s3 those that it took, and in s4 the turns of its loop.
# A hart's MSIP word is at 0x2000000 and 4 times its number: s1 is its own, s2 the other's.
        .option norvc
        .globl  _start, wait, handler
_start:
        csrr    t0, mhartid
        slli    t1, t0, 2
        lui     s0, 0x2000
        add     s1, s0, t1
        xori    t2, t1, 4
        add     s2, s0, t2
        la      t3, handler
        csrw    mtvec, t3
        csrwi   mie, 8
        li      s3, 0
        li      s4, 0
        csrsi   mstatus, 8
        bnez    t0, wait
        li      t4, 1
        sw      t4, 0(s2)               # hart 0 begins
wait:
        addi    s4, s4, 1
        j       wait
        .balign 4
handler:
        sw      zero, 0(s1)
        addi    s3, s3, 1
        li      t4, 1
        sw      t4, 0(s2)
        mret
