# Adds up the squares of 1 to 5: 1 + 4 + 9 + 16 + 25 = 55.
        .option norvc
        .option norelax
        .text
        .globl  _start
_start:
        la      s0, numbers
        li      s1, 0
        li      s2, 0
next:
        slli    t0, s1, 3
        add     t0, t0, s0
        ld      a0, 0(t0)
        call    square
        add     s2, s2, a0
        addi    s1, s1, 1
        li      t1, 5
        bne     s1, t1, next
        la      t2, total
        sd      s2, 0(t2)
done:
        j       done

        .globl  square
square:
        mul     a0, a0, a0
        ret

        .data
        .balign 8
        .globl  numbers
numbers:
        .dword  1, 2, 3, 4, 5
        .globl  total
total:
        .dword  0
