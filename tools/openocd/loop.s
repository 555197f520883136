# The program of the chip's image: each turn of the loop adds one to t0, stores it, loads it back, and adds it to t3.
# It stands at the start of RAM. Its words, from the instruction formats of the RISC-V unprivileged manual:
#
#   0x80000000  0x00500293   addi  t0, zero, 5
#   0x80000004  0x00128293   addi  t0, t0, 1
#   0x80000008  0x00000317   auipc t1, 0
#   0x8000000c  0x06533c23   sd    t0, 120(t1)      120 + 0x80000008 = 0x80000080
#   0x80000010  0x07833383   ld    t2, 120(t1)
#   0x80000014  0x007e0e33   add   t3, t3, t2
#   0x80000018  0xfedff06f   j     0x80000004
        .option norvc
        .globl  _start
_start:
        addi    t0, zero, 5
loop:
        addi    t0, t0, 1
        auipc   t1, 0
        sd      t0, 120(t1)
        ld      t2, 120(t1)
        add     t3, t3, t2
        j       loop
