# Where a hart begins: hart 0 gets a stack at the end of RAM and calls `main`; the others wait for ever.
        .section .text.start, "ax"
        .globl  _start
_start: csrr    t0, mhartid
        bnez    t0, done
        la      sp, stack_end
        call    main
        .globl  done
done:   j       done
