# What OpenOCD sees of the program of ping.s on two harts, which start halted at its first word: each is stopped in its handler and stepped through it.
# HANDLER and WAIT are the addresses of these labels. The values are worked out by hand from the program.

proc word {address} { return [read_memory $address 32 1] }

# The chip gets on only while TCK rises: each read is 46 rises or more.
proc let_run {} {
    for {set number 0} {$number < 200} {incr number} { riscv dmi_read 0x11 }
}

# The hart is stepped with dcsr.stepie set: OpenOCD 0.12 leaves it as it is, and without it a step takes no interrupt.
proc step_with_interrupts {} {
    set_reg [list dcsr [format 0x%x [expr {[regs dcsr] | (1 << 11)}]]]
    step
}

proc drive_ping {handler wait} {
    set loop "$wait [format 0x%x [expr {$wait + 4}]]"

    # Hart 1 runs into its loop, and hart 0 sends it the first interrupt. It stops before the handler's first word.
    targets chip.cpu1
    bp $handler 4 hw
    resume
    targets chip.cpu0
    resume
    targets chip.cpu1
    wait_halt 5000
    targets chip.cpu0
    halt
    wait_halt 5000
    targets chip.cpu1
    check "an interrupt enters the handler" "$handler 0x8000000000000003 0x0" "regs pc mcause s3"
    check "from within the loop" 1 "expr {\[lsearch {$loop} \[regs mepc\]\] >= 0}"
    # MIE is 0 within the handler, MPIE 1, and MPP 3.
    check "with interrupts off" 0x1880 {regs mstatus}
    check "which still pends" "0x8 0x1" {list [regs mip] [word 0x2000004]}
    check "until the handler clears it" "0x0 0x0" {step; list [regs mip] [word 0x2000004]}
    check "it is counted" 0x1 {step; regs s3}
    check "hart 0 is sent one" "0x1 0x0" {step; step; list [word 0x2000000] [word 0x2000004]}
    check "the handler returns" 1 "step; expr {\[lsearch {$loop} \[regs pc\]\] >= 0}"
    check "with interrupts on" 0x1888 {regs mstatus}
    rbp $handler
    take_free_slots

    # Hart 0 has taken none: one pends there. A step without stepie goes on in the loop, and one with it enters the handler.
    targets chip.cpu0
    check "one pends at hart 0" "0x8 0x0" {regs mip s3}
    check "a step without stepie stays in the loop" 1 "step; expr {\[lsearch {$loop} \[regs pc\]\] >= 0}"
    check "a step with it enters the handler" "$handler 0x8000000000000003" {step_with_interrupts; regs pc mcause}
    check "hart 0 is stepped through its handler" "0x1 0x0 0x1" {step; step; step; step; list [regs s3] [word 0x2000000] [word 0x2000004]}
    check "and back" 1 "step; expr {\[lsearch {$loop} \[regs pc\]\] >= 0}"
    targets chip.cpu1
    check "hart 1 takes it in its next step" "$handler 0x1" {step_with_interrupts; regs pc s3}

    # Both run: each has taken more than before, and neither is more than one ahead of the other.
    resume
    targets chip.cpu0
    resume
    let_run
    halt
    wait_halt 5000
    set first [regs s3]
    targets chip.cpu1
    halt
    wait_halt 5000
    set second [regs s3]
    check "both take turns" 1 "expr {$first > 3 && $second > 3}"
}

init
foreach hart {0 1} { targets chip.cpu$hart; halt; wait_halt 5000; take_free_slots }
drive_ping $HANDLER $WAIT
echo "driven with $failures failures"
shutdown
