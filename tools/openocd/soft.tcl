# OpenOCD's own software breakpoints at the program of loop.s, whose hart starts halted at its first word. BREAKS are their addresses and STOPS how often the
# hart is to stop, both as in soft.script. Memory behind them comes to the file DUMP. The values are worked out by hand from the program, beside each check.

gdb_port disabled
telnet_port disabled
tcl_port disabled

# The next stop. OpenOCD 0.12 runs the ebreak at which the hart stands once more, also by its step, so that breakpoint is out for one step, as GDB has it.
proc go_on {number} {
    if {$number > 0} {
        set here [regs pc]
        rbp $here
        step
        bp $here 4
    }
    go
    echo "stop [regs pc]"
    return [regs pc]
}

init
halt
wait_halt 5000
foreach address $BREAKS { bp $address 4 }
check "each breakpoint is an ebreak" [lrepeat [llength $BREAKS] 0x100073] {
    set words {}
    foreach address $BREAKS { lappend words [read_memory $address 32 1] }
    set words
}
# The loop is from 0x80000004 to 0x80000018, and has no branch.
check "stops at each in turn" "0x80000004 0x80000008 0x80000014 0x80000004 0x80000008 0x80000014 0x80000004" {
    set stops {}
    for {set number 0} {$number < $STOPS} {incr number} { lappend stops [go_on $number] }
    set stops
}
# dcsr.cause, bits 8 to 6, is 1 for an ebreak. Two turns of the loop are done: t0 = 5 + 2, which was stored, and t3 = 6 + 7.
check "cause of the last stop" 1 {expr {([regs dcsr] >> 6) & 7}}
check "the program went on as without them" "0x7 0xd 0x7" {list {*}[regs t0 t3] {*}[read_memory 0x80000080 64 1]}
check "the words are taken back" "0x128293 0x317 0x7e0e33" {
    rbp all
    set words {}
    foreach address $BREAKS { lappend words [read_memory $address 32 1] }
    set words
}
dump_image $DUMP 0x80000000 2048
echo "driven with $failures failures"
shutdown
