# What OpenOCD is asked to do at a chip that holds the program of loop.s, and what each answer must be. The chip's harts start halted at its first word.
# The values are worked out by hand from the program, beside each check.

gdb_port disabled
telnet_port disabled
tcl_port disabled

# Whether t0 of the running hart grows: a halt later it holds more than before.
proc grows {} {
    set before [regs t0]
    resume
    sleep 20
    halt
    wait_halt 5000
    set after [regs t0]
    return [expr {$after > $before}]
}

# The hart's number, and what it holds behind its steps: they begin at the program's first word.
proc drive {hart} {
    global RELEASE
    # Debug Specification: a hart's registers through abstract commands. misa is RV64 with A, I and M.
    check "examined as RV64IMA" "0x8000000000001101 [format 0x%x $hart]" {regs misa mhartid}
    check "stands at the first word" 0x80000000 {regs pc}

    # addi t0, zero, 5; then t0 + 1 = 6; then t1 = pc of the auipc.
    check "step" "0x80000004 0x5" {step; regs pc t0}
    check "two more steps" "0x8000000c 0x6 0x80000008" {step; step; regs pc t0 t1}

    # The store writes t0 = 41, the load brings it to t2, and t3 = t3 + t2 = 1000 + 41 = 1041.
    check "registers are written" "0x29 0x3e8" {set_reg {t0 41}; set_reg {t3 1000}; regs t0 t3}
    check "steps use them" "0x80000018 0x29 0x411" {step; step; step; regs pc t2 t3}
    check "a jump is stepped" 0x80000004 {step; regs pc}
    check "pc is written" "0x80000008 0x2a" {set_reg {pc 0x80000004}; step; regs pc t0}
    check "a register of Machine Mode" 0x1234 {set_reg {mscratch 0x1234}; regs mscratch}

    # The words of the program, which stand in loop.s.
    set words "0x500293 0x128293 0x317 0x6533c23 0x7833383 0x7e0e33 0xfedff06f"
    riscv set_mem_access progbuf
    check "program buffer reads words" $words {read_memory 0x80000000 32 7}
    check "program buffer reads what was stored" 0x29 {read_memory 0x80000080 64 1}
    riscv set_mem_access sysbus
    check "system bus reads words" $words {read_memory 0x80000000 32 7}
    check "system bus reads what was stored" 0x29 {read_memory 0x80000080 64 1}

    # Each path writes in sizes of its own, and the other reads the bytes back, the lowest first.
    check "system bus writes bytes" "0x4030201" {write_memory 0x80001000 8 {1 2 3 4}; riscv set_mem_access progbuf; read_memory 0x80001000 32 1}
    check "program buffer writes doublewords" "0x55667788 0x11223344" {write_memory 0x80001000 64 0x1122334455667788; riscv set_mem_access sysbus; read_memory 0x80001000 32 2}
    check "system bus writes halfwords" "0x66 0x77 0x55 0x44" {write_memory 0x80001002 16 {0x7766 0x4455}; riscv set_mem_access progbuf; read_memory 0x80001002 8 4}
    check "program buffer writes words" "0xcafe 0xf00d" {write_memory 0x80001008 32 0xf00dcafe; riscv set_mem_access sysbus; read_memory 0x80001008 16 2}
    set block {}
    for {set i 0} {$i < 64} {incr i} { lappend block [format 0x%x [expr {$i * 0x1010101}]] }
    check "blocks by both paths" $block "write_memory 0x80002000 32 {$block}; riscv set_mem_access progbuf; read_memory 0x80002000 32 64"
    check "no memory is refused" "error: read_memory: failed to read memory" {read_memory 0x90000000 32 1}
    check "reads go on behind it" 0x29 {read_memory 0x80000080 64 1}

    # A breakpoint at the add behind the load: the hart runs from 0x80000008, stores t0 = 42 there, and stops before the add, with t3 still 1041.
    # One turn of the loop later t0 is 43 and t3 is 1041 + 42 = 1083.
    check "hardware breakpoint" "0x80000014 0x2a 0x2a 0x411" {bp 0x80000014 4 hw; go; regs pc t0 t2 t3}
    # The trigger that stopped it is slot 0: of type 6 with its hit at bit 22, and of release 0.13 of type 2 with its hit at bit 20.
    check "the breakpoint's type, and its hit" [expr {$RELEASE eq "0.13" ? "2 1" : "6 1"}] {
        set_reg {tselect 0}
        set tdata1 [regs tdata1]
        set type [expr {$tdata1 >> 60 & 15}]
        list $type [expr {$tdata1 >> ($type == 2 ? 20 : 22) & 1}]
    }
    check "hardware breakpoint again" "0x80000014 0x2b 0x2b 0x43b" {go; regs pc t0 t2 t3}
    # dcsr.cause, bits 8 to 6, is 2 for a trigger.
    check "cause of the breakpoint" 2 {expr {([regs dcsr] >> 6) & 7}}
    check "step from a breakpoint" "0x80000018 0x466" {step; regs pc t3}
    check "four breakpoints, and no fifth" "0x80000004 0x80000008 0x80000010 refused" {
        bp 0x80000004 4 hw
        bp 0x80000008 4 hw
        bp 0x80000010 4 hw
        go; set a [regs pc]; go; set b [regs pc]; go; set c [regs pc]
        if {[catch {bp 0x80000018 4 hw}]} { set d refused } else { set d taken }
        list $a $b $c $d
    }
    rbp all
    take_free_slots

    # A store watchpoint stops before the store: memory still holds t0 of the turn before, 44, and t0 is 45.
    check "store watchpoint" "0x8000000c 0x2d 0x2c" {wp 0x80000080 8 w; go; list {*}[regs pc t0] {*}[read_memory 0x80000080 64 1]}
    check "store watchpoint again" "0x8000000c 0x2e 0x2d" {go; list {*}[regs pc t0] {*}[read_memory 0x80000080 64 1]}
    rwp 0x80000080
    take_free_slots
    # A load watchpoint on a part of the doubleword stops before the load, at 0x80000010, behind the store of t0 = 46. t2 still holds 45.
    check "load watchpoint" "0x80000010 0x2e 0x2d" {wp 0x80000084 4 r; go; regs pc t0 t2}
    rwp 0x80000084
    take_free_slots
    # An access watchpoint stops at both: behind the load where the hart stands comes the store of 47, and then its load.
    check "access watchpoint" "0x8000000c 0x80000010 0x8000000c" {wp 0x80000080 8 a; go; set a [regs pc]; go; set b [regs pc]; go; list $a $b [regs pc]}
    rwp 0x80000080
    take_free_slots

    # A breakpoint of software is a word ebreak in the place of the add; behind it the word is as before. It has cause 1.
    check "software breakpoint" "0x80000014 1 0x100073" {bp 0x80000014 4; go; list [regs pc] [expr {([regs dcsr] >> 6) & 7}] {*}[read_memory 0x80000014 32 1]}
    check "software breakpoint is taken back" 0x7e0e33 {rbp 0x80000014; read_memory 0x80000014 32 1}

    check "runs and halts" 1 grows
    # 3 is a halt request.
    check "cause of the halt" 3 {expr {([regs dcsr] >> 6) & 7}}
    # From the first word t0 is 5 and then 6.
    check "resumes at an address" "0x80000008 0x6" {bp 0x80000008 4 hw; resume 0x80000000; wait_halt 5000; regs pc t0}
    rbp 0x80000008
    take_free_slots
}

# What only several harts can show: each is stopped, held and let go alone.
proc drive_together {harts} {
    foreach hart $harts { targets chip.cpu$hart; set_reg [list t0 [expr {$hart * 100 + 7}]]; set_reg {pc 0x80000004} }
    targets chip.cpu0
    check "each hart has its registers" "0x7 0x6b 0xcf 0x133" {
        set all {}
        foreach hart {0 1 2 3} { targets chip.cpu$hart; lappend all [regs t0] }
        set all
    }
    # One instruction of hart 2 alone: its t0 is 208.
    check "one steps and the others stand" "0x7 0x6b 0xd0 0x133" {
        targets chip.cpu2
        step
        set all {}
        foreach hart {0 1 2 3} { targets chip.cpu$hart; lappend all [regs t0] }
        set all
    }
    check "one runs and the others stand" "running halted halted halted" {
        targets chip.cpu0
        resume
        sleep 20
        poll
        list [chip.cpu0 curstate] [chip.cpu1 curstate] [chip.cpu2 curstate] [chip.cpu3 curstate]
    }
    # The slots of a hart are its own: hart 0 runs past the address of the breakpoint of hart 3, which stops there with t0 = 307 + 1.
    check "a breakpoint is one hart's" "0x80000008 0x134 running" {
        targets chip.cpu3
        bp 0x80000008 4 hw
        go
        list {*}[regs pc t0] [chip.cpu0 curstate]
    }
    rbp 0x80000008
    check "the running one halts" halted {
        targets chip.cpu0
        halt
        wait_halt 5000
        chip.cpu0 curstate
    }
}

# What only a chain can show, of its devices in the order of TDI to TDO. OpenOCD polls the chip before each command, which would scan between two of these.
proc drive_chain {devices} {
    global taps ones
    set taps {}
    set ones {}
    set codes {}
    set place 0
    foreach device $devices {
        incr place
        if {$device eq "t"} { set device 5; lappend taps chip.cpu; lappend codes 0x10d64001 } else { lappend taps device$place.tap; lappend codes 0x10000001 }
        lappend ones [expr {(1 << $device) - 1}]
    }
    poll off
    check "each device is identified" $codes {
        set all {}
        foreach tap $taps { lappend all [format 0x%08x [jtag cget $tap -idcode]] }
        set all
    }
    # The standard: BYPASS is one bit, which captures 0, and an instruction of ones selects it. With all in BYPASS, whichever is asked, what goes in comes
    # out behind as many zeros as there are devices.
    check "each device adds one bit in BYPASS" [lrepeat [llength $taps] [format %08x [expr {0x5a << [llength $taps]}]]] {
        set all {}
        foreach tap $taps code $ones {
            irscan $tap $code
            lappend all [drscan $tap 32 0x5a]
        }
        set all
    }
    check "the chip is identified behind that" 10d64001 {irscan chip.cpu 1; drscan chip.cpu 32 0}
    poll on
    check "and its harts answer" 0x8000000000001101 {targets chip.cpu0; regs misa}
}

# dmstatus names the release: 2 is 0.13, and 3 is 1.0.
init
check "version of the debug module" [expr {$RELEASE eq "0.13" ? 2 : 3}] {expr {[riscv dmi_read 0x11] & 15}}
for {set hart 0} {$hart < $HARTS} {incr hart} {
    targets chip.cpu$hart
    halt
    wait_halt 5000
    take_free_slots
    drive $hart
    # The next hart finds the program as it was.
    write_memory 0x80000080 64 0
}
if {$HARTS == 4} { drive_together {0 1 2 3} }
if {[llength $devices] > 1} { drive_chain $devices }
echo "driven with $failures failures"
shutdown
