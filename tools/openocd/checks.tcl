# How answers of a chip are checked, for drive.tcl and ping.tcl. RELEASE is 1.0, or 0.13 where the chip is served with --v013.

if {![info exists RELEASE]} { set RELEASE 1.0 }
set failures 0

# One answer. A command that fails answers its message.
proc check {name wanted command} {
    global failures
    if {[catch {uplevel #0 $command} got]} { set got "error: $got" }
    set got [string trim $got]
    if {$got eq $wanted} {
        echo "ok $name"
    } else {
        incr failures
        echo "FAILED $name: '$got' and not '$wanted'"
    }
}

# The values of registers, as numbers in hexadecimal without leading zeros.
proc regs {args} {
    set values {}
    foreach {name value} [get_reg -force $args] { lappend values [format 0x%llx $value] }
    return $values
}

# Goes on until the next stop.
proc go {} {
    resume
    wait_halt 5000
}
