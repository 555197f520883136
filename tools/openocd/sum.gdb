# GDB at the program of sum.s. Each line that begins with `:` is compared with sum.wanted.
set pagination off
set confirm off
set width 0
set remotetimeout 30
target extended-remote localhost:3333
load
compare-sections
printf ": entry %d\n", $pc == (long) &_start
break square
continue
printf ": first argument %d\n", $a0
printf ": called from %d\n", $ra == (long) &next + 20
stepi
printf ": its square %d\n", $a0
continue
printf ": second argument %d\n", $a0
finish
printf ": back with %d\n", $a0
nexti
printf ": total so far %d\n", $s2
delete
tbreak square
continue
printf ": third argument %d\n", $a0
set var $a0 = 10
finish
printf ": a square of ten %d\n", $a0
set var $a0 = 9
print *(long *) &total
printf ": nothing stored %d\n", *(long *) &total
watch *(long *) &total
continue
printf ": a store is seen %d %d\n", *(long *) &total, $s2
delete
break done
continue
printf ": numbers %d %d %d %d %d\n", ((long *) &numbers)[0], ((long *) &numbers)[1], ((long *) &numbers)[2], ((long *) &numbers)[3], ((long *) &numbers)[4]
printf ": sum %d\n", *(long *) &total
set var *(long *) &total = -7
printf ": written %d\n", *(long *) &total
set var $pc = _start
delete
hbreak square
continue
printf ": argument of hbreak %d\n", $a0
delete
stepi
stepi
printf ": returned %d\n", $pc == (long) &next + 20
detach
quit
