# A log of changes to the text form: on each line a time, a signal, and its value from then on, 0 or
# 1. tick is how long a tick takes, in the unit of the times, and start is the time that becomes 0.
BEGIN { FS = "[ =\t\r]+"; if (!tick) tick = 1 }
function stop(why) { print "line " NR ": " why > "/dev/stderr"; exit 1 }
$1 !~ /^-?[0-9]+[.]?[0-9]*$/ { stop($1 " is no time") }
$3 !~ /^[01]$/ { stop($3 " is neither 0 nor 1") }
$1 < start + 0 { stop("before start") }
{ now = int(($1 - start) / tick + 0.5) }
now < last { stop("the time goes back") }
now > last { on = ""; for (i = 1; i <= signals; i++) if (value[name[i]] == 1) on = on " " name[i] }
now > last { printf "%.0f%s\n", now - last, on; last = now }
!($2 in value) { name[++signals] = $2 }
{ value[$2] = $3 }
