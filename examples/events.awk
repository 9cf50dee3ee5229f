# A log of events to the text form: on each line a time, and the name of what happened then. tick is
# how long a tick takes, in the unit of the times, and start is the time that becomes 0.
BEGIN { FS = "[ \t\r]+"; if (!tick) tick = 1 }
function stop(why) { print "line " NR ": " why > "/dev/stderr"; exit 1 }
$1 !~ /^-?[0-9]+[.]?[0-9]*$/ { stop($1 " is no time") }
$2 == "" { stop("no name") }
$1 < start + 0 { stop("before start") }
{ now = int(($1 - start) / tick + 0.5) }
now < last { stop("the time goes back") }
now > last { printf "%.0f\n", now - last; last = now }
{ gsub(/[^A-Za-z0-9_.]/, "_", $2); print "@ " $2 }
